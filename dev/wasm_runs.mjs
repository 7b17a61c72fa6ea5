// Runs nicbench's WebAssembly module on many inputs, for dev/check_wasm. Each line of JSON on standard input is a run,
// {"words": [..], "input": ..}. Its line on standard output is {"status": .., "out": ..}, or {"fault": ..} if the
// module trapped. Arguments, input and output are in base64.
//
//     node dev/wasm_runs.mjs MODULE
//     node dev/wasm_runs.mjs MODULE --stop     requests a string that the module doesn't have, which is a fault, and
//                                              prints what Fault reports

import { readFileSync } from "node:fs";
import { createInterface } from "node:readline";
import { Calls, compile, Fault } from "../plain/wasm/nicbench.mjs";

const bytesOf = (text) => new Uint8Array(Buffer.from(text, "base64"));
const module = readFileSync(process.argv[2]);
const bench = await compile(module);

async function answer(words, input) {
    try {
        const { status, bytes } = await bench.run(words.map(bytesOf), bytesOf(input));
        return { status, out: Buffer.from(bytes).toString("base64") };
    } catch (fault) {
        if (fault instanceof Fault) {
            return { fault: fault.message };
        }
        throw fault;
    }
}

async function stopped() {
    const calls = new Calls((await WebAssembly.instantiate(module)).instance);
    calls.write(0, new Uint8Array(1));
    try {
        calls.write(9, new Uint8Array(1));
    } catch (fault) {
        return fault instanceof Fault ? fault.message : `no Fault, but ${fault}`;
    }
    return "no fault";
}

if (process.argv[3] === "--stop") {
    console.log(await stopped());
    process.exit();
}
for await (const line of createInterface({ input: process.stdin })) {
    const { words, input } = JSON.parse(line);
    process.stdout.write(`${JSON.stringify(await answer(words, input))}\n`);
}
