#!/usr/bin/env node
// Runs nicbench's WebAssembly module as a command, with the program's arguments, standard input, output and status.
// NIC82599_WASM names a module other than the one that plain/wasm/make builds.

import { existsSync, readFileSync, writeSync } from "node:fs";
import { compile } from "./nicbench.mjs";

const module = process.env.NIC82599_WASM ?? new URL("../out/wasm/nicbench.wasm", import.meta.url);
const MISSING = 2;
// Commands that read nothing. Other commands wait for the end of the input, as the program does.
const ALONE = new Set(["threads", "help"]);

function writeAll(bytes) {
    for (let at = 0; at < bytes.length; ) {
        at += writeSync(1, bytes, at);
    }
}

if (!existsSync(module)) {
    console.error(`nicbench: there is no module ${module}: run plain/wasm/make, or name one in NIC82599_WASM`);
    process.exit(MISSING);
}
const words = process.argv.slice(2);
const bench = await compile(readFileSync(module));
const input = words.length === 0 || ALONE.has(words[0]) ? "" : readFileSync(0);
const { status, bytes } = await bench.run(words, input);
writeAll(bytes);
process.exitCode = status;
