// Runs the nicbench program in a page, in a worker or in Node: takes arguments and input, and returns output and
// status.
//
//     import { compile } from "./nicbench.mjs";
//     const bench = await compile(fetch("nicbench.wasm"));
//     const { status, text } = await bench.run(["run"], "w CTRL 0x04000000\nr STATUS\n");

const WORDS = 0;
const INPUT = 1;
const PRINTED = 2;
const FAULT = 3;

const encoder = new TextEncoder();
const decoder = new TextDecoder();

// The program hit an internal fault; the message names its location.
export class Fault extends Error {
    name = "Fault";
}

function bytesOf(given) {
    return typeof given === "string" ? encoder.encode(given) : given;
}

// Joins arguments, each terminated by a 0 byte, as on a program's command line. None may contain that byte.
function lineOf(words) {
    const parts = words.map(bytesOf);
    const line = new Uint8Array(parts.reduce((sum, part) => sum + part.length + 1, 0));
    let at = 0;
    for (const part of parts) {
        if (part.includes(0)) {
            throw new TypeError("an argument contains a zero byte, which no command line can contain");
        }
        line.set(part, at);
        at += part.length + 1;
    }
    return line;
}

// The calls to a fresh instance, which module.rs describes. Each throws a Fault if the program has an internal fault.
export class Calls {
    #calls;

    constructor(instance) {
        this.#calls = instance.exports;
    }

    #bytes(at, length) {
        return new Uint8Array(this.#calls.memory.buffer, at >>> 0, length >>> 0);
    }

    #caught(call) {
        try {
            return call();
        } catch (error) {
            // (a stack overflow leaves no message)
            const text = decoder.decode(this.read(FAULT)) || error.message;
            throw new Fault(`internal fault in nicbench, not in its input: ${text}`, { cause: error });
        }
    }

    write(number, bytes) {
        const at = this.#caught(() => this.#calls.room(number, bytes.length));
        if (at === 0) {
            throw new RangeError(`there is no memory for ${bytes.length} bytes`);
        }
        this.#bytes(at, bytes.length).set(bytes);
    }

    read(number) {
        return this.#bytes(this.#calls.address(number), this.#calls.length(number)).slice();
    }

    run() {
        return this.#caught(() => this.#calls.run());
    }
}

class Bench {
    #module;

    constructor(module) {
        this.#module = module;
    }

    // Runs `nicbench WORDS..` on an input, which is a string or bytes. The result contains the program's exit status,
    // and its output as `bytes` and as `text`. The page is blocked until the program ends; to keep it responsive, use a
    // worker. Each run starts with fresh memory, so it can't see another run's data.
    async run(words, input = "") {
        const calls = new Calls(await WebAssembly.instantiate(this.#module));
        calls.write(WORDS, lineOf(["nicbench", ...words]));
        calls.write(INPUT, bytesOf(input));
        const status = calls.run();
        const bytes = calls.read(PRINTED);
        return { status, bytes, text: decoder.decode(bytes) };
    }
}

// Compiles the module from its bytes, from a response that contains them, or from a promise of either.
export async function compile(given) {
    const found = await given;
    if (found.ok === false) {
        throw new Error(`the module couldn't be loaded: status ${found.status} of ${found.url}`);
    }
    const bytes = typeof found.arrayBuffer === "function" ? await found.arrayBuffer() : found;
    return new Bench(await WebAssembly.compile(bytes));
}
