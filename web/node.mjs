#!/usr/bin/env node
// The page's worker in Node, for tests. It reads messages as lines of JSON, `{"what": .., "given": [..]}`, and prints
// the worker's reply to each message, `{"made": ..}` or `{"fault": ..}`. Bytes are `{"base64": ".."}` in both
// directions.
//
//     web/node.mjs web/out/bench.html [PROGRAM] < messages
//
// With PROGRAM, a nicbench, that program answers instead of the module, so the page can be tested without the module.

import { spawnSync } from "node:child_process";
import { readFileSync } from "node:fs";
import { createInterface } from "node:readline";

const page = readFileSync(process.argv[2], "utf8");
const part = (id) => new RegExp(`<script type="text/plain" id="${id}">([^]*?)</script>`).exec(page)[1];
const inward = (value) =>
  value?.base64 === undefined ? value : new Uint8Array(Buffer.from(value.base64, "base64"));
const outward = (key, value) => (value instanceof Uint8Array ? { base64: Buffer.from(value).toString("base64") } : value);

let answer = null;
const worker = { onmessage: null };
const text = part("model").replace(/^onmessage = /m, "worker.onmessage = ");
const program = process.argv[3];
function byProgram(words, input = "") {
  const { status, stdout } = spawnSync(program, words, { input, maxBuffer: 1 << 28 });
  return { status, bytes: new Uint8Array(stdout), text: stdout.toString() };
}
const begun = program ? `${text}\nbench = byProgram;` : text;
new Function("worker", "postMessage", "byProgram", begun)(worker, (made) => (answer = made), byProgram);
if (!program)
  worker.onmessage({ data: { id: 0, module: new WebAssembly.Module(Buffer.from(part("module"), "base64")) } });
for await (const line of createInterface({ input: process.stdin })) {
  const { what, given } = JSON.parse(line), began = process.cpuUsage();
  worker.onmessage({ data: { id: 1, what, given: given.map(inward) } });
  console.log(JSON.stringify({ ...answer, ms: process.cpuUsage(began).user / 1000 }, outward));
}
