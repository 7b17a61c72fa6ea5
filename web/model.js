// Answers requests from the tools' modules (MODULES) and from the page itself, using nicbench's WebAssembly module
// (NICBENCH, plain/wasm/nicbench.mjs). It runs in a worker, where instances may be created synchronously.
let wasm = null;
const LIMIT_OF_STEPS = 4096;

function bench(words, input = "") {
  const calls = new NICBENCH.Calls(new WebAssembly.Instance(wasm));
  calls.write(NICBENCH.WORDS, NICBENCH.lineOf(["nicbench", ...words]));
  calls.write(NICBENCH.INPUT, NICBENCH.bytesOf(input));
  const status = calls.run(), bytes = calls.read(NICBENCH.PRINTED);
  return { status, bytes, text: new TextDecoder().decode(bytes) };
}

// The tools' program, as script.py calls it: its status and output, Refused or Fault.
const { Bench, Refused, Fault } = MODULES.script;
Bench.prototype.call = function call(words, input) {
  const { status, bytes, text } = bench(words, input);
  const refused = status === 2 && /^refused (\w+)(?: (\d+))?\n$/.exec(text);
  if (refused) throw new Refused(refused[1], Number(refused[2] ?? 0));
  if (status > (words[0] === "run" ? 1 : 0) || !bytes.length)
    throw new Fault(`nicbench ${words.join(" ")} exited with status ${status}: ${text || "it printed nothing"}`, true);
  return [status, bytes];
};
Bench.prototype.call.names = ["words", "input"];

const fresh = ({ vfs = null, fifo = null }) => new Bench(vfs, fifo);

// Returns a script's answers: the reply to each line, and the last line of the run; or the refusals with their
// locations.
function answers(name, text, sizes) {
  const own = MODULES.run.bench_of(fresh(sizes), text), script = MODULES.script.script_part(text);
  try {
    const loaded = MODULES.script.of_text(own, name, script);
    const printed = own.run(script, LIMIT_OF_STEPS), last = printed.pop();
    return { options: own.options, last, replies: repliesOf(loaded, printed, last), lines: loaded.line_of };
  } catch (fault) {
    if (!(fault instanceof Refused)) throw fault;
    return { refused: refusalsOf(own, script, fault) };
  }
}
// Returns the reply to each line, the last one if a line runs several times, and how often it ran.
function repliesOf(script, printed, last) {
  const replies = new Map();
  for (const line of printed) {
    const cut = line.indexOf(" "), number = script.line_of[Number(line.slice(0, cut))];
    replies.set(number, [line.slice(cut + 1), (replies.get(number)?.[1] ?? 0) + 1]);
  }
  const failed = /^failed (\d+) /.exec(last);
  if (failed) replies.set(script.line_of[Number(failed[1])], [last, 1]);
  return [...replies];
}
const MOST_SHOWN = 20;
function refusalsOf(own, text, first) {
  const found = [];
  for (const [refused, shown] of MODULES.refusals.refusals(own, text, first)) {
    const { line, column, length, text: words, near } = MODULES.forms.explained(shown, refused);
    found.push({ name: refused.name, line, column, length, words, near });
    if (found.length === MOST_SHOWN) break;
  }
  return found.sort((a, b) => a.line - b.line);
}

// Returns what nicview shows of a script, in page.py's format.
function view(name, text, sizes) {
  const raw = new TextEncoder().encode(text);
  const run = MODULES.run.of_script(fresh(sizes), name, LIMIT_OF_STEPS, raw);
  return P.plain(new MODULES.page.Data(run).whole());
}

// Returns the run as a test in C or in Python, like nicview --test.
function test(language, name, text, sizes) {
  const own = MODULES.run.bench_of(fresh(sizes), text), script = MODULES.script.script_part(text);
  const loaded = MODULES.script.of_text(own, name, script);
  return MODULES.as_test.written(language, loaded, own.run(script, LIMIT_OF_STEPS), own);
}

// Returns the form's frame as a line of a script, and what receive side scaling does with it.
function packet({ kind, from, to, fromPort, toPort, macTo, macFrom, tag, payload, length, name, type }) {
  const { made, ethernet, mac, arp, Rss } = MODULES.packets, octets = P.bytes.fromhex(payload ?? "");
  const how = { to: mac(macTo), tags: tag === "" ? [] : [Number(tag)] };
  if (kind === "arp" || kind === "ether") {
    const body = kind === "arp" ? P.keywords(arp, [from, to], { source: mac(macFrom) }) : octets;
    return lineOfFrame(name, P.keywords(ethernet, [kind === "arp" ? 0x0806 : Number(type), body], { ...how, source: mac(macFrom) }));
  }
  const more = { ...how, source_mac: mac(macFrom), length: length === "" ? null : Number(length) };
  const given = [kind, from, to, Number(fromPort), Number(toPort)];
  return lineOfFrame(name, P.keywords(made, given, { ...more, payload: payload === "" ? null : octets }), new Rss());
}
function lineOfFrame(name, frame, rss = null) {
  const type = rss?.type_of(frame), types = MODULES.frames.RSS_TYPES;
  const hash = type ? `; RSS type ${types.get(type)}, hash 0x${rss.hash_of(frame).toString(16).padStart(8, "0")} under Microsoft's RSS verification key` : "";
  return { line: `data ${name} ${P.call(frame, "hex")}`, said: MODULES.frames.summary(frame) + hash };
}
// Returns the lines of a script for a capture, like pcap2nic.
const MOST_FRAMES = 1024, LONGEST = 16384;
function capture(octets, name) {
  const data = [], arrivals = [];
  for (const frame of MODULES.pcap.frames_of(octets)) {
    const number = data.length + 1;
    if (number > MOST_FRAMES) throw new Fault(`the capture has more than the ${MOST_FRAMES} frames that a script can name`);
    if (!frame.length || frame.length > LONGEST)
      throw new Fault(`frame ${number} is ${frame.length} bytes long, but a script accepts 1 to ${LONGEST}`);
    data.push(`data ${name}${number} ${P.call(frame, "hex")}`);
    arrivals.push(`arrive ${name}${number}`);
  }
  return [...data, ...arrivals].join("\n") + "\n";
}

// Returns whether a script solves a lesson: it runs, the lesson's additional lines are reached and hold, and it prints
// what the lesson requires. web/lessons.py checks the same for submitted files.
function solved(text, { check, wants, sizes }) {
  const own = fresh(sizes), whole = `${text.trimEnd()}\n${check}\nr STATUS\n`;
  try {
    const loaded = MODULES.script.of_text(own, "lesson", whole), printed = own.run(whole, LIMIT_OF_STEPS);
    const last = printed.pop(), failed = /^failed (\d+) have (\w+) want (\w+)/.exec(last);
    if (failed) {
      const line = loaded.lines[loaded.line_of[Number(failed[1])] - 1], isOwn = loaded.line_of[Number(failed[1])] <= text.trimEnd().split("\n").length;
      return { is: false, why: isOwn ? `Your line \`${line.trim()}\` fails: the value is ${failed[2]}.` : `${remark(line)} The value is ${failed[2]} instead of ${failed[3]}.` };
    }
    const end = loaded.instructions.length - 1, isReached = printed.some((it) => it.startsWith(`${end} word `));
    if (!last.startsWith("ok") || !isReached) return { is: false, why: "The script doesn't reach its end." };
    const replies = printed.map((it) => it.slice(it.indexOf(" ") + 1)), missing = wants.find((it) => !replies.includes(it));
    return missing ? { is: false, why: `The output lacks the line \`${missing}\`.` } : { is: true, why: "Solved." };
  } catch (fault) {
    if (!(fault instanceof Refused)) throw fault;
    const [first] = refusalsOf(own, whole, fault);
    return { is: false, why: `The bench refuses line ${fault.line}: ${first?.words ?? fault.name}.` };
  }
}
const remark = (line) => (line.includes("#") ? `${line.slice(line.indexOf("#") + 1).trim()}.` : "A check fails.");
// Returns niclint's first reason why a step did nothing or failed, for a lesson's hint.
function reason(name, text, sizes) {
  const run = MODULES.run.of_script(fresh(sizes), name, LIMIT_OF_STEPS, new TextEncoder().encode(text));
  for (const [step, reasons] of P.zip(run.steps, run.reasons)) {
    const held = reasons.filter((it) => it.held).map((it) => it.text);
    if (held.length) return `Line ${run.line(step.pc)}, \`${run.shown(step.pc)}\` → ${step.answer}: ${held.join("; ")}.`;
  }
  const warned = run.warnings.items()[0];
  return warned ? `Line ${run.line(warned[0])}: ${warned[1][0]}.` : "";
}
const dataAt = (bytes) => P.call(bytes, "hex");
function listing(text) {
  const made = bench(["asm"], text);
  if (made.status) return { object: "", listing: made.text };
  return { object: dataAt(made.bytes), listing: bench(["dis"], made.bytes).text };
}
