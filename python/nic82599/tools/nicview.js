"use strict";
// The page of a run. Position n is the machine after n steps, and describes step n - 1. Steps count from 0, as in
// nicview --svg, --text and niclint. All data comes from page.py.
const TROUBLE = ["failed", "fault", "dropped", "refused"];
let position = 0, playing = null;
/** @type {any} */
let run;
let count, start, registers, boxes;
function take(data) {
  run = data;
  count = run.steps.length;
  start = new Map(run.start);
  registers = new Map(Object.entries(run.registers).map(([address, names]) => [Number(address), names]));
  boxes = mailboxesOf(run);
}
take(JSON.parse(document.getElementById("data").textContent));
pinned = run.failed || null; // the ring that a finding names is in front until another is clicked

// Elements and text.

/** @type {(id: string) => any} (the type depends on the element) */
const element = (id) => document.getElementById(id);
/** @type {() => HTMLButtonElement[]} */
const nexts = () => [...document.querySelectorAll("[data-next]")].map((it) => /** @type {any} */ (it));
function make(tag, properties = {}, ...children) {
  const made = document.createElement(tag);
  Object.assign(made, properties);
  made.append(...children.filter((child) => child !== null));
  return made;
}
const span = (className, ...children) => make("span", { className }, ...children);
const cell = (text, className = "") => make("td", { className }, text);
const row = (cells, tag = "td") => make("tr", {}, ...cells.map((text) => make(tag, {}, text)));
const faint = (text) => make("p", { className: "faint" }, text);
const hex = (word) => "0x" + (word >>> 0).toString(16).padStart(8, "0");
const fields = (name, word) => run.fields[`${name}:${word >>> 0}`] || [];
const kindOf = (step) => step[4].k ?? "";
const groupOf = (kind) => (TROUBLE.includes(kind) ? "fault" : kind);
const replyOf = (step) => (kindOf(step) === "failed" ? run.last : run.texts[step[1]]);
const warningsOf = (step) => run.warnings[step[0]] ?? [];
const cut = (text, most) => (text.length > most ? text.slice(0, most - 2) + ".." : text);
// Shows the first parts of a list; the rest is in an element that expands.
function some(parts, most, what) {
  if (parts.length <= most + 1) return parts;
  const rest = make("details", {}, make("summary", {}, `and ${parts.length - most} more ${what}`));
  rest.append(...parts.slice(most));
  return [...parts.slice(0, most), rest];
}

// Updates the lent blocks, as the first and last block of each range.
function lentAfter(rows, [sign, first, last]) {
  const end = rows.at(-1);
  if (sign === "+") return end?.[1] === first - 1 ? [...rows.slice(0, -1), [end[0], last]] : [...rows, [first, last]];
  const parts = rows.flatMap(([a, b]) => (b < first || a > last ? [[a, b]] : [[a, first - 1], [last + 1, b]]));
  return parts.filter(([a, b]) => a <= b);
}
const isLent = (rows, block) => rows.some(([first, last]) => first <= block && block <= last);
// Returns the scroll position at which the first visible row of a list isn't cut off.
const wholeRow = (rows, top, under = 0) =>
  Math.max(0, ...[...rows].map((one) => one.offsetTop - under).filter((at) => at <= top));
// A note in a virtual machine's recording about a ring: where it is in the guest.
const RING_OF_GUEST = /guest: the ring of ((?:rx|tx) \d+) is at (0x[0-9a-f]+)/g;
// Returns the machine's state after n steps.
function machine(n) {
  const state = {
    words: new Map(start), memory: new Map(), lent: [], waiting: [], out: [], routes: run.routes, guest: new Map(),
  };
  const moved = (list, [sign, frames]) =>
    sign === "+" ? list.concat(frames) : list.filter((one) => !frames.includes(one));
  for (let k = 0; k < n; k++) {
    const [pc, , , changes, more] = run.steps[k];
    for (const [, name, address] of (run.comments[pc] ?? "").matchAll(RING_OF_GUEST)) state.guest.set(name, address);
    for (const [address, word] of changes) state.words.set(address, word);
    for (const [unit, content] of more.m || []) state.memory.set(unit, content);
    for (const one of more.l || []) state.lent = lentAfter(state.lent, one);
    for (const one of more.w || []) state.waiting = moved(state.waiting, one);
    for (const one of more.o || []) state.out = moved(state.out, one);
    if (more.r) state.routes = more.r;
  }
  [state.routes, state.vectors] = [state.routes[0].map((text) => run.texts[text]), state.routes[1]];
  return state;
}
// Returns a register's value after n steps, found by searching backwards. `contentAfter` does the same for 16 bytes of
// memory.
function wordAfter(address, n) {
  for (let k = n - 1; k >= 0; k--) for (const [at, word] of run.steps[k][3]) if (at === address) return word;
  return start.get(address) ?? 0;
}
function contentAfter(unit, n) {
  for (let k = n - 1; k >= 0; k--) for (const [at, content] of run.steps[k][4].m || []) if (at === unit) return content;
  return null;
}
const blockOf = (address) => Math.floor(address / 2048);
const unknown = (state, address) => (isLent(state.lent, blockOf(address)) ? "not read" : "not lent");

// Changes: digits, fields and bits that differ are highlighted, and the ones that are gone are struck out.

function litDigits(old, word) {
  const [before, after] = [hex(old), hex(word)], shown = make("code", {});
  for (let k = 0; k < after.length; k++)
    shown.append(after[k] === before[k] ? after[k] : make("b", { className: "lit" }, after[k]));
  return shown;
}
const isList = (value) => /^\d+( \d+)+$/.test(value ?? "");
function litFields(before, after) {
  const old = new Map(before), parts = [];
  for (const [name, value] of after) {
    const was = old.get(name);
    old.delete(name);
    if (was === value) parts.push([`${name} ${value}`]);
    else if (was !== undefined && (isList(was) || isList(value))) parts.push([name, ...litList(was, value)]);
    else parts.push([span("lit", `${name} ${value}`)]);
  }
  for (const [name, value] of old) parts.push([make("s", {}, `${name} ${value}`)]);
  return parts.flatMap((part, k) => (k ? [", ", ...part] : part));
}
function litList(before, after) {
  const [old, now] = [before.split(" "), after.split(" ")];
  const shown = now.map((bit) => (old.includes(bit) ? bit : span("lit", bit)));
  const gone = old.filter((bit) => !now.includes(bit)).map((bit) => make("s", {}, bit));
  return [...shown, ...gone].flatMap((one) => [" ", one]);
}
const change = (...parts) => make("div", { className: "change" }, ...parts);
function registerChange(n, [address, word]) {
  const [name, kind] = registers.get(address), old = wordAfter(address, n - 1);
  const words = span("words", make("code", { className: "old" }, hex(old)), " → ", litDigits(old, word));
  const changes = span("fields", ...litFields(fields(kind, old), fields(kind, word)));
  return change(make("b", { className: "mono", title: run.meanings[kind] || "" }, name), words, changes);
}
function memoryChange(n, state, [unit, content]) {
  const ring = ringAt(state, unit, run.steps[n - 1][4].g), old = contentAfter(unit, n - 1);
  const where = `0x${unit.toString(16)}`;
  if (!ring) return change(make("b", { className: "mono" }, `memory ${where}`), make("code", {}, content));
  const [before, after] = [old, content].map((one) => (one ? run.descriptors[ring.side + one] : null));
  const slot = `${ring.name} slot ${(unit - ring.base) / 16}`;
  const title = make("b", { className: "mono", title: `16 bytes at ${where}` }, slot);
  const form = span("words", before && before[0] !== after[0] ? `${before[0]} → ` : "", span("strong", after[0]));
  return change(title, form, span("fields", ...litFields(before ? before[2] : [], after[2])));
}
function showChanges(n, state, changes, more) {
  const rows = changes.map((one) => registerChange(n, one));
  for (const one of more.m || []) if (one[2] && one[1] !== null) rows.push(memoryChange(n, state, one));
  for (const [sign, first, last] of more.l || []) {
    const [name, is] = first < last ? [`blocks ${first} to ${last}`, "are"] : [`block ${first}`, "is"];
    const way = sign === "+" ? `${is} lent to the device` : `${is} taken back from the device`;
    rows.push(change(make("b", { className: "mono" }, name), span("", way)));
  }
  const none = faint("No register or slot changed.");
  element("changes").replaceChildren(...(rows.length ? some(rows, 5, "changes") : [none]));
}

// Shows the step, interrupts, and frames.

function showNow(n, state) {
  const now = element("now");
  const pcOf = n ? run.steps[n - 1][0] : -1, said = n ? run.comments[pcOf] : "";
  const title = n ? `Step ${n - 1}, line ${run.before + run.line_of[pcOf]}` : "At the start";
  element("now-title").replaceChildren(title, ...(said ? [" \u00b7 ", span("who", said)] : []));
  if (!n) {
    element("answer").replaceChildren(`${count} steps; the last line is `, make("code", {}, run.last));
    for (const id of ["now", "changes", "moved"]) element(id).replaceChildren();
    return;
  }
  const [pc, , acc, changes, more] = run.steps[n - 1], reply = replyOf(run.steps[n - 1]);
  const tone = { fault: "bad", message: "good", idle: "odd", stray: "odd" }[groupOf(more.k)] ?? "";
  const answer = make("code", { className: tone, title: reply }, cut(reply, 80) || `acc ${hex(acc)}`);
  element("answer").replaceChildren(make("code", {}, run.shown[pc]), " → ", answer);
  const reasons = (more.y || []).map(([held, text]) => make("li", { className: held ? "held" : "" }, run.texts[text]));
  // The conditions depend on the machine before the step; everything else on the page describes the machine after it.
  const decided = () => [faint("Before this step:"), make("ul", { className: "why" }, ...reasons)];
  const warned = warningsOf(run.steps[n - 1]).map((text) => make("li", {}, text));
  now.replaceChildren(...(reasons.length ? decided() : []));
  if (warned.length) now.append(faint("niclint warning on this line:"), make("ul", { className: "warned" }, ...warned));
  if (more.s === "ended") now.append(faint(`The run ended here: ${run.last}`));
  const words = { "w+": "Waiting", "w-": "No longer waiting", "o+": "Out", "o-": "Collected" }, moved = [];
  for (const [key, all, way] of [["w", run.arrived, "arrived"], ["o", run.sent, "sent"]])
    for (const [sign, frames] of more[key] || [])
      moved.push(...frames.map((frame) => frameDetails(all[frame], way, words[key + sign] + ": ")));
  element("moved").replaceChildren(...some(moved, 3, "frames"));
  showChanges(n, state, changes, more);
}
function showInterrupts(state, before) {
  const parts = [], keys = ["cause", "mask", "clear", "auto"];
  for (const group of run.groups) {
    const [kept, old] = [state, before].map(({ words }) => keys.map((key) => words.get(group[key]) ?? 0)), rows = [];
    const any = kept.reduce((all, word) => all | word, 0);
    const dot = (word, bit, k) => {
      const [is, was] = [(word >>> bit) & 1, (old[k] >>> bit) & 1];
      return is === was ? (is ? "●" : "") : span("lit", is ? "●" : "○");
    };
    for (let bit = 0; bit < 32; bit++) {
      if (!(((any | old.reduce((all, word) => all | word, 0)) >>> bit) & 1)) continue;
      const vector = group.name !== "pf" || bit < 16 ? bit : state.vectors[bit === 30 ? 1 : 0];
      const number = vector === null ? span("bad", "none") : `${vector}`;
      rows.push(row([group.bits[bit], ...kept.map((word, k) => dot(word, bit, k)), number]));
    }
    const own = group.name === "pf" ? "" : "PVT";
    const shown = [["pending", "EICR"], ["enabled", "EIMS"], ["auto-clear", "EIAC"], ["auto-mask", "EIAM"]];
    const titles = row([group.name, ...shown.map(([title, name]) => `${title} (${own}${name})`), "vector"], "th");
    if (rows.length) parts.push(make("div", { className: "scroll" }, make("table", {}, titles, ...rows)));
  }
  const routes = faint(state.routes.join("; ")), title = make("summary", {}, "Which cause each queue raises");
  if (state.routes.length) parts.push(state.routes.length > 3 ? make("details", {}, title, routes) : routes);
  element("interrupts-part").hidden = !run.groups.length;
  element("interrupts").replaceChildren(...(parts.length ? parts : [faint("No cause, mask or vector is set.")]));
}
// Returns the mailboxes that the run uses, by virtual function: the registers of both sides that the run changes, and
// the words that it changes or that aren't 0 at the start.
function mailboxesOf({ steps, vfs }) {
  const found = new Map(), touched = new Set(steps.flatMap((step) => step[3].map(([address]) => address)));
  for (const [address, [name, kind]] of registers) {
    const index = Number(/\[(\d+)\]$/.exec(name)?.[1] ?? 0), isWord = kind === "PFMBMEM";
    const holds = touched.has(address) || (isWord && start.get(address));
    if (!holds || !(isWord || kind === "PFMAILBOX" || kind === "PVFMAILBOX")) continue;
    const v = isWord ? Math.floor(index / 16) : index, box = found.get(v) ?? { words: [] };
    if (v >= vfs) continue;
    if (isWord) box.words.push([index % 16, address]);
    else box[kind] = address;
    found.set(v, box);
  }
  return found;
}
function showMailboxes(state, before) {
  const shown = (kind, address) => {
    if (address === undefined) return ["nothing"];
    const [now, old] = [state, before].map(({ words }) => fields(kind, words.get(address) ?? 0));
    return now.length || old.length ? litFields(old, now) : ["nothing"];
  };
  const word = ([x, address]) => {
    const [now, old] = [state, before].map(({ words }) => words.get(address) ?? 0);
    return now || old ? [`${x}: `, span(now === old ? "" : "lit", hex(now)), " "] : [];
  };
  const rows = [...boxes].sort(([a], [b]) => a - b).map(([v, box]) => {
    const held = box.words.flatMap(word), cells = [`${v}`, shown("PFMAILBOX", box.PFMAILBOX)];
    cells.push(shown("PVFMAILBOX", box.PVFMAILBOX), held.length ? held : ["all 0"]);
    return make("tr", {}, ...cells.map((parts, k) => make("td", { className: k % 3 ? "" : "mono" }, ...parts)));
  });
  const titles = row(["Function", "PFMAILBOX", "VFMAILBOX", "Words"], "th");
  element("mailboxes-part").hidden = !boxes.size;
  element("mailboxes").replaceChildren(make("div", { className: "scroll" }, make("table", {}, titles, ...rows)));
}
// Returns a frame as one line that expands to its headers.
function frameDetails([step, queue, slots, packet, rss], way, title = "") {
  const whose = queue !== null ? `queue ${queue}` : "queue not known";
  const where = `${whose}, ${way} at step ${step}` + (slots.length ? `, in ${slots.join(", ")}` : "");
  const named = title && make("b", {}, title);
  if (packet === null) return make("details", {}, make("summary", {}, named, `a frame (${where})`));
  const [summary, layers, octets, length] = run.packets[packet];
  const list = (title, pairs) => make("dl", {}, make("dt", {}, make("b", {}, title)), make("dd", {}), ...pairs);
  const pair = ([key, value]) => [make("dt", {}, key), make("dd", {}, value)];
  const bytes = make("dd", { className: "mono" }, octets + (length > octets.length / 2 ? ".." : ""));
  const hashed = rss ? make("dl", {}, make("dt", {}, "RSS, according to its descriptor"), make("dd", {}, rss)) : "";
  return make("details", {}, make("summary", {}, named, `${summary} (${where})`),
    ...layers.map(([name, pairs]) => list(name, pairs.flatMap(pair))), hashed,
    make("dl", {}, make("dt", {}, "bytes"), bytes));
}
function showFrames(state, before) {
  const counted = (n, one, more) => (n === 0 ? `No frame ${one}` : n === 1 ? `1 frame ${one}` : `${n} frames ${more}`);
  const list = (title, frames, all, way) => [
    make("p", { className: frames.length ? "strong" : "" }, title),
    ...some(frames.map((one) => frameDetails(all[one], way)), 20, "frames"),
  ];
  const old = before.waiting.length, waited = old === state.waiting.length ? "" : `; before this step ${old || "none"}`;
  const waiting = counted(state.waiting.length, "is waiting to be received", "are waiting to be received");
  const most = (state.waiting.length ? `, of at most ${run.fifo}` : "") + waited;
  const out = counted(state.out.length, "is waiting to be collected", "are waiting to be collected");
  element("frames-part").hidden = !run.arrived.length && !run.sent.length;
  element("frames").replaceChildren(...list(waiting + most, state.waiting, run.arrived, "arrived"),
    ...(run.sent.length ? list(out, state.out, run.sent, "sent") : []));
}

// The script.

const rowOf = new Map(), latest = new Map();
let lastLine = null;
function next(from, test) {
  for (let k = from; k < count; k++) if (test(run.steps[k])) return k + 1;
}
function previous(from, test) {
  for (let k = from - 2; k >= 0; k--) if (test(run.steps[k])) return k + 1;
}
function buildLines() {
  const pcAt = new Map(run.line_of.map((line, pc) => [line, pc])), firstStep = new Map();
  run.steps.forEach((step, k) => firstStep.has(step[0]) || firstStep.set(step[0], k));
  const lines = run.lines.map((text, n) => {
    const [code, ...comment] = text.split("#"), pc = pcAt.get(n + 1);
    const rest = comment.length ? span("comment", "#" + comment.join("#")) : "";
    const isData = code.trimStart().startsWith("data ");
    const shown = code.trim() ? span(isData ? "code data" : "code", cut(code.trimEnd(), 400)) : "";
    const offset = run.offsets[pc] && !rest ? span("comment", `# ${run.offsets[pc]}`) : rest;
    const said = span("said", shown, offset);
    const line = make("li", { title: isData ? cut(text, 400) : "" }, span("number", `${run.before + n + 1}`), said);
    if (pc === undefined) {
      if (!code.trim() && comment.length) line.classList.add("remark");
      return line;
    }
    rowOf.set(pc, line);
    if (run.warnings[pc]) line.append(make("span", { className: "sign", title: run.warnings[pc].join("\n") }, "\u26a0"));
    line.append(span("reply"));
    if (firstStep.has(pc)) {
      line.classList.add("step");
      const isIt = (step) => step[0] === pc;
      line.addEventListener("click", () => show(next(position, isIt) ?? firstStep.get(pc) + 1));
    }
    return line;
  });
  element("lines").style.setProperty("--digits", `${`${run.before + lines.length}`.length + 1}ch`);
  element("lines").replaceChildren(...lines);
}
function showLines(n) {
  const made = new Map();
  for (let k = 0; k < n; k++) made.set(run.steps[k][0], run.steps[k]);
  for (const [pc, line] of rowOf) {
    const step = made.get(pc), kind = step ? groupOf(kindOf(step)) : "";
    const shown = step ? (kindOf(step) === "failed" ? "failed" : cut(replyOf(step), 40)) : "";
    if (latest.get(pc) === shown) continue;
    latest.set(pc, shown);
    line.lastChild.textContent = shown;
    line.lastChild.className = `reply ${{ fault: "fault", idle: "odd", stray: "odd" }[kind] ?? ""}`;
  }
  lastLine?.classList.remove("here");
  lastLine = n ? rowOf.get(run.steps[n - 1][0]) : null;
  lastLine?.classList.add("here");
  keepLine();
}
// Keeps the step's line in view in the script's box.
function keepLine() {
  const box = element("lines"), top = lastLine ? lastLine.offsetTop : 0;
  const isSeen = top > box.scrollTop + 20 && top < box.scrollTop + box.clientHeight - 50;
  const most = box.scrollHeight - box.clientHeight;
  if (!isSeen) box.scrollTop = wholeRow(box.children, Math.min(most, Math.max(0, top - box.clientHeight / 2)));
}
// Keeps the step's line in view after a resize, which may rewrap lines and move the script above everything else.
function resized() {
  keepLine();
  if (!lastLine) return;
  const { top, bottom } = lastLine.getBoundingClientRect(), first = document.querySelector("header").offsetHeight;
  if (top < first || bottom > innerHeight) scrollBy(0, top - first - 60);
}
// Shows the steps that changed the register searched for.
function showHits() {
  const wanted = element("search").value.trim().toUpperCase(), hits = element("hits");
  const address = [...registers].find(([, [name]]) => name === wanted || name === wanted + "[0]")?.[0];
  if (address === undefined) {
    hits.replaceChildren(faint(wanted ? "No step of this run can change a register of this name." : ""));
    return;
  }
  const [name, kind] = registers.get(address), now = wordAfter(address, position), found = [];
  let old = start.get(address);
  run.steps.forEach((step, k) => step[3].forEach(([at, word]) => {
    if (at !== address) return;
    const button = make("button", { className: "mono" }, `step ${k}: ${hex(old)} → ${hex(word)}`);
    button.addEventListener("click", () => show(k + 1));
    found.push(button);
    old = word;
  }));
  const described = fields(kind, now).map((field) => field.join(" ")).join(", ");
  const place = `${name} at 0x${address.toString(16).padStart(5, "0")}, now ${hex(now)}  ${described}`;
  const more = found.length > 200 ? `and ${found.length - 200} more` : found.length ? "" : "No step changed it.";
  hits.replaceChildren(make("p", { className: "mono" }, place), ...found.slice(0, 200), faint(more));
}

// Shows the failure that a script from the explorer reports, and its step.
function showFinding() {
  const found = run.finding, line = element("finding");
  line.hidden = !found;
  if (!found) return;
  const button = make("button", { title: "go to the step that failed" }, `step ${found.step}`);
  button.addEventListener("click", () => show(found.step + 1));
  const cut = found.cut ? [faintly(`The script ends before the failure: ${found.cut}.`)] : [];
  line.replaceChildren(make("strong", {}, `FAILED ${found.outcome}`), make("span", {}, found.words),
    ...(found.step === null ? [] : [button]), ...cut);
}
const faintly = (text) => span("faint", text);

// Navigation.

function show(n) {
  position = Math.max(0, Math.min(count, n));
  const state = machine(position), at = position ? `${position - 1}` : "start";
  element("slider").value = position;
  element("slider").setAttribute("aria-valuetext", position ? `step ${at}` : at);
  element("at").textContent = `${at} / ${Math.max(0, count - 1)}`;
  element("back").disabled = !position;
  element("on").disabled = position === count;
  // The button isn't disabled: it keeps the focus, and Shift still moves back.
  for (const button of nexts())
    button.setAttribute("aria-disabled", String(!next(position, isOf(button.dataset.next))));
  showNow(position, state);
  showRings(position, state);
  const before = machine(Math.max(0, position - 1));
  const when = position ? `after step ${at}` : "at the start";
  for (const one of document.querySelectorAll(".when")) one.textContent = when;
  showInterrupts(state, before);
  showMailboxes(state, before);
  showFrames(state, before);
  showLines(position);
  showHits();
  nameStep(at);
  document.dispatchEvent(new Event("moved"));
}
// The URL names the step. Chromium ignores more than 200 changes in ten seconds, and a live page or the slider may
// exceed that. So the first 150 changes happen immediately, and the rest at four per second.
let changes = 150, refilled = performance.now(), naming = 0;
function nameStep(at) {
  const now = performance.now();
  changes = Math.min(150, changes + (now - refilled) / 250);
  refilled = now;
  clearTimeout(naming);
  if (changes < 1) {
    naming = setTimeout(nameStep, 250, at);
    return;
  }
  changes -= 1;
  history.replaceState(null, "", `#${at}`);
}
// Returns the position that the URL names: `#15` is step 15. Without a number, it is the step at which the page opens
// (`Run.opening` in run.py).
function placeOf(hash) {
  if (hash === "#start") return 0;
  return /^#\d+$/.test(hash) ? Number(hash.slice(1)) + 1 : run.opening === null ? 0 : run.opening + 1;
}
function play(wanted = playing === null) {
  clearInterval(playing);
  playing = wanted ? setInterval(() => (position < count ? show(position + 1) : play(false)), 700) : null;
  if (wanted && position === count) show(0);
  element("play").textContent = wanted ? "Pause" : "Play";
}
const isOf = (kind) => (step) => (kind === "warning" ? warningsOf(step).length : groupOf(kindOf(step)) === kind);
function jump(kind, backwards) {
  const test = isOf(kind);
  const found = backwards ? previous(position, test) : next(position, test);
  if (found !== undefined) show(found);
}
function theme() {
  const root = document.documentElement, wanted = root.dataset.theme;
  const dark = wanted ? wanted === "dark" : matchMedia("(prefers-color-scheme: dark)").matches;
  root.dataset.theme = dark ? "light" : "dark";
}
function comments() {
  const hidden = element("script").classList.toggle("bare");
  element("comments").textContent = hidden ? "Show comments" : "Hide comments";
}
const help = (open) => element("keys").classList.toggle("open", open);
function keys(event) {
  if (event.ctrlKey || event.metaKey || event.altKey) return;
  if (event.key === "Escape") {
    help(false);
    event.target.blur?.();
    return;
  }
  if (event.target.id === "search") return;
  const moves = { ArrowLeft: -1, ArrowRight: 1, PageUp: -10, PageDown: 10, Home: -count, End: count };
  const letters = { f: "fault", m: "message", i: "idle", s: "stray", w: "warning" }, letter = event.key.toLowerCase();
  if (event.key in moves) show(position + moves[event.key]);
  else if (letter in letters) jump(letters[letter], event.shiftKey);
  else if (event.key === " " && event.target.tagName !== "BUTTON") play();
  else if (event.key === "/") element("search").focus();
  else if (event.key === "d") theme();
  else if (event.key === "c") comments();
  else if (event.key === "?") help();
  else return;
  event.preventDefault();
}
// Draws the marks below the slider, each wide enough to click. If several steps share a mark, the mark shows the first
// step of the worst kind.
function drawMarks() {
  const marks = element("marks"), width = marks.clientWidth, wide = 14, ranks = [...TROUBLE, "message", "idle", "stray", "warning"];
  const markOf = (step) => kindOf(step) || (warningsOf(step).length ? "warning" : "");
  const isApart = width / Math.max(1, count) >= wide, bins = new Map();
  run.steps.forEach((step, k) => {
    if (!markOf(step)) return;
    const at = ((k + 1) / count) * width, bin = isApart ? k : Math.floor(at / wide);
    const mark = bins.get(bin) ?? { rank: ranks.length, more: -1, left: isApart ? at : (bin + 0.5) * wide };
    const rank = ranks.indexOf(markOf(step));
    bins.set(bin, { ...mark, more: mark.more + 1, ...(rank < mark.rank ? { rank, k } : {}) });
  });
  marks.replaceChildren(...[...bins.values()].map(({ rank, k, more, left }) => {
    const said = ranks[rank] === "warning" ? "niclint warns" : cut(replyOf(run.steps[k]), 60);
    const title = `step ${k}: ${said}` + (more ? `, and ${more} more` : "");
    const style = `left:${((100 * left) / width).toFixed(3)}%`;
    const mark = make("button", { className: groupOf(ranks[rank]), title, tabIndex: -1, style });
    mark.addEventListener("click", () => show(k + 1));
    return mark;
  }));
}

// Fills in what doesn't depend on the step.
function fill() {
  element("name").textContent = run.name;
  element("options").textContent = run.options.join(" ");
  showFinding();
  element("slider").max = count;
  element("names").replaceChildren(...[...registers.values()].map(([name]) => make("option", { value: name })));
  for (const button of nexts())
    button.disabled = !run.steps.some(isOf(button.dataset.next));
  element("notes-part").hidden = !run.notes.length;
  element("notes").replaceChildren(...run.notes.map((note) => make("p", {}, note)));
  lastLine = null;
  rowOf.clear();
  latest.clear();
  buildLines();
}
// Shows another run, or a longer part of the current one.
function replace(data, place) {
  take(data);
  fill();
  drawMarks();
  show(place);
}
function begin() {
  for (const button of nexts())
    button.addEventListener("click", (event) => jump(button.dataset.next, event.shiftKey));
  element("slider").addEventListener("input", () => show(Number(element("slider").value)));
  element("search").addEventListener("input", showHits);
  const steps = { back: () => show(position - 1), on: () => show(position + 1), play: () => play() };
  const acts = { ...steps, theme, comments, help: () => help(), keys: () => help(false) };
  for (const [id, act] of Object.entries(acts)) element(id).addEventListener("click", act);
  document.addEventListener("keydown", keys, true);
  new ResizeObserver(drawMarks).observe(element("marks"));
  addEventListener("resize", resized);
  addEventListener("hashchange", () => show(placeOf(location.hash)));
  fill();
  show(placeOf(location.hash));
}
begin();
