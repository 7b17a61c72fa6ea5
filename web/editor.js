// The editor: a text area over a layer that colours its lines, replies beside them, completions, explanations. Only the
// visible rows are drawn, so a long script costs no more than a short one.
const ROW = 20, PAD = 4, MARGIN = 4;
const REGISTER = /^([A-Za-z_][A-Za-z0-9_]*)(?:\[([^\]]*)\])?$/;
const NUMBER = /^(?:0[xX][0-9a-fA-F]+|[0-9]+)$/;
// The lines, the replies beside them, and the current line number of each line of the displayed run.
const shownText = { lines: [], replies: new Map(), ran: new Map(), refused: new Map(), stops: new Set(), here: 0 };

function wordsOf(line) {
  const end = line.indexOf("#"), code = end < 0 ? line : line.slice(0, end);
  return [...code.matchAll(/[^ \t\r]+/g)].map((found) => ({ from: found.index, text: found[0] }));
}
function kindOfWord(text, place) {
  if (place === 0) return text in given.forms ? "op" : text.endsWith(":") ? "register" : "";
  if (NUMBER.test(text)) return "number";
  return given.registers[REGISTER.exec(text)?.[1]] ? "register" : "";
}
// Returns a line in its colours; the word that the bench refuses is underlined.
function coloured(line, refused) {
  const parts = [], code = line.indexOf("#") < 0 ? line.length : line.indexOf("#");
  let at = 0;
  wordsOf(line).forEach(({ from, text }, place) => {
    const isWrong = refused && refused.column < from + text.length && refused.column + refused.length > from;
    parts.push(line.slice(at, from), make("span", { className: `${kindOfWord(text, place)}${isWrong ? " wrong" : ""}` }, text));
    at = from + text.length;
  });
  parts.push(line.slice(at, code));
  if (refused && refused.column >= at) parts.push(make("span", { className: "wrong" }, "  "));
  if (code < line.length) parts.push(make("span", { className: "comment" }, line.slice(code)));
  return parts;
}
const ODD = /^(idle|stray|no |not lent|misaligned|dropped)/;
function toneOf(reply) {
  return /^(failed|fault)/.test(reply) ? "bad" : ODD.test(reply) ? "odd" : "";
}
function rowAt(number, ...parts) {
  const made = make("div", { className: `row${number === shownText.here ? " here" : ""}` }, ...parts);
  made.style.top = `${PAD + (number - 1) * ROW - element("text").scrollTop}px`;
  return made;
}
function replyRow(number) {
  const wrong = shownText.refused.get(number), reply = shownText.replies.get(number);
  if (!wrong && !reply) return null;
  const words = wrong ? wrong.words : reply[0] + (reply[1] > 1 ? `  (${reply[1]} times)` : "");
  const made = rowAt(number, words);
  made.title = words;
  made.classList.add(...[wrong ? "bad" : toneOf(reply[0])].filter(Boolean));
  return made;
}
function gutterRow(number) {
  const made = rowAt(number, `${number}`);
  made.classList.toggle("stop", shownText.stops.has(number));
  made.classList.toggle("bad", shownText.refused.has(number));
  made.dataset.line = number;
  return made;
}
// Draws the visible rows.
function drawRows() {
  const text = element("text"), first = Math.max(1, Math.floor(text.scrollTop / ROW) - MARGIN);
  const last = Math.min(shownText.lines.length, first + Math.ceil(text.clientHeight / ROW) + 2 * MARGIN);
  const rows = Array.from({ length: Math.max(0, last - first + 1) }, (_, k) => first + k);
  element("gutter").replaceChildren(...rows.map(gutterRow));
  element("layer").replaceChildren(...rows.map((number) => {
    const row = rowAt(number, ...coloured(shownText.lines[number - 1], shownText.refused.get(number)));
    row.style.transform = `translateX(${-text.scrollLeft}px)`;
    return row;
  }));
  element("replies").replaceChildren(...rows.map(replyRow).filter(Boolean));
}
function setLines() {
  const was = shownText.lines;
  shownText.lines = element("text").value.split("\n");
  moveReplies(was);
}
// Returns how many lines two scripts have in common at their beginning or end.
function sameLines(one, other, most, isEnd) {
  const at = (lines, k) => lines[isEnd ? lines.length - 1 - k : k];
  let k = 0;
  while (k < most && at(one, k) === at(other, k)) k++;
  return k;
}
// Returns a function that maps a line number in an earlier text to the current one; 0 if the line has changed.
function linesFrom(lines) {
  const now = shownText.lines, most = Math.min(lines.length, now.length), first = sameLines(lines, now, most, false);
  const last = sameLines(lines, now, most - first, true), more = now.length - lines.length;
  return (line) => (line <= first ? line : line > lines.length - last ? line + more : 0);
}
// Keeps the replies beside their lines; a changed line loses its reply.
function moveReplies(was) {
  const now = linesFrom(was), replies = new Map();
  for (const [line, reply] of shownText.replies) if (now(line)) replies.set(now(line), reply);
  shownText.replies = replies;
  for (const [line, place] of shownText.ran) shownText.ran.set(line, place && now(place));
}
// Returns the cursor's line, counted from 1, and its column.
function cursor() {
  const text = element("text"), before = text.value.slice(0, text.selectionStart), line = before.split("\n").length;
  return { line, column: before.length - before.lastIndexOf("\n") - 1 };
}
// Puts the cursor on a line, and scrolls it into view.
function goTo(line, column = 0) {
  const text = element("text"), at = shownText.lines.slice(0, line - 1).reduce((sum, one) => sum + one.length + 1, 0) + column;
  text.focus();
  text.setSelectionRange(at, at);
  seeLine(line);
}
function seeLine(line) {
  const text = element("text"), top = (line - 1) * ROW;
  if (top < text.scrollTop + ROW || top > text.scrollTop + text.clientHeight - 2 * ROW)
    text.scrollTop = Math.max(0, top - text.clientHeight / 3);
  drawRows();
}
// Replaces a part of the text as if typed, so that the browser can undo it.
function typed(from, to, words) {
  const text = element("text");
  text.focus();
  text.setSelectionRange(from, to);
  if (!document.execCommand("insertText", false, words)) text.setRangeText(words, from, to, "end");
  changed();
}

// Completions.

// Returns the kind of word expected at a position in a line, from its operation's form.
function kindAt(words, place) {
  return place ? (given.forms[words[0].text]?.[0] ?? "").split(" ")[place - 1]?.replace(/[[\]]/g, "") ?? "" : "op";
}
function namesIn(pattern) {
  return [...new Set(shownText.lines.map((line) => pattern.exec(line)?.[1]).filter(Boolean))];
}
function registerChoices(word) {
  const [, name, index] = /^([A-Za-z0-9_]*)(\[.*)?$/.exec(word) ?? [, "", ""], wanted = name.toUpperCase();
  const names = Object.keys(given.registers);
  const begin = names.filter((it) => it.startsWith(wanted)), more = names.filter((it) => !it.startsWith(wanted) && it.includes(wanted));
  return [...begin, ...more].map((it) => {
    const { count, meaning } = given.registers[it];
    return { text: count > 1 ? `${it}${index ?? "[0]"}` : it, said: meaning + (count > 1 ? `, [0] to [${count - 1}]` : "") };
  });
}
const hex = (value) => `0x${value.toString(16).padStart(8, "0")}`;
// Returns the bits and fields of the register that precedes a value.
function valueChoices(target, word) {
  const found = given.registers[REGISTER.exec(target)?.[1]], wanted = word.toUpperCase();
  const fields = (found?.fields ?? []).filter(([name]) => name.toUpperCase().includes(wanted) || NUMBER.test(word));
  return fields.map(([name, high, low, does]) => {
    const one = high === low, bits = one ? `bit ${low}` : `bits ${high} to ${low}`;
    const value = NUMBER.test(word) ? (Number(word) | (one ? 2 ** low : 0)) >>> 0 : 2 ** low;
    return { text: hex(value), said: `${name}, ${bits}${does ? "" : " (no effect on the bench)"}`, key: name };
  });
}
const OF_KIND = {
  op: (word) => Object.entries(given.forms).filter(([op]) => op.startsWith(word)).map(([op, [form, does]]) => ({ text: op, said: `${form}  ${does}`.trim() })),
  TARGET: registerChoices,
  DATA: () => namesIn(/^\s*data\s+(\w+)/).map((text) => ({ text, said: "data" })),
  LABEL: () => namesIn(/^\s*(\w+):\s*(?:#.*)?$/).map((text) => ({ text, said: "a label" })),
};
function choicesAt({ line, column }) {
  const text = shownText.lines[line - 1] ?? "", words = wordsOf(text);
  if (text.slice(0, column).includes("#")) return null;
  const found = words.findIndex(({ from, text: it }) => from <= column && column <= from + it.length);
  const place = found < 0 ? words.filter(({ from }) => from < column).length : found;
  const word = found < 0 ? "" : text.slice(words[found].from, column), kind = kindAt(words, place);
  const from = found < 0 ? column : words[found].from, to = found < 0 ? column : from + words[found].text.length;
  let items = OF_KIND[kind]?.(word) ?? kind.split("|").filter((it) => it !== it.toUpperCase()).map((it) => ({ text: it, said: "" }));
  if (kind === "VALUE" && (words[0].text === "w" || words[0].text === "r")) items = valueChoices(words[1]?.text ?? "", word);
  if (!["TARGET", "VALUE", "op"].includes(kind)) items = items.filter((it) => it.text.startsWith(word));
  return items.length ? { from, to, word, items: items.slice(0, 60) } : null;
}
// The maximum height of the list of completions, in pixels.
const MOST_HIGH = 210;
let choosing = null;
function closeChoices() {
  choosing = null;
  element("choices").hidden = true;
  element("text").removeAttribute("aria-activedescendant");
}
function showChoices(isAsked) {
  const at = cursor(), found = choicesAt(at);
  if (!found || (!isAsked && (!found.word || NUMBER.test(found.word) || found.items[0].text === found.word))) return closeChoices();
  choosing = { ...found, line: at.line, chosen: 0 };
  const list = element("choices"), text = element("text"), wide = letterWidth();
  list.replaceChildren(...found.items.map(({ text: words, said }, k) => {
    const item = make("li", { id: `choice-${k}`, role: "option" }, make("b", {}, words), make("span", {}, said));
    item.addEventListener("mousedown", (event) => (event.preventDefault(), takeChoice(k)));
    return item;
  }));
  list.hidden = false;
  // (below the line, or above it if there is more room; never clipped by the editor)
  const top = PAD + at.line * ROW - text.scrollTop, below = text.clientHeight - top - 4, above = top - ROW - 4;
  const isLow = below < Math.min(MOST_HIGH, list.scrollHeight) && above > below;
  list.style.maxHeight = `${Math.max(3 * ROW, Math.min(MOST_HIGH, isLow ? above : below))}px`;
  list.style.top = isLow ? `${top - ROW - list.offsetHeight}px` : `${top}px`;
  list.style.left = `${Math.max(0, Math.min(6 + found.from * wide - text.scrollLeft, text.clientWidth - list.offsetWidth - 4))}px`;
  choose(0);
}
function choose(k) {
  const items = [...element("choices").children];
  choosing.chosen = (k + items.length) % items.length;
  items.forEach((item, at) => item.setAttribute("aria-selected", String(at === choosing.chosen)));
  items[choosing.chosen].scrollIntoView({ block: "nearest" });
  element("text").setAttribute("aria-activedescendant", items[choosing.chosen].id);
  element("about").textContent = `${choosing.items[choosing.chosen].text}  ${choosing.items[choosing.chosen].said}`;
}
function takeChoice(k = choosing.chosen) {
  const { from, to, line, items } = choosing, start = shownText.lines.slice(0, line - 1).reduce((sum, one) => sum + one.length + 1, 0);
  closeChoices();
  typed(start + from, start + to, items[k].text);
}
let wide = 0;
function letterWidth() {
  if (!wide) {
    const probe = make("span", { className: "row" }, "0".repeat(50));
    element("layer").append(probe);
    wide = probe.getBoundingClientRect().width / 50;
    probe.remove();
  }
  return wide;
}

// Explanations.

function fieldsIn(register, word) {
  const shown = register.fields.map(([name, high, low]) => [name, Math.floor(word / 2 ** low) % 2 ** (high - low + 1)]).filter(([, value]) => value);
  return shown.map(([name, value]) => `${name} ${value}`).join(", ") || "no field is set";
}
function aboutRegister(name) {
  const it = given.registers[name], isMany = it.count > 1, index = isMany ? `, [0] to [${it.count - 1}]` : "";
  const place = `${isMany ? "starting at address" : "address"} ${hex(it.address)}`;
  const fields = it.fields.map(([field, high, low]) => `${field} ${high === low ? high : `${high}:${low}`}`).join(", ");
  return `${name}${index}: ${it.meaning}, ${place}, ${hex(it.reset)} after a reset${fields ? `. Fields: ${fields}` : ""}`;
}
// Replies that need no explanation.
const PLAIN = ["done", "word"];
function meaningOf(reply) {
  const [first] = reply.split(" "), means = given.replies[first];
  return means && !PLAIN.includes(first) ? ` (${means})` : "";
}
// Returns what is known about the word at the cursor, and about the line's reply.
function explained({ line, column }) {
  const words = wordsOf(shownText.lines[line - 1] ?? ""), reply = shownText.replies.get(line);
  const found = words.findIndex(({ from, text }) => from <= column && column <= from + text.length), said = [];
  if (shownText.refused.has(line)) said.push(`Line ${line} is refused: ${shownText.refused.get(line).words}.`);
  else if (reply) said.push(`Line ${line}: ${reply[0]}${meaningOf(reply[0])}.`);
  const word = words[found]?.text ?? "", name = REGISTER.exec(word)?.[1], target = given.registers[REGISTER.exec(words[1]?.text ?? "")?.[1]];
  if (found === 0 && given.forms[word]) said.push(`${`${word} ${given.forms[word][0]}`.trim()}: ${given.forms[word][1]}.`);
  else if (name && given.registers[name]) said.push(`${aboutRegister(name)}.`);
  else if (found === 2 && NUMBER.test(word) && target) said.push(`${words[1].text}: ${fieldsIn(target, Number(word))}.`);
  return said.join(" ");
}
