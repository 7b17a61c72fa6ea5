// The other parts of the page: tabs, examples, packets, captures, hashes, EEPROM images, objects, links, lessons.
const hexOf = (bytes) => Array.from(bytes, (one) => one.toString(16).padStart(2, "0")).join("");
const inLines = (hexText) => hexText.replace(/(.{64})/g, "$1\n");

/** @returns {HTMLElement[]} */
const tabsOf = () => [...document.querySelectorAll("[role=tab]")].map((it) => /** @type {HTMLElement} */ (it));
function showTab(id) {
  for (const tab of tabsOf()) {
    const isIt = tab.id === `tab-${id}`;
    tab.setAttribute("aria-selected", String(isIt));
    tab.tabIndex = isIt ? 0 : -1;
    element(tab.getAttribute("aria-controls")).hidden = !isIt;
  }
  keep("tab", id);
  ({ work: drawRows, lessons: listLessons, objects: showObjects })[id]?.();
}
function tabKeys(event) {
  const tabs = tabsOf(), at = tabs.indexOf(event.target);
  const to = { ArrowRight: at + 1, ArrowLeft: at - 1, Home: 0, End: tabs.length - 1 }[event.key];
  if (to === undefined) return;
  const tab = tabs[(to + tabs.length) % tabs.length];
  event.preventDefault();
  tab.focus();
  showTab(tab.id.slice(4));
}

// Packets and captures.

const FIELDS = [
  ["kind", "Kind", ["tcp", "udp", "ip", "arp", "ether"]], ["name", "Name", "frame"], ["from", "Source", "10.0.0.1"], ["to", "Destination", "10.0.0.2"],
  ["fromPort", "Source port", "1000"], ["toPort", "Destination port", "80"], ["macTo", "Destination MAC", "02:00:00:00:00:01"],
  ["macFrom", "Source MAC", "02:00:00:00:00:02"], ["tag", "VLAN tag (TCI)", ""], ["type", "EtherType", "0x88b5"],
  ["length", "Length", ""], ["payload", "Payload (hex)", ""],
];
function buildPacket() {
  const values = kept("packet", {});
  element("packet").append(...FIELDS.map((/** @type {[string, string, any]} */ [id, title, value]) => {
    const input = Array.isArray(value) ? make("select", {}, ...value.map((it) => make("option", { value: it }, it))) : make("input", { spellcheck: false });
    input.id = `packet-${id}`;
    input.value = values[id] ?? (Array.isArray(value) ? value[0] : value);
    return make("label", {}, title, input);
  }));
  element("packet").addEventListener("input", showPacket);
  element("packet").addEventListener("submit", (event) => event.preventDefault());
  element("packet-add").addEventListener("click", () => addPacket(""));
  element("packet-arrive").addEventListener("click", () => addPacket(`arrive ${element("packet-name").value}\n`));
  showPacket();
}
async function showPacket() {
  const words = Object.fromEntries(FIELDS.map(([id]) => [id, element(`packet-${id}`).value.trim()]));
  keep("packet", words);
  for (const id of ["fromPort", "toPort"]) element(`packet-${id}`).disabled = !["tcp", "udp"].includes(words.kind);
  try {
    if (!/^[A-Za-z_]\w{0,31}$/.test(words.name)) throw new Error(`"${words.name}" isn't a name: it needs 1 to 32 letters, digits or _, and doesn't begin with a digit`);
    if (!/^([0-9a-fA-F]{2})*$/.test(words.payload)) throw new Error("the payload needs two hex digits for each byte");
    const { line, said } = await ask("packet", words);
    element("packet-line").textContent = line;
    element("packet-said").textContent = said;
    element("packet-said").className = "";
  } catch (fault) {
    element("packet-line").textContent = "";
    element("packet-said").textContent = fault.message;
    element("packet-said").className = "bad";
  }
}
function addPacket(more) {
  const line = element("packet-line").textContent, text = element("text");
  if (!line) return;
  showTab("work");
  const gap = text.value && !text.value.endsWith("\n") ? "\n" : "";
  typed(text.value.length, text.value.length, `${gap}${line}\n${more}`);
}
const MOST_BYTES = 8 * 2 ** 20;
async function dropped(file) {
  if (file.size > MOST_BYTES) return notice(`${file.name} is ${file.size.toLocaleString("en")} bytes long: the page accepts at most 8 MiB`);
  const bytes = new Uint8Array(await file.arrayBuffer()), start = hexOf(bytes.slice(0, 4));
  notice();
  try {
    if (["d4c3b2a1", "4d3cb2a1", "a1b2c3d4", "a1b23c4d", "0a0d0d0a"].includes(start)) {
      const lines = await ask("capture", bytes, "frame"), text = element("text");
      showTab("work");
      typed(text.value.length, text.value.length, (text.value && !text.value.endsWith("\n") ? "\n" : "") + lines);
    } else {
      const text = new TextDecoder("utf-8", { fatal: true }).decode(bytes);
      if (text.startsWith("#: nic ")) throw new Error("this is a recording: tools/nicview shows it, and --script converts it to a script");
      leaveLesson();
      putText(text, file.name);
      showTab("work");
    }
  } catch (fault) {
    notice(`${file.name}: ${fault.name === "TypeError" ? "this is neither text in UTF-8 nor a capture" : fault.message}`);
  }
}

// Hashes, EEPROM images, objects.

async function answered(input, words, out, isBinary) {
  const { status, bytes, text } = await ask("bench", words, element(input).value);
  element(out).textContent = status || !isBinary ? text : `${bytes.length} bytes\n${inLines(hexOf(bytes))}`;
  element(out).classList.toggle("bad", status !== 0);
  return status ? null : bytes;
}
function buildTools() {
  /** @type {[string, string[], boolean][]} */
  const tools = [["hash", ["hash"], false], ["eeprom", ["eeprom"], true]];
  for (const [id, words, isBinary] of tools) {
    element(`${id}-in`).value = kept(id, given.starts[id]);
    element(`${id}-in`).addEventListener("input", () => {
      keep(id, element(`${id}-in`).value);
      answered(`${id}-in`, words, `${id}-out`, isBinary);
    });
    answered(`${id}-in`, words, `${id}-out`, isBinary);
  }
  element("eeprom-save").addEventListener("click", async () => {
    const bytes = await answered("eeprom-in", ["eeprom"], "eeprom-out", true);
    if (bytes) saved("eeprom.bin", bytes);
  });
  chosenBy("eeprom-load", "eeprom-file", async (file) => {
    const { text } = await ask("bench", ["eeprom", "--load"], new Uint8Array(await file.arrayBuffer()));
    element("eeprom-out").textContent = text;
  });
  element("object-save").addEventListener("click", async () => {
    const { status, bytes } = await ask("bench", ["asm"], element("text").value);
    if (status) notice("The script is refused, so there is no object.");
    else saved("script.object", bytes);
  });
  chosenBy("object-open", "object-file", async (file) => {
    const { status, text } = await ask("bench", ["dis"], new Uint8Array(await file.arrayBuffer()));
    if (status) return notice(`${file.name}: ${text.trim()}`);
    leaveLesson();
    putText(text, file.name);
    showTab("work");
  });
}
async function showObjects() {
  const { object, listing } = await ask("listing", element("text").value);
  element("object-out").textContent = object ? `${object.length / 2} bytes\n${inLines(object)}` : "The script is refused.";
  element("listing-out").textContent = listing;
}

// Links contain the compressed script in the fragment. The decoded script may be at most this many bytes long.

const MOST_LINK = 1 << 20;
const toBase64 = (bytes) => btoa(String.fromCharCode(...bytes)).replaceAll("+", "-").replaceAll("/", "_").replaceAll("=", "");
async function through(stream, bytes, most) {
  const reader = new Blob([bytes]).stream().pipeThrough(stream).getReader(), parts = [];
  let length = 0;
  for (;;) {
    const { done, value } = await reader.read();
    if (done) break;
    length += value.length;
    if (length > most) {
      reader.cancel().catch(() => {});
      throw new Error(`the script is longer than ${most.toLocaleString("en")} bytes`);
    }
    parts.push(value);
  }
  return new Uint8Array(await new Blob(parts).arrayBuffer());
}
async function linkOf(text, { vfs, fifo }) {
  const bytes = await through(new CompressionStream("deflate-raw"), new TextEncoder().encode(text), 4 * MOST_LINK);
  const more = `${vfs === null ? "" : `&vfs=${vfs}`}${fifo === null ? "" : `&fifo=${fifo}`}`;
  const parts = Array.from({ length: Math.ceil(bytes.length / 6000) }, (_, k) => toBase64(bytes.slice(6000 * k, 6000 * (k + 1))));
  return `#script=${parts.join("")}${more}`;
}
// Returns the script in a link. An error says what is wrong with it.
async function ofLink(hash) {
  const words = new URLSearchParams(hash.slice(1)), packed = words.get("script") ?? "";
  if (!/^[\w-]+$/.test(packed)) throw new Error("it is empty, or has characters that such a link never has");
  let bytes;
  try {
    bytes = octetsOf(packed.replaceAll("-", "+").replaceAll("_", "/"));
  } catch {
    throw new Error("the link is cut off");
  }
  const raw = await through(new DecompressionStream("deflate-raw"), bytes, MOST_LINK).catch((fault) => {
    throw fault instanceof TypeError ? new Error("the link is cut off, or was changed") : fault;
  });
  const number = (name, least, most) => {
    const word = words.get(name) ?? "";
    return /^\d{1,4}$/.test(word) && Number(word) >= least && Number(word) <= most ? Number(word) : null;
  };
  return { text: new TextDecoder("utf-8", { fatal: true }).decode(raw), vfs: number("vfs", 0, 63), fifo: number("fifo", 1, 4096) };
}
async function copyLink() {
  const link = location.href.split("#")[0] + (await linkOf(element("text").value, sizes()));
  history.replaceState(null, "", link.slice(link.indexOf("#")));
  try {
    await navigator.clipboard.writeText(link);
    notice(`The link is copied: ${link.length.toLocaleString("en")} characters.`);
  } catch {
    notice(`The link is in the address bar: ${link.length.toLocaleString("en")} characters.`);
  }
}
// Saves the run as a test in C or Python, under the file name in the test's first lines.
async function saveTest(language) {
  const text = element("text").value, words = language === "c" ? /(\w+\.c) \$/ : /python3 (\w+\.py)/;
  try {
    const made = await ask("test", language, nameOf(), text, sizes());
    notice();
    saved(words.exec(made)[1], made);
  } catch (fault) {
    notice(`There is no test, because the bench refuses the script (${fault.message}): F4 goes to the refused line.`);
  }
}
async function openLink() {
  if (!location.hash.startsWith("#script=")) return false;
  try {
    const { text, vfs, fifo } = await ofLink(location.hash);
    leaveLesson();
    setSizes(vfs, fifo);
    putText(text, "shared.nic");
    showTab("work");
    return true;
  } catch (fault) {
    notice(`The link's script can't be read: ${fault.message}. Ask for the link again.`);
    return false;
  }
}
function setSizes(vfs, fifo) {
  element("vfs").value = vfs ?? "";
  element("fifo").value = fifo ?? "";
  keep("sizes", [vfs, fifo]);
}

// Lessons.

const progress = () => kept("lessons", {});
function listLessons() {
  const done = progress(), items = given.lessons.map(({ number, title }) => {
    const mark = make("span", { className: "done" }, done[number]?.solved ? " solved" : "");
    const button = make("button", {}, `${number}. ${title}`, mark);
    button.addEventListener("click", () => enterLesson(number));
    return make("li", {}, button);
  });
  const count = Object.values(done).filter((it) => it.solved).length, name = make("input", { id: "student", value: kept("student", "") });
  name.addEventListener("input", () => keep("student", name.value));
  const hand = make("button", { id: "hand-in" }, "Save the file to hand in");
  hand.title = "a file with your scripts, for a course";
  hand.addEventListener("click", handIn);
  element("lessons").replaceChildren(make("h2", {}, `Lessons: ${count} of ${given.lessons.length} solved`), make("ol", {}, ...items),
    make("p", { className: "bar" }, make("label", {}, "Your name ", name), hand));
}
function handIn() {
  const done = progress(), lessons = {};
  for (const { number } of given.lessons)
    if (done[number]) lessons[number] = { script: kept(`lesson:${number}`, ""), outcome: done[number].solved ? "solved" : "open" };
  const student = kept("student", "").trim() || "no name";
  saved(`lessons-${student.replace(/[^\w-]+/g, "_")}.json`, JSON.stringify({ student, lessons }, null, 1));
}
// Returns the elements of a lesson's text: paragraphs, with `code` in them.
function paragraphs(text, className = "") {
  return text.split("\n\n").map((one) => make("p", { className }, ...one.split("`").map((part, k) => (k % 2 ? make("code", {}, part) : part))));
}
// Opens a selected lesson. The button that selected it is gone, so the lesson's title gets the focus.
function enterLesson(number) {
  openLesson(number);
  element("lesson").querySelector("h2").focus();
}
function openLesson(number) {
  const it = given.lessons[number - 1];
  lessonNow = number;
  keep("lesson", number);
  const said = make("p", { role: "status", id: "lesson-said" }), answer = make("pre", { hidden: true }, it.answer);
  const acts = [["Check", () => checkLesson(it, said)], ["Hint", () => hint(it, said)], ["Answer", () => (answer.hidden = !answer.hidden)],
    ["Start over", () => putText(it.start)], ["Leave", leaveForScript]];
  const buttons = acts.map(([title, act]) => {
    const made = make("button", {}, title);
    made.addEventListener("click", act);
    return made;
  });
  Object.assign(buttons[0], { id: "check", title: "compares the script with the task (Ctrl+Enter)" });
  if (number < given.lessons.length) {
    const next = make("button", {}, "Next lesson");
    next.addEventListener("click", () => enterLesson(number + 1));
    buttons.push(next);
  }
  element("lesson").replaceChildren(make("h2", { tabIndex: -1 }, `${number}. ${it.title}`), ...paragraphs(it.text), ...paragraphs(it.task, "task"),
    make("p", { className: "bar" }, ...buttons), said, answer);
  element("lesson").hidden = false;
  element("lesson").scrollTop = 0;
  setSizes(it.sizes.vfs, it.sizes.fifo);
  putText(kept(`lesson:${number}`) ?? it.start, null, false);
  showTab("work");
}
async function checkLesson(it, said) {
  const failed = (fault) => ({ is: false, why: `The script couldn't be checked: ${fault.message}.` });
  const text = element("text").value, { is, why } = await ask("solved", text, it).catch(failed), done = progress();
  done[it.number] = { solved: is || Boolean(done[it.number]?.solved) };
  keep("lessons", done);
  if (is && text !== element("text").value) return is;
  said.className = is ? "solved" : "";
  said.replaceChildren(...paragraphs(why));
  said.scrollIntoView({ block: "nearest" });
  return is;
}
// Removes the message that the lesson is solved when the script changes: the new script must be checked.
function unsolved() {
  const said = element("lesson-said");
  if (!said?.classList.contains("solved")) return;
  said.className = "";
  said.replaceChildren();
}
async function hint(it, said) {
  const found = await ask("reason", nameOf(), element("text").value, sizes()).catch(() => "");
  said.className = "";
  said.replaceChildren(...paragraphs(it.hint), ...(found ? paragraphs(`niclint says: ${found}`) : []));
  said.scrollIntoView({ block: "nearest" });
}
const firstText = () => given.examples.find(({ name }) => name === "receive.nic").text;
function leaveLesson() {
  lessonNow = null;
  keep("lesson", null);
  element("lesson").hidden = true;
}
function leaveForScript() {
  backToScript();
  element("text").focus();
}
function backToScript() {
  leaveLesson();
  setSizes(null, null);
  putText(kept("script", firstText()), null, false);
}
