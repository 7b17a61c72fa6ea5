// The script and its run: the bench's answers while you type, the page that nicview draws, steps and breakpoints.
const PAUSE = 250;
let latest = 0, shown = null, step = 0, drawn = [], lessonNow = null, before = null;
// The first request about the current text.
let firstOfText = 0;

function sizes() {
  const number = (id) => (element(id).value === "" ? null : Number(element(id).value));
  return { vfs: number("vfs"), fifo: number("fifo") };
}
const scriptKey = () => (lessonNow === null ? "script" : `lesson:${lessonNow}`);
const nameOf = () => (lessonNow === null ? kept("name", "script.nic") : `lesson-${lessonNow}.nic`);

// Called when the text changes: stores the text, and requests its replies.
function changed() {
  setLines();
  keep(scriptKey(), element("text").value);
  unsolved();
  shownText.here = lineNow();
  drawRows();
  asked();
}
// Puts another script into the editor. This can be undone.
function putText(text, name = null, isNew = true) {
  if (isNew && element("text").value.trim() && element("text").value !== text) before = { text: element("text").value, lesson: lessonNow };
  element("undo").hidden = !before;
  element("text").value = text;
  element("text").scrollTop = 0;
  if (name) keep("name", name);
  Object.assign(shownText, { replies: new Map(), refused: new Map(), here: 0 });
  firstOfText = latest + 1;
  leaveRun();
  closeChoices();
  changed();
}
// Removes the displayed run, which belongs to another script.
function leaveRun() {
  for (const old of drawn) old.remove();
  [drawn, shown, step, shownText.ran] = [[], null, 0, new Map()];
}

async function asked() {
  const number = ++latest, text = element("text").value;
  if (isLate()) endRun();
  try {
    const found = await ask("answers", nameOf(), text, sizes());
    if (number !== latest) return;
    showAnswers(found);
    if (found.refused) return;
    await new Promise((resolve) => setTimeout(resolve, PAUSE));
    if (number === latest) showView(await ask("view", nameOf(), text, sizes()), number, text.split("\n"));
  } catch (fault) {
    if (!(fault instanceof Stopped) && number === latest) element("state").replaceChildren(make("span", { className: "bad" }, fault.message));
  }
}
function showAnswers({ refused, last, replies }) {
  const isRefused = Boolean(refused);
  shownText.refused = new Map((refused ?? []).map((it) => [it.line, it]));
  if (!isRefused) shownText.replies = new Map(replies);
  element("replies").classList.toggle("old", isRefused);
  markRun();
  element("text").setAttribute("aria-invalid", String(isRefused));
  if (isRefused) element("state").replaceChildren(...refused.slice(0, 3).map(refusalButton));
  else element("state").replaceChildren(make("span", { className: last.startsWith("failed") ? "bad" : "" }, last));
  drawRows();
  showAbout();
}
// While the script is refused, marks the displayed run as an earlier one, or the view as empty if no run is displayed.
function markRun() {
  const isRefused = shownText.refused.size > 0;
  element("views").classList.toggle("old", isRefused && drawn.length > 0);
  element("views").classList.toggle("none", isRefused && !drawn.length);
}
function refusalButton({ line, column, name, words, near }) {
  const close = near.length ? `; near: ${near.join(", ")}` : "";
  const made = make("button", { className: "bad" }, `${line ? `line ${line}: ` : ""}refused ${name}: ${words}${close}`);
  made.addEventListener("click", () => goTo(line, column));
  return made;
}
function showAbout() {
  element("about").textContent = explained(cursor());
}

// Shows the run's page, as nicview writes it: it loads out of sight and then replaces the previous one.

function showView(run, number, lines) {
  const data = JSON.stringify(run).replaceAll("<", "\\u003c"), frame = make("iframe", { title: "the run, step by step" });
  const [start, end] = given.view;
  const isSame = shown && shown.name === run.name && step <= run.steps.length;
  frame.srcdoc = start + data + end;
  frame.addEventListener("load", () => {
    if (number < firstOfText || (number !== latest && drawn.length)) return frame.remove();
    for (const old of drawn) old.remove();
    [drawn, shown] = [[frame], run];
    const now = linesFrom(lines);
    shownText.ran = new Map(lines.map((_, k) => [k + 1, now(k + 1)]));
    markRun();
    frame.classList.add("shown");
    const at = frame.contentDocument.getElementById("at");
    applyTheme();
    frame.contentDocument.addEventListener("keydown", stepKeys, true);
    new MutationObserver(() => followed(at)).observe(at, { childList: true, characterData: true, subtree: true });
    if (isSame && wasMoved) frame.contentWindow.show(step);
    followed(at);
  });
  element("views").append(frame);
}
let wasMoved = false;
// Called when the view shows another step: marks that step's line in the script, and scrolls to it if the user moved
// the view.
function followed(at) {
  step = at.textContent.startsWith("start") ? 0 : parseInt(at.textContent, 10) + 1;
  shownText.here = lineNow();
  if (shownText.here && wasMoved) seeLine(shownText.here);
  else drawRows();
}
function show(n) {
  if (!drawn.length) return;
  wasMoved = true;
  drawn[0].contentWindow.show(Math.max(0, Math.min(shown.steps.length, n)));
}
// Returns the line of the displayed step if it is still in the text, otherwise 0.
const lineNow = () => (step && shown ? shownText.ran.get(lineAt(step)) ?? 0 : 0);
const lineAt = (n) => shown.line_of[shown.steps[n - 1][0]];
// Moves forward or back to the next step on a line with a breakpoint. Without one, moves to the last step or the start.
function toBreakpoint(way) {
  if (!shown) return;
  let n = step + way;
  while (n > 0 && n < shown.steps.length && !shownText.stops.has(lineAt(n))) n += way;
  show(n);
}
function toggleStop(line) {
  if (!shownText.stops.delete(line)) shownText.stops.add(line);
  keep("stops", [...shownText.stops]);
  element("about").textContent = `Line ${line}: ${shownText.stops.has(line) ? "breakpoint set" : "breakpoint cleared"}.`;
  drawRows();
}
// Opens the help. Closing it restores the focus, even in the run's page.
function openHelp() {
  const help = element("helping"), active = /** @type {any} (it may be a frame) */ (document.activeElement);
  const last = active?.contentDocument?.activeElement ?? active;
  if (help.open) return;
  help.showModal();
  help.addEventListener("close", () => (last && last !== document.body ? last : element("text")).focus(), { once: true });
}
function stepKeys(event) {
  if (event.key === "Enter" && (event.ctrlKey || event.metaKey) && lessonNow !== null && !element("helping").open) {
    event.preventDefault();
    closeChoices();
    return element("check").click();
  }
  const way = event.shiftKey ? -1 : 1;
  const acts = { F10: () => show(step + way), F8: () => toBreakpoint(way), F1: openHelp };
  if (!acts[event.key] || event.ctrlKey || event.altKey) return;
  event.preventDefault();
  acts[event.key]();
}
function textKeys(event) {
  if (choosing && !event.ctrlKey && !event.metaKey) {
    const acts = {
      ArrowDown: () => choose(choosing.chosen + 1), ArrowUp: () => choose(choosing.chosen - 1), Enter: () => takeChoice(),
      Tab: () => takeChoice(), Escape: closeChoices,
    };
    if (acts[event.key]) return event.preventDefault(), event.stopPropagation(), acts[event.key]();
  }
  if (event.key === "F9") toggleStop(cursor().line);
  else if (event.key === "F4") nextRefused();
  else if (event.key === " " && event.ctrlKey) showChoices(true);
  else return;
  event.preventDefault();
}
function nextRefused() {
  const lines = [...shownText.refused.keys()].sort((a, b) => a - b), { line } = cursor();
  const found = lines.find((it) => it > line) ?? lines[0];
  if (found) goTo(found, shownText.refused.get(found).column);
}
// Saves the ring in front as a separate picture, with the view's colours.
function picture() {
  const frame = drawn[0], svg = frame?.contentDocument.querySelector("#front svg");
  if (!svg) return notice("There is no ring to draw at this step.");
  notice();
  const copy = svg.cloneNode(true), style = document.createElementNS("http://www.w3.org/2000/svg", "style");
  const colours = frame.contentWindow.getComputedStyle(frame.contentDocument.documentElement);
  for (const [from, to] of [[svg, copy], ...[...svg.querySelectorAll("*")].map((one, k) => [one, copy.querySelectorAll("*")[k]])]) {
    const of = frame.contentWindow.getComputedStyle(from);
    for (const name of ["fill", "stroke", "stroke-width", "font"]) to.style.setProperty(name, of.getPropertyValue(name));
  }
  style.textContent = `svg { background: ${colours.getPropertyValue("background-color")} }`;
  copy.prepend(style);
  copy.setAttribute("xmlns", "http://www.w3.org/2000/svg");
  saved("ring.svg", copy.outerHTML);
}
