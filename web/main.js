// Starts the page.
function applyTheme() {
  const wanted = kept("theme");
  for (const root of [document.documentElement, ...drawn.map((it) => it.contentDocument.documentElement)])
    if (wanted) root.dataset.theme = wanted;
}
function toggleTheme() {
  const wanted = kept("theme"), isDark = wanted ? wanted === "dark" : matchMedia("(prefers-color-scheme: dark)").matches;
  keep("theme", isDark ? "light" : "dark");
  applyTheme();
}
function buildEditor() {
  const text = element("text");
  text.addEventListener("input", () => (changed(), showChoices(false)));
  text.addEventListener("keydown", textKeys);
  text.addEventListener("scroll", drawRows);
  text.addEventListener("blur", closeChoices);
  document.addEventListener("selectionchange", () => document.activeElement === text && !choosing && showAbout());
  element("gutter").addEventListener("click", (event) => event.target.dataset.line && toggleStop(Number(event.target.dataset.line)));
  new ResizeObserver(drawRows).observe(text);
  shownText.stops = new Set(kept("stops", []));
}
function buildBars() {
  const examples = element("examples");
  examples.append(...given.examples.map(({ name }) => make("option", { value: name }, name)));
  examples.addEventListener("change", () => {
    const found = given.examples.find(({ name }) => name === examples.value);
    examples.value = "";
    if (!found) return;
    leaveLesson();
    setSizes(found.vfs, null);
    putText(found.text, found.name);
  });
  for (const id of ["vfs", "fifo"]) element(id).addEventListener("input", () => (keep("sizes", [sizes().vfs, sizes().fifo]), asked()));
  element("save").addEventListener("click", () => saved(nameOf(), element("text").value));
  chosenBy("open", "file", dropped);
  chosenBy("capture", "capture-file", dropped);
  const acts = {
    share: copyLink, stop: endRun, picture, theme: toggleTheme, help: openHelp, undo: takeBack,
    "test-c": () => saveTest("c"), "test-python": () => saveTest("python"),
    "step-back": () => show(step - 1), "step-on": () => show(step + 1), "run-back": () => toBreakpoint(-1), "run-on": () => toBreakpoint(1),
  };
  for (const [id, act] of Object.entries(acts)) element(id).addEventListener("click", act);
}
function takeBack() {
  const { text, lesson } = before;
  if (lesson !== lessonNow) leaveLesson();
  putText(text);
}
function buildPage() {
  for (const tab of document.querySelectorAll("[role=tab]")) {
    tab.addEventListener("click", () => showTab(tab.id.slice(4)));
    tab.addEventListener("keydown", tabKeys);
  }
  document.addEventListener("keydown", stepKeys);
  document.addEventListener("dragover", (event) => (event.preventDefault(), document.body.classList.add("dropping")));
  document.addEventListener("dragleave", () => document.body.classList.remove("dropping"));
  document.addEventListener("drop", (event) => {
    event.preventDefault();
    document.body.classList.remove("dropping");
    if (event.dataTransfer.files.length) dropped(event.dataTransfer.files[0]);
  });
  addEventListener("hashchange", openLink);
}
async function start() {
  compiled = await WebAssembly.compile(octetsOf(element("module").textContent));
  begin();
  buildEditor();
  buildBars();
  buildPage();
  buildPacket();
  buildTools();
  applyTheme();
  setSizes(...kept("sizes", [null, null]));
  if (await openLink()) return;
  const lesson = kept("lesson");
  if (lesson && given.lessons[lesson - 1]) openLesson(lesson);
  else putText(kept("script", firstText()), null, false);
  showTab(kept("tab", "work"));
}
start().catch((fault) => notice(`The page can't start here: ${fault.message}. Use a browser from 2024 or newer.`));
