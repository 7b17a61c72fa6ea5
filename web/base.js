"use strict";
// What the parts of the page share: elements, browser storage, the worker, files.
const given = JSON.parse(document.getElementById("given").textContent);
/** @type {(id: string) => any} (the type depends on the element) */
const element = (id) => document.getElementById(id);
function make(tag, properties = {}, ...children) {
  const made = document.createElement(tag);
  for (const [name, value] of Object.entries(properties)) {
    if (name in made && name !== "role") made[name] = value;
    else made.setAttribute(name, value);
  }
  made.append(...children.filter((child) => child !== null && child !== undefined));
  return made;
}
function notice(words = "") {
  element("notice").textContent = words;
  element("notice").hidden = !words;
}

// Browser storage. If the browser stores nothing, the page says so and still works.

let isKept = true;
function kept(name, other = null) {
  try {
    return JSON.parse(localStorage.getItem(`nic82599:${name}`)) ?? other;
  } catch {
    return other;
  }
}
function keep(name, value) {
  try {
    localStorage.setItem(`nic82599:${name}`, JSON.stringify(value));
  } catch {
    if (isKept) notice("This browser stores nothing: save the script as a file before you close the page.");
    isKept = false;
  }
}

// The worker. A long run can be stopped: another worker then replaces this one.

const LONG = 400;
const source = URL.createObjectURL(new Blob([element("model").textContent], { type: "text/javascript" }));
let compiled = null, worker = null, numbers = 0;
const waiting = new Map();
const octetsOf = (base64) => Uint8Array.from(atob(base64), (letter) => letter.charCodeAt(0));
function begin() {
  worker = new Worker(source);
  worker.postMessage({ id: 0, module: compiled });
  worker.onmessage = ({ data: { id, made, fault } }) => {
    const asked = waiting.get(id);
    waiting.delete(id);
    if (fault) asked?.reject(Object.assign(new Error(fault.message), { name: fault.name }));
    else asked?.resolve(made);
    showBusy();
  };
  worker.onerror = (event) => notice(`The page itself has a fault: ${event.message}`);
}
class Stopped extends Error {}
// The requests that run a script; others finish quickly.
const RUNS = ["answers", "view", "test", "solved", "reason"];
// Stops the run of a script, and reports this to the code that waits for the run. Sends all other requests again.
function endRun() {
  worker.terminate();
  begin();
  for (const [id, { what, words, reject }] of [...waiting]) {
    if (!RUNS.includes(what)) {
      worker.postMessage({ id, what, given: words });
      continue;
    }
    waiting.delete(id);
    reject(new Stopped("stopped"));
  }
  showBusy();
}
function ask(what, ...words) {
  const id = ++numbers;
  return new Promise((resolve, reject) => {
    waiting.set(id, { what, words, resolve, reject, since: performance.now() });
    worker.postMessage({ id, what, given: words });
    setTimeout(showBusy, LONG);
  });
}
function isLate() {
  return [...waiting.values()].some(({ what, since }) => RUNS.includes(what) && performance.now() - since > LONG - 5);
}
function showBusy() {
  element("stop").hidden = !isLate();
}

// Files.

function saved(name, ...parts) {
  const link = make("a", { href: URL.createObjectURL(new Blob(parts)), download: name });
  link.click();
  setTimeout(() => URL.revokeObjectURL(link.href), 10000);
}
function chosenBy(button, input, use) {
  element(button).addEventListener("click", () => element(input).click());
  element(input).addEventListener("change", async () => {
    const [file] = element(input).files;
    element(input).value = "";
    if (file) use(file);
  });
}
