"use strict";
// What a page of nicview --live adds: it follows a growing file. It requests the last part of the run after it has
// drawn the previous one. While the reader views an earlier step or part, the page stays there.

const live = {
  number: 0, total: 0, before: 0, until: 0, isPaused: false, isLast: true, isLost: false,
  isAsking: false, isSoon: false, rest: 0, next: null,
};
const GUEST = {
  Hold: "hold", Step: "step", Go: "go", Due: "due", Why: "why", "Link up": "link up", "Link down": "link down",
};
const GUEST_TITLES = {
  Hold: "the device takes only requested steps", Go: "the device runs its steps by itself again",
  Step: "takes the first step that is due", Due: "lists the steps that are due",
  Why: "reports why pending work doesn't proceed",
};
const counted = (n) => n.toLocaleString("en-US");
const isFollowing = () => live.isLast && !live.isPaused && position === count;

function liveBar() {
  const act = (id, text, title) => make("button", { id, title }, text);
  const past = make("input", { id: "past", type: "range", min: "0", title: "the events shown" });
  past.setAttribute("aria-label", "the last event shown");
  const bar = make("div", { id: "live", className: "bar", role: "toolbar", ariaLabel: "the file or card being followed" },
    act("pause", "Pause", "stop or resume following the file (p)"), make("span", { id: "events", className: "mono" }),
    act("older", "◀ Older", "earlier events"), past, act("newer", "Newer ▶", "later events"));
  const guest = make("div", { id: "guest", className: "bar", role: "toolbar", ariaLabel: "the guest's card", hidden: true },
    make("span", { className: "faint" }, "Card:"),
    ...Object.keys(GUEST).map((text) =>
      make("button", { title: GUEST_TITLES[text] ?? "plugs or unplugs the cable" }, text)));
  const answer = make("pre", { id: "said", hidden: true, tabIndex: 0, ariaLabel: "the card's reply" });
  answer.setAttribute("role", "status");
  const notice = make("p", { id: "notice", className: "odd", hidden: true });
  notice.setAttribute("role", "status");
  document.querySelector("header").prepend(bar, guest, answer, notice);
}
const LOOKS = `#live, #guest { margin: 0 0 4px; } #past { flex: 1 1 80px; min-width: 60px; padding: 0; }
  #said { margin: 0 0 4px; max-height: 30vh; overflow: auto; white-space: pre-wrap; overflow-wrap: anywhere; }
  #notice { margin: 0 0 4px; overflow-wrap: anywhere; }
  #guest[hidden], #said[hidden], #notice[hidden] { display: none; }
  @media (max-width: 820px) { header { position: static; } }`;

function showLive() {
  const first = live.until ? live.before + 1 : 0;
  const newer = live.total - live.until, more = newer > 0 && !isFollowing() ? `, ${counted(newer)} more since` : "";
  element("events").textContent = `events ${counted(first)} to ${counted(live.until)} of ${counted(live.total)}${more}`;
  element("pause").textContent = isFollowing() ? "Pause" : "Follow";
  element("past").max = live.total;
  if (document.activeElement !== element("past")) element("past").value = live.until;
  element("older").disabled = !live.before;
  element("newer").disabled = live.until >= live.total;
}
function sayLive(text) {
  const said = live.isLost ? "nicview has exited or can't be reached: this is the last state received" : text;
  element("notice").textContent = said;
  element("notice").hidden = !said;
}

// Requests the last part, or the part that ends at event `end`, and shows its last step. A request that arrives before
// the reply is sent afterwards. If the reader has chosen an earlier step by then, the page stays at that step.
async function ask(end, isChosen = true) {
  if (live.isAsking) {
    if (isChosen) live.next = { end };
    return;
  }
  live.isAsking = true;
  const began = performance.now();
  try {
    const answer = await fetch(end === undefined ? "part" : `part?end=${end}`);
    if (!answer.ok) throw new Error(`status ${answer.status}`);
    const { data, before, until, total, number, said } = await answer.json();
    Object.assign(live, { total, isLost: false });
    sayLive(said);
    if (data && !live.next && (isChosen || isFollowing())) {
      Object.assign(live, { before, until, number, isLast: end === undefined || until >= total });
      document.title = `${data.name}: a run on the bench`;
      replace(data, data.steps.length);
    }
  } catch {
    live.isLost = true;
    sayLive("");
  }
  live.rest = Math.min(3000, 2 * (performance.now() - began));
  live.isAsking = false;
  const { next } = live;
  live.next = null;
  if (next) ask(next.end);
  else askSoon();
  showLive();
}
// After a pause, requests what is new. The pause is twice as long as the last request took, but at most 3 seconds.
function askSoon() {
  if (live.isSoon || live.isAsking || !isFollowing() || live.until >= live.total) return;
  live.isSoon = true;
  setTimeout(() => {
    live.isSoon = false;
    if (isFollowing()) ask(undefined, false);
  }, live.rest);
}
function heard({ number, total, said, guest }) {
  const isAnother = number !== live.number;
  Object.assign(live, { total, isLost: false });
  element("guest").hidden = !guest;
  sayLive(said);
  if (isAnother) Object.assign(live, { isPaused: false, isLast: true });
  showLive();
  if (isAnother) ask();
  else askSoon();
}
function follow() {
  const events = new EventSource("events");
  events.onmessage = ({ data }) => heard(JSON.parse(data));
  events.onerror = () => {
    live.isLost = true;
    sayLive("");
  };
}
function pause() {
  if (isFollowing()) live.isPaused = true;
  else {
    Object.assign(live, { isPaused: false, isLast: true });
    show(count);
    ask();
  }
  showLive();
}
async function askCard(request) {
  const shown = element("said");
  shown.hidden = false;
  try {
    const answer = await fetch("ask", { method: "POST", body: request });
    const { asked, lines, wrong } = await answer.json();
    shown.textContent = [asked, ...lines, ...(wrong ? [`error: ${wrong}`] : [])].join("\n");
  } catch {
    shown.textContent = `${request}: nicview doesn't reply`;
  }
}
function beginLive() {
  document.head.append(make("style", {}, LOOKS));
  liveBar();
  element("pause").addEventListener("click", pause);
  element("older").addEventListener("click", () => ask(live.before));
  element("newer").addEventListener("click", () => ask(Math.min(live.total, live.until + Math.max(1, live.until - live.before))));
  element("past").addEventListener("change", () => ask(Number(element("past").value)));
  for (const button of element("guest").querySelectorAll("button"))
    button.addEventListener("click", () => askCard(GUEST[button.textContent]));
  document.addEventListener("moved", showLive);
  document.addEventListener("keydown", (event) => {
    if (event.key === "p" && !event.ctrlKey && !event.metaKey && document.activeElement.id !== "search") pause();
  });
  document.querySelector("#keys table").append(row([make("kbd", {}, "p"), "stop or resume following the file"]));
  const header = document.querySelector("header");
  new ResizeObserver(() => {
    document.documentElement.style.setProperty("--under", `${header.offsetHeight + 4}px`);
    keepLine();
  }).observe(header);
  showLive();
  follow();
}
beginLive();
