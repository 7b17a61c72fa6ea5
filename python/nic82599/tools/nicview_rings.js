"use strict";
// The rings of a page: the one that the step concerns as a circle with its descriptors, and all of them in a grid of
// cards. This file is loaded before nicview.js, and uses the helpers defined there.

const ON = 1 << 25, CIRCLE = 64;
const WHOSE = { device: "the device's", done: "done", driver: "the driver's", nobody: "nobody's" };
WHOSE["unread device"] = "the device's, not read";
WHOSE["unread driver"] = "the driver's, not read";
// The name of the clicked ring, and the clicked slot as `name/index`, with its ring's name.
let pinned = null, picked = null;

function drawn(tag, attributes, text) {
  const made = document.createElementNS("http://www.w3.org/2000/svg", tag);
  for (const [name, value] of Object.entries(attributes)) made.setAttribute(name, value);
  if (text !== undefined) made.textContent = text;
  return made;
}
function ringOf(state, side, number) {
  const word = (key) => state.words.get(side[key]) ?? 0;
  const slots = Math.floor(word("length") / 16), head = word("head"), tail = word("tail");
  const back = side.back && word("back") & 1 ? word("back_high") * 2 ** 32 + word("back") - (word("back") & 3) : null;
  return {
    number, side: side.side, queue: side.queue, name: `${side.side} ${side.queue}`, slots, head, tail, back,
    base: word("high") * 2 ** 32 + word("low"),
    on: Boolean(word("control") & ON),
    outside: head >= slots || tail >= slots,
  };
}
// Returns the rings that have slots or are enabled.
const ringsOf = (state) =>
  run.sides.map((side, number) => ringOf(state, side, number)).filter((ring) => ring.slots || ring.on);
// Returns the ring with a slot at an address. If several rings have one, prefers the ring with number `wanted`.
function ringAt(state, address, wanted) {
  const found = ringsOf(state).filter(({ base, slots }) => address >= base && address < base + 16 * slots);
  return found.find((ring) => ring.number === wanted) ?? found[0];
}
// Returns a slot's contents, its owner, and how it is shown.
function slotOf(state, ring, slot) {
  const address = ring.base + 16 * slot, content = state.memory.get(address);
  const said = typeof content === "string" ? run.descriptors[ring.side + content] : null;
  const distance = (from) => (from - ring.head + ring.slots) % ring.slots;
  const owner = ring.outside ? "nobody" : distance(slot) < distance(ring.tail) ? "device" : "driver";
  const form = said ? said[0] : unknown(state, address);
  const isUnread = form === "not read" && !ring.outside;
  const look = owner === "driver" && said && said[1] ? "done" : isUnread ? `unread ${owner}` : owner;
  return { slot, said, form, owner, look };
}
// Returns the slots of a ring that the last step before a position wrote.
function writtenSlots(ring, n) {
  const written = n ? (run.steps[n - 1][4].m || []).filter((one) => one[2]) : [];
  return new Set(written.map(([unit]) => (unit - ring.base) / 16));
}
function factsOf(state, ring) {
  const { name, slots, head, tail, on } = ring, guest = state.guest.get(ring.name);
  const base = `base 0x${ring.base.toString(16)}${guest ? `, the guest's ${guest}` : ""}`;
  return `${name}: ${base}, ${slots} slots, head ${head}, tail ${tail}, ${on ? "on" : "off"}`;
}

// Circles.

// Returns the fill of a slot that isn't read: stripes in its owner's color.
function stripes(owner) {
  const size = { width: 6, height: 6, patternUnits: "userSpaceOnUse", patternTransform: "rotate(45)" };
  const made = drawn("pattern", { id: `unread-${owner}`, ...size });
  made.append(drawn("rect", { width: 6, height: 6, class: "under" }), drawn("rect", { width: 2.5, height: 6, class: owner }));
  return made;
}

function turn(angle, radius) {
  const at = (angle - 0.25) * 2 * Math.PI;
  return [116 + radius * Math.cos(at), 116 + radius * Math.sin(at)].map((one) => Number(one.toFixed(2)));
}
function circle(state, ring, written) {
  const svg = drawn("svg", { viewBox: "-40 8 312 212", role: "img", "aria-label": factsOf(state, ring) });
  svg.append(stripes("device"), stripes("driver"));
  const middle = { "text-anchor": "middle" };
  for (let slot = 0; slot < ring.slots; slot++) {
    const { look } = slotOf(state, ring, slot), from = slot / ring.slots, to = (slot + 1) / ring.slots;
    const [a, b, c, d] = [turn(from, 86), turn(to, 86), turn(to, 52), turn(from, 52)];
    const path = drawn("path", {
      class: `slot ${look}${isPicked(ring, slot) ? " picked" : ""}${written.has(slot) ? " written" : ""}`,
      d: `M${a} A86 86 0 0 1 ${b} L${c} A52 52 0 0 0 ${d} Z`,
    });
    path.append(drawn("title", {}, `slot ${slot}: ${WHOSE[look]}`));
    path.addEventListener("click", () => pick(ring, slot));
    const [x, y] = turn((from + to) / 2, 69);
    svg.append(path);
    if (ring.slots <= 32) svg.append(drawn("text", { x, y: y + 4, class: `on-${look}`, ...middle }, slot));
  }
  mark(svg, ring, "head", ring.head === ring.tail ? "head, tail" : "head");
  if (ring.head !== ring.tail) mark(svg, ring, "tail", "tail");
  svg.append(drawn("text", { x: 116, y: 106, class: "title", ...middle }, ring.name));
  svg.append(drawn("text", { x: 116, y: 122, ...middle }, ring.on ? "on" : "off"));
  svg.append(drawn("text", { x: 116, y: 136, class: "small", ...middle }, `${ring.slots} slots`));
  return svg;
}
// Draws the arrow for the head or the tail. If the head or tail is outside the ring, its arrow is where the ring's ends
// meet, and points away from the ring.
function mark(svg, ring, which, text) {
  const place = ring[which];
  if (place < ring.slots) {
    const angle = (place + 0.5) / ring.slots, [x, y] = turn(angle, 104);
    const points = [turn(angle, 88), turn(angle - 0.01, 99), turn(angle + 0.01, 99)].join(" ");
    const anchor = x > 125 ? "start" : x < 107 ? "end" : "middle";
    svg.append(drawn("polygon", { points, class: which }));
    svg.append(drawn("text", { x, y: y + 4, "text-anchor": anchor, class: which }, text));
    return;
  }
  const isLeft = leftOutside(ring, which), angle = isLeft ? -0.012 : 0.012, [x] = turn(angle, 104);
  const points = [turn(angle, 101), turn(angle - 0.01, 90), turn(angle + 0.01, 90)].join(" ");
  svg.append(drawn("polygon", { points, class: `${which} outside` }));
  const words = { x: x + (isLeft ? -6 : 6), y: 20, "text-anchor": isLeft ? "end" : "start", class: "bad" };
  svg.append(drawn("text", words, `${text} ${place}: no slot`));
}
// Returns whether the arrow for a head or tail outside the ring is on the left, away from the other arrow.
function leftOutside(ring, which) {
  const other = ring[which === "head" ? "tail" : "head"];
  return other >= ring.slots ? which === "head" : other < ring.slots / 2;
}

// Strips, with slots to scale.

function strip(state, ring, written) {
  const place = (slot) => `${(100 * slot) / ring.slots}%`, bar = make("div", { className: "bar-of-slots" });
  const part = (from, to, look) =>
    bar.append(make("i", { className: look, style: `left:${place(from)};width:max(2px,${place(to - from)})` }));
  if (!ring.outside && ring.head < ring.tail) part(ring.head, ring.tail, "device");
  if (!ring.outside && ring.head > ring.tail)
    for (const [a, b] of [[ring.head, ring.slots], [0, ring.tail]]) part(a, b, "device");
  const isWhole = ring.slots <= CIRCLE && !ring.outside;
  for (const slot of isWhole ? Array(ring.slots).keys() : held(state, ring)) {
    const { look } = slotOf(state, ring, slot);
    if (look === "done" || look.startsWith("unread")) part(slot, slot + 1, look);
  }
  for (const slot of written) if (slot >= 0 && slot < ring.slots) part(slot, slot + 1, "written");
  if (ring.slots <= 32) bar.style.setProperty("--cell", `${100 / ring.slots}%`);
  const pointers = ["head", "tail"].map((which) => {
    const isOut = ring[which] >= ring.slots;
    const left = isOut ? "calc(100% + 7px)" : `${(100 * (ring[which] + 0.5)) / ring.slots}%`;
    return make("b", { className: `pointer ${which}${isOut ? " outside" : ""}`, style: `left:${left}` });
  });
  return make("div", { className: `strip${ring.outside ? " gap" : ""}` }, bar, ...pointers);
}
const isPicked = (ring, slot) => picked === `${ring.name}/${slot}`;
function pick(ring, slot) {
  picked = isPicked(ring, slot) ? null : `${ring.name}/${slot}`;
  show(position);
}
// Returns the slots with known memory.
function held(state, ring) {
  const slots = [...state.memory.keys()].map((unit) => (unit - ring.base) / 16);
  return slots.filter((slot) => slot >= 0 && slot < ring.slots && Number.isInteger(slot));
}
// Shows the slots of interest: the ones that the device owns or that contain a descriptor. If there are many, shows the
// ones nearest to the head.
function slots(state, ring, written) {
  const most = 32, distance = (slot) => (slot - ring.head + ring.slots) % ring.slots;
  const numbers = new Set(held(state, ring)), ahead = ring.outside ? 0 : distance(ring.tail);
  for (let k = 0; k < Math.min(ahead, most); k++) numbers.add((ring.head + k) % ring.slots);
  const says = (one) => one.owner === "device" || (one.said && one.said[0] !== "empty") || isPicked(ring, one.slot);
  const all = [...numbers].map((slot) => slotOf(state, ring, slot)).filter(says);
  all.sort((a, b) => ((distance(a.slot) + 8) % ring.slots) - ((distance(b.slot) + 8) % ring.slots));
  const some = all.slice(0, most).sort((a, b) => a.slot - b.slot);
  const ends = [ring.base, ring.base + 16 * (ring.slots - 1)], areLent = ends.every((at) => isLent(state.lent, blockOf(at)));
  const none = areLent ? "The device owns no slot, and no slot holds a descriptor." : "The ring's memory isn't lent.";
  if (!some.length) return faint(none);
  const rows = some.map((one) => {
    const fields = one.said ? one.said[2].map(([name, value]) => `${name} ${value}`).join(", ") : "";
    const said = make("td", {}, make("b", {}, one.form), fields && ": " + fields);
    const marks = [isPicked(ring, one.slot) ? "picked" : "", written.has(one.slot) ? "written" : ""];
    return make("tr", { className: marks.join(" ").trim() },
      cell(`${one.slot}`, "mono"), cell(WHOSE[one.look], "whose"), said);
  });
  const table = make("table", {}, row(["Slot", "Whose", "Descriptor"], "th"), ...rows);
  const left = all.length - some.length + Math.max(0, ahead - most);
  const more = left ? faint(`and ${left} more slots, owned by the device or with a descriptor`) : null;
  const box = make("div", { className: "scroll descriptors", tabIndex: 0, ariaLabel: "descriptors" }, table, more);
  return box;
}
function writtenHead(state, address) {
  const content = state.memory.get(address - (address % 16)), at = 2 * (address % 16);
  if (!content) return unknown(state, address);
  return [3, 2, 1, 0].reduce((word, k) => word * 256 + parseInt(content.slice(at + 2 * k, at + 2 * k + 2), 16), 0);
}

// Returns the ring to show large: the one that was clicked; otherwise the ring of the last step, up to this position,
// that concerns one.
function ringInFront(n, rings) {
  const clicked = rings.find((ring) => ring.name === pinned);
  if (clicked) return clicked;
  for (let k = n - 1; k >= 0; k--) {
    const found = rings.find((ring) => ring.number === run.steps[k][4].g);
    if (found) return found;
  }
  return rings[0];
}
function front(state, ring, n) {
  const written = writtenSlots(ring, n), facts = make("p", { className: "mono" }, factsOf(state, ring));
  if (ring.outside && ring.slots) facts.append(span("bad", " (head or tail is outside the ring)"));
  if (ring.back !== null)
    facts.append(`; head written back to 0x${ring.back.toString(16)}: ${writtenHead(state, ring.back)}`);
  const isLong = ring.slots > CIRCLE;
  const picture = ring.slots < 1 ? null : isLong ? strip(state, ring, written) : circle(state, ring, written);
  const details = make("div", { className: "slots" }, facts, ring.slots ? slots(state, ring, written) : null);
  return make("div", { className: isLong ? "ring long" : "ring" }, picture, details);
}
function line(state, ring, n, inFront) {
  const isIt = ring.number === inFront.number, title = factsOf(state, ring);
  const pointer = (which) => span(ring[which] >= ring.slots ? "bad" : which, `${ring[which]}`);
  const name = span("name", ring.name, ring.on ? "" : span("faint", " off"));
  const words = make("span", { className: "numbers" }, pointer("head"), " → ", pointer("tail"));
  const kinds = `line${isIt ? " front" : ""}${ring.on ? "" : " off"}${ring.name === pinned ? " pinned" : ""}`;
  const made = make("button", { className: kinds, title, ariaPressed: ring.name === pinned }, name, words,
    ring.slots ? strip(state, ring, writtenSlots(ring, n)) : span("faint", "no slots"));
  made.dataset.ring = ring.name;
  made.addEventListener("click", () => {
    pinned = ring.name === pinned ? null : ring.name;
    show(position);
  });
  return made;
}
function showRings(n, state) {
  const rings = ringsOf(state), queues = new Map();
  element("rings-part").hidden = !run.sides.length;
  element("unread-key").hidden = !run.steps.some((step) => (step[4].m ?? []).some(([, content]) => content === null));
  if (!rings.length) {
    element("front").replaceChildren(faint("No ring has a length."));
    element("grid").replaceChildren();
    return;
  }
  const inFront = ringInFront(n, rings);
  for (const ring of rings) queues.set(ring.queue, [...(queues.get(ring.queue) ?? []), ring]);
  const cards = [...queues].sort(([a], [b]) => a - b).map(([, some]) =>
    make("div", { className: "card" }, ...some.map((ring) => line(state, ring, n, inFront))));
  const focused = document.activeElement?.getAttribute("data-ring");
  element("front").replaceChildren(front(state, inFront, n));
  element("grid").replaceChildren(...cards);
  element("grid").hidden = rings.length < 2;
  if (focused) element("grid").querySelector(`[data-ring="${focused}"]`)?.focus();
  const box = element("front").querySelector(".descriptors"), lit = box?.querySelector("tr.written");
  const [titles, ...rows] = box?.querySelectorAll("tr") ?? [];
  if (lit) box.scrollTop = wholeRow(rows, Math.max(0, lit.offsetTop - box.clientHeight / 2), titles.offsetHeight);
}
