// Elements are made of text nodes alone: nothing that comes from the program is ever read as HTML.
import { pieces } from "./bytes.js";

const PART = 0.6; // of the screen that is free of tools
const ASIDE = 8; // so much beside what was moved into sight

export const byId = (id) => document.getElementById(id);

// An element: "tag.class.class", its properties (on.. for listeners, others as attributes), and what stands in it.
export function el(kind, properties = {}, ...inside) {
  const [tag, ...classes] = kind.split(".");
  const made = document.createElement(tag);
  made.classList.add(...classes);
  for (const [name, value] of Object.entries(properties)) {
    if (name.startsWith("on")) made.addEventListener(name.slice(2), value);
    else if (value === true) made.setAttribute(name, "");
    else if (value !== false && value !== null && value !== undefined) made.setAttribute(name, value);
  }
  made.append(...inside.flat().filter((part) => part !== null && part !== undefined));
  return made;
}

export function fill(element, ...inside) {
  element.replaceChildren(...inside.flat().filter((part) => part !== null && part !== undefined));
}

// Fills a room with what is known; `unknown` says why it isn't known yet, or is null. A hint of before goes at once,
// since it may be wrong; what else stood there keeps its room.
export function fillKnown(room, unknown, ...inside) {
  room.setAttribute("aria-busy", String(unknown !== null));
  if (unknown === null) return fill(room, ...inside);
  for (const hint of room.querySelectorAll(":scope > .hint")) hint.remove();
  room.append(el("p.hint.unknown", {}, unknown));
}

// Bytes as text that keeps to itself, with each byte that can't be seen in digits.
export function shown(bytes, kind = "bdi.bytes") {
  return el(kind, {}, pieces(bytes).map((piece) =>
    piece.byte === undefined ? piece.text : el("span.byte", { title: `byte 0x${piece.byte}` }, piece.byte)));
}

// The same for bytes that are printed in lines: the line feeds stay.
export function shownLines(bytes) {
  return bytes.split("\n").flatMap((line, at) => (at ? ["\n", shown(line)] : [shown(line)]));
}

export function printedInto(element, bytes) {
  fill(element, shownLines(bytes));
}

// What a first line that is a remark says.
export function remarkOf(lines) {
  const first = lines[0] ?? "";
  return first.startsWith("#") ? shown(first.slice(1).trim(), "bdi") : null;
}

// What can be chosen, in groups of [value, text, title].
export function options(select, groups) {
  fill(select, el("option", { value: "" }, "…"), groups.map(([name, entries]) =>
    el("optgroup", { label: name }, entries.map(([value, text, title]) => el("option", { value, title }, text)))));
}

// Whether a room moves by itself, and not with the page.
export const moves = (room) =>
  room.scrollHeight > room.clientHeight && getComputedStyle(room).overflowY !== "visible";

// Moves a room so that an element's bottom is seen, and so much below it; where the room doesn't move by itself, the
// page does.
export function bringIntoView(room, element, below) {
  if (moves(room)) {
    room.scrollTop += element.getBoundingClientRect().bottom - room.getBoundingClientRect().bottom + below;
  } else {
    // of what is higher than the screen, the start
    const isHigh = element.getBoundingClientRect().height > innerHeight * PART;
    element.scrollIntoView({ block: isHigh ? "start" : "nearest" });
  }
}

// Moves a room to its start. Where the page moves in its place, it does so until these are seen, the last above all.
export function bringStartIntoView(room, elements) {
  room.scrollTop = 0;
  for (const element of elements) element?.scrollIntoView({ block: "nearest" });
}

// Moves a room sidewards so that all of an element is seen, where it has room for it.
export function bringAcross(room, element) {
  const [inner, outer] = [element.getBoundingClientRect(), room.getBoundingClientRect()];
  if (inner.right > outer.right) room.scrollLeft += inner.right - outer.right + ASIDE;
  else if (inner.left < outer.left) room.scrollLeft -= outer.left - inner.left + ASIDE;
}

// Draws a room anew; a button in it that had the focus has it afterwards, or else the number of its line.
export function keepingFocus(room, redraw) {
  const focused = room.contains(document.activeElement) ? document.activeElement : null;
  const label = focused?.getAttribute("aria-label");
  const line = focused?.closest("[data-line]")?.dataset.line;
  redraw();
  if (!focused || room.contains(document.activeElement)) return;
  const same = label ? room.querySelector(`[aria-label="${CSS.escape(label)}"]`) : null;
  (same ?? room.querySelector(`[data-line="${line}"] .here`))?.focus({ preventScroll: true });
}

// How often something came.
export const cameText = (count) => (count === 0 ? "didn't come" : count === 1 ? "came once" : `came ${count} times`);

export const sessionClass = (session) => `s${session}`;
