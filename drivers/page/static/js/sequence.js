// The sequence diagram of a coordinator's calls: the server makes its SVG, which is shown as it is. What can be done in
// it are its buttons.
import { ask } from "./api.js";
import { byId, el, fill } from "./dom.js";
import { isStill, travelTime } from "./player.js";
import { isProjected } from "./projector.js";
import { Whole } from "./whole.js";

const LETTERS = 0.8; // of the page's letters
const SMALL = 0.7; // of them in a narrow room
const NARROW = 480; // pixels
const SCALE = 2; // of a picture for others: pixels for each of the drawing's
const NARROWEST = 260;
const PAGE = [1000, 1300]; // of a page's drawing, in its own units
const HEADS = 43;
const FIRST_STORE = 2; // its lifeline's number, as the drawing counts them
const PLACE = ["act", "line", "store", "call"];
const WHOLE = "whole"; // the act that shows all of a label that is cut

// Its style stands in a style sheet of the page's own.
function read(svg) {
  const [head, , rest] = svg.split(/<\/?style>/);
  return document.importNode(new DOMParser().parseFromString(head + rest, "image/svg+xml").documentElement, true);
}

const SVG = "http://www.w3.org/2000/svg";

function made(tag, attributes, ...inside) {
  const element = document.createElementNS(SVG, tag);
  for (const [name, value] of Object.entries(attributes)) element.setAttribute(name, value);
  element.append(...inside);
  return element;
}

// The part of a lifeline that stands between two heights, as a copy.
function part(line, top, bottom) {
  const [from, to] = ["y1", "y2"].map((name) => Number(line.getAttribute(name)));
  if (to <= top || from >= bottom) return [];
  const copy = line.cloneNode();
  copy.setAttribute("y1", Math.max(from, top));
  copy.setAttribute("y2", Math.min(to, bottom));
  return [copy];
}

// (a line may have several labels that are cut: each is known by its text)
function selectorOf(button) {
  const text = button.dataset.act === WHOLE ? `[aria-label="${CSS.escape(button.getAttribute("aria-label"))}"]` : "";
  return text + PLACE.filter((name) => name in button.dataset)
    .map((name) => `[data-${name}="${CSS.escape(button.dataset[name])}"]`).join("");
}

// What is drawn, however wide it is and whether an answer is asked for.
const storyOf = ({ lines, at, stores }) => JSON.stringify([lines, at, stores]);

export class Sequence {
  // `does` has what each act of a button does; `drawn` is called behind each drawing.
  constructor(room, does, drawn) {
    this.room = room;
    this.does = does;
    this.drawn = drawn;
    this.wanted = null;
    this.shown = null;
    this.steps = this.rows = []; // of the drawing
    this.isWhole = true; // whether it has all statements
    this.asked = this.made = null; // which story was asked for last, and which is drawn
    this.whole = new Whole(room.parentElement);
    room.addEventListener("click", (event) => this.act(event.target.closest("[data-act]"), event));
    room.addEventListener("keydown", (event) => {
      if (event.key === "Enter" || event.key === " ") this.act(event.target.closest("[data-act]"), event);
    });
    for (const kind of ["focusin", "mouseover"])
      room.addEventListener(kind, (event) => this.say(event.target.closest("[data-act]")));
    for (const kind of ["focusout", "mouseleave"]) room.addEventListener(kind, () => this.say(null));
  }

  act(button, event) {
    if (!button) return;
    event.preventDefault();
    event.stopPropagation();
    const { act, line, store, call } = button.dataset;
    if (act === WHOLE) this.whole.toggle(button);
    else this.does[act](Number(line) - 1, { store: Number(store), call: Number(call) });
  }

  // What a button would do is said in words too, not only below the pointer.
  say(button) {
    const isSaid = button && !["go", WHOLE].includes(button.dataset.act);
    fill(byId("cut-says"), isSaid ? button.getAttribute("aria-label") : "");
  }

  size() {
    const part = isProjected() ? 1 : this.width() < NARROW ? SMALL : LETTERS;
    return Math.round(parseFloat(getComputedStyle(document.documentElement).fontSize) * part);
  }

  width() {
    return Math.max(NARROWEST, Math.floor(this.room.clientWidth) || NARROWEST);
  }

  // Draws what is asked; while one drawing is made another may be asked for, of which only the last is made.
  show(question) {
    this.wanted = { ...question, width: this.width(), size: this.size() };
    this.asked = storyOf(question);
    this.running ??= this.drawAll().finally(() => { this.running = null; });
    return this.running;
  }

  async drawAll() {
    while (this.wanted) {
      const asked = this.wanted;
      this.wanted = null;
      const key = JSON.stringify(asked);
      if (key === this.shown) continue;
      const { svg, whole, steps, rows } = await ask("sequence", asked);
      Object.assign(this, { steps, rows, isWhole: whole });
      this.put(svg, asked);
      this.shown = whole ? key : null;
      this.wanted ??= whole ? null : asked;
    }
  }

  put(svg, asked) {
    const focused = this.room.contains(document.activeElement) ? document.activeElement : null;
    const made = read(svg);
    fill(this.room, made);
    const heads = made.querySelector(".heads");
    const [, , width] = made.getAttribute("viewBox").split(" ");
    const height = heads.getBBox().height;
    const copy = made.cloneNode(false);
    copy.setAttribute("viewBox", `0 0 ${width} ${height}`);
    copy.setAttribute("height", height);
    copy.append(heads.cloneNode(true));
    fill(byId("sequence-heads"), copy);
    byId("sequence-heads").style.setProperty("--head", `${height}px`);
    if (focused && !this.room.contains(document.activeElement)) {
      const same = focused.dataset.act ? this.room.querySelector(selectorOf(focused)) : null;
      (same ?? this.room.querySelector(`[data-act="go"][data-line="${focused.dataset.line}"]`))
        ?.focus({ preventScroll: true });
    }
    this.room.dataset.given = asked.at;
    this.room.dataset.whole = this.isWhole;
    this.made = storyOf(asked);
    this.drawn();
  }

  // Whether it is drawn as far as these lines were given.
  isOf({ at }) {
    return this.room.firstElementChild !== null && this.room.dataset.given === String(at);
  }

  // Why there is no drawing of what was asked for last; null where there is.
  lack() {
    return this.asked === this.made ? null
      : this.running ? "The drawing is being made." : "The drawing couldn't be made.";
  }

  // How many messages the call at a line has.
  count(line) {
    return this.steps.find((it) => it.line === line)?.says.length ?? 0;
  }

  // The first statement of a line that is sent behind a message: {store, call}; none where all are shown.
  cutBehind(line, step) {
    const messages = [...this.room.querySelectorAll(`.call[data-line="${line}"] .message`)];
    return messages.filter((it) => step !== null && Number(it.dataset.step) > step)
      .map((it) => it.querySelector('[data-act="fail"]')?.dataset).find(Boolean) ?? null;
  }

  // Leaves out what comes behind a message of a line; null shows all of it.
  showUntil(line, step) {
    this.whole.close();
    this.room.querySelector(".curtain-room")?.remove();
    const drawing = this.room.firstElementChild;
    const ends = this.steps.find((it) => it.line === line)?.ends;
    if (!ends || !drawing) return;
    const bottom = ends.at(-1);
    if (step === null) return;
    const top = ends[step - 1];
    const width = drawing.getAttribute("width");
    const curtain = made("g", { class: "curtain-room" },
      made("rect", { class: "curtain", x: 0, y: top, width, height: bottom - top }),
      ...[...drawing.querySelectorAll(".lifeline")].flatMap((it) => part(it, top, bottom)),
      ...this.shownRows(line, step).map((it) => it.cloneNode(true)));
    drawing.querySelector(".heads").before(curtain);
  }

  // The rows that were changed up to a message of a line: they stand beside the next one, which comes later.
  shownRows(line, step) {
    return [...this.room.querySelectorAll(`.call[data-line="${line}"] .rows`)]
      .filter((it) => Number(it.dataset.step) <= step);
  }

  // The branches in doubt at the end of a message, as the drawing has their bands: [{store, prepared}].
  doubtAt(line, step) {
    const ends = this.steps.find((it) => it.line === line)?.ends;
    if (!ends) return [];
    const at = ends[step - 1];
    return [...this.room.querySelectorAll(".doubt")].filter((band) => {
      const box = band.querySelector("rect").getBBox();
      return box.y < at && box.y + box.height > at - 1;
    }).map(({ dataset }) => ({ store: Number(dataset.store), prepared: [dataset.xid] }));
  }

  // Where a message of a line ends, or the whole line where `step` is null.
  endOf(line, step) {
    const whole = this.room.querySelector(`.call[data-line="${line}"]`)?.dataset.bottom;
    return step === null ? Number(whole ?? 0) : this.steps.find((it) => it.line === line)?.ends[step - 1];
  }

  // Has the heads say how it stands behind a message: these stores are in doubt, and whose lifeline has ended is gone.
  markHeads(line, step, doubted) {
    const end = this.endOf(line, step);
    const lives = [...this.room.querySelectorAll(".lifeline")].map((it) =>
      [it.dataset.lane, Number(it.getAttribute("y1")), Number(it.getAttribute("y2"))]);
    for (const head of this.room.closest("main").querySelectorAll(".lane-head")) {
      const { lane } = head.dataset;
      const isDoubted = doubted.includes(Number(lane) - FIRST_STORE);
      head.classList.toggle("in-doubt", isDoubted);
      head.classList.toggle("gone",
        end > 0 && !lives.some(([whose, from, to]) => whose === lane && from <= end && end <= to));
      const role = head.querySelector(".role");
      if (role) role.textContent = isDoubted ? "in doubt" : "participant";
    }
  }

  // Lets the arrow of a message go its way, and what it changes appear once it has come.
  travel(line, step) {
    const message = this.room.querySelector(`.call[data-line="${line}"] .message[data-step="${step}"]`);
    const arrow = message?.querySelector(".arrow");
    if (!arrow || isStill()) return;
    const duration = travelTime();
    const [start, end] = ["x1", "x2"].map((name) => Number(arrow.getAttribute(name)));
    arrow.style.transformOrigin = `${start}px 0`;
    const way = { duration, easing: "ease-in-out", fill: "backwards" };
    arrow.animate([{ transform: "scaleX(0)" }, { transform: "none" }], way);
    message.querySelector(".head-of, .cross")
      ?.animate([{ transform: `translateX(${start - end}px)` }, { transform: "none" }], way);
    const later = [...this.room.querySelectorAll(`.curtain-room .rows[data-step="${step}"]`)];
    for (let next = message.nextElementSibling; next && !next.matches(".message"); next = next.nextElementSibling)
      later.push(next);
    for (const next of later)
      next.animate([{ opacity: 0 }, { opacity: 1 }], { duration: duration / 3, delay: duration, fill: "backwards" });
  }

  clear() {
    this.wanted = this.shown = this.asked = this.made = null;
    this.whole.close();
    this.steps = this.rows = [];
    this.isWhole = true;
    fill(this.room);
    fill(byId("sequence-heads"));
    this.room.dataset.given = 0;
  }

  // The whole drawing in pieces for paper, none cut within a call, each with the heads above it.
  async pages(question, room) {
    const whole = read((await ask("sequence", { ...question, width: PAGE[0], size: 14 })).svg);
    const [width, height] = ["width", "height"].map((side) => Number(whole.getAttribute(side)));
    const heads = whole.querySelector(".heads");
    // a remark stays with what follows it
    const ends = [...whole.querySelectorAll(".call:not(.remark, .blank)")].map((call) => Number(call.dataset.bottom));
    const made = [];
    for (let top = HEADS; top < height;) {
      const end = ends.findLast((at) => at <= top + PAGE[1]) ?? height;
      const bottom = end <= top || height - top <= PAGE[1] ? Math.min(height, top + PAGE[1]) : end;
      const page = whole.cloneNode(true);
      page.querySelector(".heads").remove();
      const above = whole.cloneNode(false);
      page.setAttribute("viewBox", `0 ${top} ${width} ${bottom - top}`);
      page.setAttribute("y", HEADS);
      page.setAttribute("height", bottom - top);
      above.setAttribute("viewBox", `0 0 ${width} ${HEADS + bottom - top}`);
      above.setAttribute("height", HEADS + bottom - top);
      above.append(page, heads.cloneNode(true));
      made.push(above);
      top = bottom;
    }
    fill(room, made);
  }

  // The drawing as a file of its own.
  async file(question) {
    return (await ask("sequence", { ...question, file: true })).svg;
  }
}

function keep(name, blob) {
  const address = URL.createObjectURL(blob);
  el("a", { href: address, download: name }).click();
  setTimeout(() => URL.revokeObjectURL(address), 10_000);
}

export const saveSvg = (svg) => keep("sequence.svg", new Blob([svg], { type: "image/svg+xml" }));

export async function asPng(svg) {
  const address = URL.createObjectURL(new Blob([svg], { type: "image/svg+xml" }));
  try {
    const image = new Image();
    image.src = address;
    await image.decode();
    const canvas = el("canvas", { width: image.naturalWidth * SCALE, height: image.naturalHeight * SCALE });
    canvas.getContext("2d").drawImage(image, 0, 0, canvas.width, canvas.height);
    return await new Promise((done) => canvas.toBlob(done, "image/png"));
  } finally {
    URL.revokeObjectURL(address);
  }
}

export async function savePng(svg) {
  keep("sequence.png", await asPng(svg));
}
