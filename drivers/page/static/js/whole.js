// The whole text of a label of the drawing that is cut: in a frame beside the label, which moves nothing and lies over
// no tool. It goes with Escape, the next press of the label, and a press elsewhere.
import { byId, el, fill } from "./dom.js";

const AWAY = 10; // pixels from the label, whose arrow is seen still
const LEAST = 144; // pixels of height for which there is always room, below a short drawing too
const PART = 0.7; // of what is seen of the frame a key moves on

export class Whole {
  constructor(room) {
    this.room = room; // which moves with the drawing, and has the frame in it
    this.frame = byId("whole-text");
    this.label = null;
    const elsewhere = (event) => {
      if (!this.label?.contains(event.target) && !this.frame.contains(event.target)) this.close();
    };
    addEventListener("pointerdown", elsewhere);
    addEventListener("hashchange", () => this.close());
    // (not with the focus: a label that was tapped gives it away before it acts)
    addEventListener("keyup", (event) => {
      if (event.key === "Tab") elsewhere(event);
    });
    addEventListener("keydown", (event) => this.key(event));
  }

  toggle(label) {
    const isMeant = label !== this.label;
    this.close();
    if (!isMeant) return;
    this.label = label;
    label.setAttribute("aria-expanded", "true");
    fill(this.frame, el("bdi", {}, label.getAttribute("aria-label")));
    this.place();
  }

  close() {
    this.label?.setAttribute("aria-expanded", "false");
    this.label = null;
    fill(this.frame);
    this.frame.removeAttribute("style");
  }

  // Below the label or above it, where more of it is seen; what is longer moves in the frame.
  place() {
    const { room, frame } = this;
    const [label, outer] = [this.label, room].map((it) => it.getBoundingClientRect());
    const tools = parseFloat(getComputedStyle(document.documentElement).scrollPaddingBottom) || 0;
    const heads = byId("sequence-heads").firstElementChild.getBoundingClientRect();
    const above = label.top - Math.max(outer.top, heads.bottom);
    const below = Math.min(outer.bottom, innerHeight - tools) - label.bottom;
    const isBelow = frame.offsetHeight + AWAY <= below || below >= above || above < LEAST;
    frame.style.maxHeight = `${Math.max(LEAST, isBelow ? below : above) - AWAY}px`;
    const top = isBelow ? label.bottom + AWAY : label.top - AWAY - frame.offsetHeight;
    const left = Math.min(label.left - outer.left, room.clientWidth - frame.offsetWidth);
    frame.style.top = `${top - outer.top + room.scrollTop}px`;
    frame.style.left = `${Math.max(0, left)}px`;
  }

  // Escape closes the frame, and nothing else by the same press. Arrows move what is longer than it.
  key(event) {
    if (!this.label) return;
    const way = { Escape: 0, ArrowDown: PART, ArrowUp: -PART }[event.key];
    const moves = this.frame.scrollHeight > this.frame.clientHeight;
    if (way === undefined || event.altKey || (way && !moves)) return;
    event.preventDefault();
    event.stopImmediatePropagation();
    if (way) this.frame.scrollTop += way * this.frame.clientHeight;
    else this.close();
  }
}
