// For a lecture hall: F leaves out tools and forms and makes the rest larger, + and - make all larger and smaller, and
// a clicker's keys step.
import { byId } from "./dom.js";

const ZOOMS = [0.6, 0.7, 0.8, 0.9, 1, 1.15, 1.3, 1.5, 1.75, 2, 2.5];
const KEPT = "zoom";
const PART = 0.7; // of what is seen of a room is passed by a clicker's step

export const isTyping = (event) => Boolean(event.target.closest?.("input, textarea, select"));

export const isProjected = () => document.body.classList.contains("projected");

// Whether a key is the control's own that has the focus: a blank in a text, or on a button.
const hasKeys = (event) =>
  Boolean(event.target.closest?.("input, textarea, select, button, a, summary, [role=button]"));

// What a clicker's key is meant to do: "step", "back", or nothing.
export function clicked(event) {
  if (event.altKey || event.ctrlKey || event.metaKey || event.target.closest?.("textarea")) return null;
  if (event.key === "PageDown") return "step";
  if (event.key === "PageUp") return "back";
  return event.key === " " && !event.shiftKey && !hasKeys(event) ? "step" : null;
}

// Moves a room by a clicker's step.
export function scrollOn(room, wanted) {
  room.scrollBy({ top: (wanted === "step" ? PART : -PART) * room.clientHeight });
}

// Leaves the keys to the view that is shown: the focus goes to its Step, or nowhere where it has none.
function leave(control) {
  const view = document.querySelector("main:not([hidden])");
  const step = view?.querySelector('[data-do="step"]');
  control.blur();
  if (step?.disabled) view.dataset.wants = "step";
  else step?.focus({ preventScroll: true });
}

// A list is left once a pointer has chosen in it, or the choice was confirmed.
function listenToChoices() {
  let pointed = null;
  addEventListener("pointerdown", (event) => { pointed = event.target.closest?.("select"); });
  addEventListener("keydown", (event) => {
    pointed = null;
    if (event.key !== "Enter" || !event.target.closest?.(":is(.tools, .choices) select")) return;
    event.preventDefault();
    leave(event.target);
  }, true);
  addEventListener("change", (event) => {
    if (event.target === pointed) leave(pointed);
  });
}

// A button is left once a pointer has clicked it, or else a clicker's Space would press it again. Who pressed it by a
// key goes on from there, but from a story's, which goes away with the welcome around it.
function listenToButtons() {
  addEventListener("click", (event) => {
    const button = event.target.closest?.("button, [role=button]");
    if (button && (event.detail > 0 || button.matches(".story"))) leave(button);
  }, true); // before the button acts, which may give the focus to something else
}

function setZoom(at) {
  const wanted = Math.max(0, Math.min(ZOOMS.length - 1, at));
  sessionStorage.setItem(KEPT, wanted);
  document.documentElement.style.setProperty("--zoom", ZOOMS[wanted]);
  return wanted;
}

// What zooming or projecting changes is drawn anew by `changed`.
export function listen(changed) {
  listenToChoices();
  listenToButtons();
  const kept = Number(sessionStorage.getItem(KEPT) ?? ZOOMS.indexOf(1));
  let zoom = setZoom(Number.isInteger(kept) ? kept : ZOOMS.indexOf(1));
  addEventListener("keydown", (event) => {
    if (event.altKey || event.ctrlKey || event.metaKey || isTyping(event)) return;
    const zooms = { "+": zoom + 1, "=": zoom + 1, "-": zoom - 1, 0: ZOOMS.indexOf(1) };
    if (!(event.key in zooms)) return;
    event.preventDefault();
    zoom = setZoom(zooms[event.key]);
    changed();
  });
  addEventListener("keydown", (event) => {
    const isToggle = (event.key === "f" || event.key === "F") && !event.altKey && !event.ctrlKey && !event.metaKey
      && !isTyping(event);
    if (!isToggle && !(event.key === "Escape" && isProjected())) return;
    event.preventDefault();
    document.body.classList.toggle("projected");
    byId("projector-hint").hidden = false;
    setTimeout(() => { byId("projector-hint").hidden = true; }, 6000);
    changed();
  });
}
