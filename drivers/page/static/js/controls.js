// The buttons over a tape, and their keys. For the projector the arrows do without Alt, and a clicker's keys step
// always.
import { Player } from "./player.js";
import { clicked, isProjected, isTyping } from "./projector.js";

const KEYS = { ArrowRight: "step", End: "end", ArrowLeft: "back", Home: "start", ArrowDown: "call" };

const LETTERS = { p: "play", x: "crash" };

// P plays and pauses, X crashes.
const byLetter = (event) =>
  (event.altKey || event.ctrlKey || event.metaKey || isTyping(event) ? null : LETTERS[event.key.toLowerCase()]);

// `story` opens lines; `quiz` is asked before a step; `print` draws all of it for a hand-out; `more` has what a view
// does otherwise than its tape, and `isOver` whether it has no step left. The player is returned.
export function wire(view, tape, { story, quiz, print, more = {}, isOver = () => tape.at >= tape.lines.length }) {
  const does = {
    start: () => tape.toStart(),
    step: () => quiz.step(),
    end: () => tape.toEnd(),
    back: () => tape.back(),
    drop: () => tape.dropRest(),
    clear: () => story([], 0),
    quiz: () => quiz.toggle(),
    print,
    ...more,
  };
  const player = new Player(view, { step: () => does.step(), isOver, begin: () => tape.toStart() });
  const act = (name) => {
    if (name === "play") return player.toggle();
    player.pause();
    return does[name]?.();
  };
  for (const button of view.querySelectorAll("[data-do]")) {
    button.addEventListener("click", () => {
      button.closest("details.more")?.removeAttribute("open");
      act(button.dataset.do);
    });
  }
  addEventListener("keydown", (event) => {
    if (view.hidden) return;
    const isMeant = event.altKey || (isProjected() && !isTyping(event));
    const letter = byLetter(event);
    const wanted = clicked(event) ?? (isMeant ? KEYS[event.key] : null) ?? letter;
    if (!wanted || (wanted === letter && view.querySelector(`[data-do="${letter}"]`)?.disabled !== false)) return;
    event.preventDefault();
    act(wanted);
  });
  return player;
}

// Which buttons have something to do. `isWithin` is whether a part of what was given last isn't shown yet, and `isAsked`
// whether a quiz is on, which isn't played; `hasCoordinator` whether there is one to crash.
export function enable(view, tape, { isWithin = false, isAsked = false, hasCoordinator = false } = {}) {
  const waits = tape.at < tape.lines.length;
  const some = tape.lines.length > 0;
  const able = { start: tape.at > 0, step: waits || isWithin, call: waits || isWithin, end: waits || isWithin,
    back: tape.at > 0, drop: waits, clear: some, quiz: true, print: some, play: some && !isAsked,
    crash: some && hasCoordinator };
  for (const button of view.querySelectorAll("[data-do]")) button.disabled = !able[button.dataset.do];
  if (view.dataset.wants !== "step" || !waits) return;
  delete view.dataset.wants;
  // whoever has gone elsewhere meanwhile stays there
  if (document.activeElement === document.body) view.querySelector('[data-do="step"]').focus();
}

// A question mark lists all keys, which do nothing else while they are listed.
export function listenToHelp() {
  const help = document.getElementById("keys");
  const isAsked = (event) => event.key === "?" && !isTyping(event);
  help.querySelector("button").addEventListener("click", () => help.close());
  help.addEventListener("keydown", (event) => {
    event.stopPropagation();
    if (isAsked(event)) help.close();
  });
  addEventListener("keydown", (event) => {
    if (isAsked(event)) help.showModal();
  });
}

// A menu is closed by Escape, and by what is done elsewhere.
export function listenToMenus() {
  const close = (but) => {
    for (const menu of document.querySelectorAll("details.more[open]")) if (menu !== but) menu.open = false;
  };
  addEventListener("pointerdown", (event) => close(event.target.closest?.("details.more")));
  addEventListener("focusin", (event) => close(event.target.closest?.("details.more")));
  addEventListener("keydown", (event) => {
    if (event.key === "Escape") close(null);
  });
}
