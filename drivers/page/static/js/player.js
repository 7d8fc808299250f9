// Plays step after step at a pace, until it is paused or there is no step left.
const PACES = [["slow", 4000], ["usual", 2200], ["fast", 1000], ["very fast", 350]]; // milliseconds from step to step
const USUAL = 1;
const KEPT = "pace";
const TRAVELS = 0.45; // of that an arrow takes for its way
const LONGEST = 1100;

const kept = () => Number(sessionStorage.getItem(KEPT) ?? USUAL);

export const pace = () => (PACES[kept()] ?? PACES[USUAL])[1];

export const isStill = () => matchMedia("(prefers-reduced-motion: reduce)").matches;

// How long an arrow takes; no time for who wants no motion.
export const travelTime = () => (isStill() ? 0 : Math.min(LONGEST, pace() * TRAVELS));

export class Player {
  // `step` goes on by one step, `isOver` says whether there is none left, and `begin` goes to the start.
  constructor(view, { step, isOver, begin }) {
    Object.assign(this, { step, isOver, begin, timer: null, isOn: false });
    this.button = view.querySelector('[data-do="play"]');
    this.choice = view.querySelector("[data-pace]");
    for (const [at, [name]] of PACES.entries()) this.choice.append(new Option(name, at));
    this.choice.value = kept();
    this.choice.addEventListener("change", () => sessionStorage.setItem(KEPT, this.choice.value));
    addEventListener("hashchange", () => this.pause());
  }

  toggle() {
    return this.isOn ? this.pause() : this.play();
  }

  async play() {
    this.choice.value = kept();
    this.isOn = true;
    this.show();
    if (this.isOver()) await this.begin();
    await this.goOn();
  }

  async goOn() {
    if (!this.isOn) return;
    await this.step();
    if (this.isOver()) this.pause();
    else if (this.isOn) this.timer = setTimeout(() => this.goOn(), pace());
  }

  pause() {
    clearTimeout(this.timer);
    this.isOn = false;
    this.show();
  }

  show() {
    this.button.textContent = this.isOn ? "Pause" : "Play";
  }
}
