// Lines that are given to a child one after another, with a cursor: those before it are answered, those behind it wait.
import { ask, Failure, NAME } from "./api.js";

export class Tape {
  // `question` says which job, `changed` is called behind every change, with what is to be said of it, and `isCaption`
  // says which lines are read in passing: they go with the line that follows them.
  constructor(question, changed, isCaption) {
    this.question = question;
    this.changed = changed;
    this.isCaption = isCaption;
    this.lines = [];
    this.at = 0;
    this.answers = []; // of the first so many lines, which may be more than those before the cursor
    this.turn = Promise.resolve();
  }

  // Each change waits for the one before it, so that answers come in order.
  then(change) {
    const done = this.turn.then(async () => this.changed(await change() ?? {})).catch((fault) => {
      if (!(fault instanceof Failure)) throw fault;
      this.changed({ fault: fault.message });
    });
    this.turn = done.catch(() => {});
    return done;
  }

  open(lines, at) {
    return this.then(async () => {
      this.lines = [...lines];
      this.answers = [];
      this.at = 0;
      return this.reach(Math.min(at, lines.length));
    });
  }

  // Puts a line at the cursor, and has it answered.
  give(line) {
    return this.then(() => this.put(this.at, [line], 0));
  }

  // Puts lines at a place, and has them and so many lines behind them answered.
  insert(place, lines, further = 0) {
    return this.then(() => this.put(place, lines, further));
  }

  put(place, lines, further) {
    this.lines.splice(place, 0, ...lines);
    this.forget(place);
    return this.reach(place + lines.length + further);
  }

  goTo(place) {
    return this.then(() => this.reach(place));
  }

  // The places at which steps end: behind each line that is no caption, but behind captions that nothing follows.
  stops() {
    const found = this.lines.flatMap((line, at) => (this.isCaption(line) ? [] : [at + 1]));
    return [0, ...found.slice(0, -1), this.lines.length];
  }

  step() {
    return this.then(() => this.reach(this.stops().find((place) => place > this.at) ?? this.lines.length));
  }

  toStart() {
    return this.then(() => this.reach(0));
  }

  toEnd() {
    return this.then(() => this.reach(this.lines.length));
  }

  back() {
    return this.then(() => this.reach(this.stops().findLast((place) => place < this.at) ?? 0));
  }

  remove(place) {
    return this.then(() => {
      this.lines.splice(place, 1);
      this.forget(place);
      this.at = Math.min(this.at, place);
    });
  }

  dropRest() {
    return this.then(() => {
      this.lines.length = this.at;
      this.forget(this.at);
    });
  }

  forget(place) {
    this.answers.length = Math.min(this.answers.length, place);
  }

  async reach(place) {
    const wanted = Math.max(0, Math.min(place, this.lines.length));
    let news = {};
    if (wanted > this.answers.length) {
      const known = this.answers.length;
      const lines = this.lines.slice(0, wanted);
      const asked = performance.now();
      news = await ask("talk", { ...this.question, talk: NAME, lines, known });
      news.times = { asked, returned: performance.now() };
      this.answers.push(...news.answers);
    }
    this.at = Math.min(wanted, this.answers.length);
    return news;
  }
}
