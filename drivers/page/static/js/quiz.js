// A quiz: a step first asks what the next line will be answered, and the answer comes once somebody has guessed, or
// asked for it.
import { el, fill, shown } from "./dom.js";

const plain = (text) => text.trim().replace(/;$/, "").replace(/\s+/g, " ").toUpperCase();

// The words that a coordinator's answer begins with, as WRONG STAGE or RECOVERED: the numbers behind them needn't be
// guessed.
const NAMED = /^(?!VALUE|ROWS)[A-Z]+(?: [A-Z]+)*(?=:| [\da-z]|$)/;

// Whether a guess is this answer: as it is printed or as it is shown, by an error's number, or by the words that name
// it.
export function isRight(guess, printed, read) {
  const said = plain(guess);
  if (said === "") return false;
  const error = /^ERROR (\d+)/.exec(printed);
  if (error) return said === "ERROR" || said === "REFUSED" || (/\d+/.exec(said) ?? [""])[0] === error[1];
  const value = /^VALUE (.*)$/s.exec(read);
  const values = value ? [value[1], value[1].replace(/^'|'$/g, "")] : [];
  return [printed, read, ...values, ...(NAMED.exec(printed) ?? [])].some((answer) => plain(answer) === said);
}

export class Quiz {
  // `answerAt` gives the answer of a line that is answered, {printed, read}; `changed` draws the view anew; `goOn` steps
  // where nothing is asked.
  constructor(view, tape, answerAt, changed, goOn = () => tape.step()) {
    Object.assign(this, { tape, answerAt, changed, goOn, isOn: false, asked: null, right: 0, count: 0 });
    this.toggler = view.querySelector('[data-do="quiz"]');
    this.line = el("span.asked");
    this.input = el("input", { type: "text", spellcheck: "false", autocapitalize: "off", "aria-label": "Your guess",
      placeholder: view.dataset.guess });
    this.form = el("form.quiz", { hidden: true, autocomplete: "off" }, el("label", {}, this.line, this.input),
      el("button.main", { type: "submit" }, "Guess"),
      el("button.reveal", { type: "button", onclick: () => this.reveal(null) }, "Show the answer"));
    this.said = el("p.quiz-said", { role: "status", "aria-live": "polite" });
    this.form.addEventListener("submit", (event) => {
      event.preventDefault();
      if (this.input.value.trim()) this.reveal(this.input.value);
    });
    view.querySelector(".tools").after(this.form, this.said);
  }

  next() {
    const { lines, at, isCaption } = this.tape;
    const found = lines.findIndex((line, place) => place >= at && !isCaption(line));
    return found < 0 ? null : found;
  }

  // Asks about a line, or nothing any more. Who sees the page reads the question beside the box; who hears it is told.
  ask(place) {
    this.asked = place;
    this.said.classList.toggle("unseen", place !== null);
    fill(this.said, place === null ? null : this.question());
  }

  question() {
    return [`What is line ${this.asked + 1}, `, shown(this.tape.lines[this.asked].trim()), ", answered? "];
  }

  toggle() {
    Object.assign(this, { isOn: !this.isOn, right: 0, count: 0 });
    this.ask(null);
    fill(this.said, this.isOn ? "Quiz: each step asks first. Step again, or Show the answer, to see it." : null);
    this.follow();
    this.changed();
  }

  step() {
    const next = this.next();
    if (!this.isOn || next === null) return this.goOn();
    if (this.asked === next) return this.reveal(null);
    this.ask(next);
    this.input.value = "";
    this.follow();
    this.changed();
    return null;
  }

  async reveal(guess) {
    const place = this.asked;
    this.ask(null);
    await this.tape.step();
    const answer = this.answerAt(place);
    if (!answer) return;
    const is = [`Line ${place + 1}: `, shown(answer.read)];
    if (guess !== null) {
      this.count += 1;
      const right = isRight(guess, answer.printed, answer.read);
      this.right += right ? 1 : 0;
      is.unshift(el(right ? "strong.right" : "strong.wrong", {}, right ? "Right. " : "No. "));
      is.push(` (${this.right} of ${this.count})`);
    }
    fill(this.said, is);
  }

  // What is asked is the next line, or nothing any more.
  follow() {
    if (this.asked !== null && this.asked !== this.next()) this.ask(null);
    this.toggler?.setAttribute("aria-pressed", String(this.isOn));
    const isShown = this.form.hidden;
    this.form.hidden = this.asked === null;
    if (this.asked === null) return;
    fill(this.line, this.question());
    if (isShown) this.form.scrollIntoView({ block: "nearest" });
  }
}
