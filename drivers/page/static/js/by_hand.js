// A race stepped by hand: whoever chooses says which session goes next, and sees what it is answered and which outcomes
// are left.
import { ask, Failure, NAME } from "./api.js";
import { readableValue } from "./bytes.js";
import { lineItem, widestSession } from "./columns.js";
import { bringAcross, byId, el, fill, sessionClass, shown } from "./dom.js";
import { readShown } from "./listing.js";
import { readPossible } from "./possible.js";
import { isTyping } from "./projector.js";
import { placesIn } from "./script_parts.js";

const TALK = `${NAME} hand`;

const answerOf = ({ reply, rows }) => `${reply}\n${rows}`;

export class ByHand {
  // `kept` is told the order in which the sessions have gone, as the address has it.
  constructor(app, kept) {
    Object.assign(this,
      { app, kept, parts: null, order: [], possible: null, explored: null, asks: 0, lines: [], answers: [] });
    byId("hand-back").addEventListener("click", () => this.back());
    byId("hand-again").addEventListener("click", () => this.show([]));
    addEventListener("keydown", (event) => this.digit(event));
  }

  // A digit lets that session go next.
  digit(event) {
    if (!this.parts || byId("race").hidden || event.altKey || event.ctrlKey || event.metaKey || isTyping(event)) return;
    const session = Number(event.key);
    if (!this.next().some((line) => line.session === session)) return;
    event.preventDefault();
    this.step(session);
  }

  // `hand` is 0, or the sessions in the order in which they have gone, with points between them.
  open(parts, hand) {
    byId("by-hand").hidden = false;
    this.parts = parts;
    return this.show(hand === "0" ? [] : hand.split(".").map(Number));
  }

  leave() {
    byId("by-hand").hidden = true;
    this.parts = null;
    this.asks += 1;
  }

  back() {
    if (this.parts && this.order.length) this.show(this.order.slice(0, -1));
  }

  // Steps where there is one session only that can; whether it did.
  stepOnly() {
    const next = this.parts ? this.next() : [];
    if (next.length === 1) this.show([...this.order, next[0].session]);
    return next.length === 1;
  }

  // The next line of each session that has one.
  next() {
    const { left } = placesIn(this.parts, this.order);
    const lines = left.map((place) => this.parts.lines[place]).filter(({ session }) => session !== null);
    return lines.filter(({ session }, at) => lines.findIndex((other) => other.session === session) === at)
      .sort((a, b) => a.session - b.session);
  }

  async show(order) {
    const parts = this.parts;
    const { before, turns, left, after } = placesIn(parts, order);
    this.order = turns.map((place) => parts.lines[place].session);
    const places = [...before, ...turns, ...(left.length ? [] : after)];
    const lines = places.map((place) => parts.lines[place].line);
    const mine = ++this.asks;
    try {
      const [answers] = await Promise.all([this.answered(lines), this.explore(parts)]);
      if (this.asks !== mine) return;
      this.draw(places, lines, answers.map(readShown), left.length === 0);
      this.kept(this.order.length ? this.order.join(".") : "0");
    } catch (fault) {
      if (!(fault instanceof Failure)) throw fault;
      this.app.notify({ fault: fault.message });
    }
  }

  // What answers these lines; those that were answered before aren't asked for again. One question waits for the one
  // before it.
  answered(lines) {
    const found = (this.turn ?? Promise.resolve()).catch(() => {}).then(async () => {
      const differs = lines.findIndex((line, at) => line !== this.lines[at]);
      if (differs >= 0) {
        const { answers } = await ask("talk", { talk: TALK, job: "show", lines, known: differs });
        this.answers = [...this.answers.slice(0, differs), ...answers.map(([text]) => text)];
        this.lines = lines.slice(0, this.answers.length);
      }
      return this.answers.slice(0, lines.length);
    });
    this.turn = found;
    return found;
  }

  // All outcomes of the script, asked for once.
  async explore(parts) {
    if (this.explored === parts.text) return;
    const found = readPossible((await ask("outcomes", { script: parts.text })).output, parts);
    this.explored = parts.text;
    this.possible = found;
  }

  draw(places, lines, answers, isDone) {
    const columns = Math.max(1, widestSession(this.parts.lines.map(({ line }) => line)));
    byId("by-hand").style.setProperty("--columns", columns);
    fill(byId("hand-heads"), el("span.gutter"), Array.from({ length: columns },
      (_, at) => el(`div.head.${sessionClass(at + 1)}`, {}, el("strong", {}, `Session ${at + 1}`))));
    fill(byId("hand-lines"), lines.map((line, at) => lineItem(line, at, answers[at],
      (wanted) => this.show(this.order.slice(0, Math.max(0, wanted - this.parts.before.length))))));
    byId("hand-lines").lastElementChild?.classList.add("current");
    const next = this.next();
    fill(byId("hand-next"), next.length ? el("span", {}, "Who goes next?") : null, next.map(({ session, statement }) =>
      el(`button.go-next.${sessionClass(session)}`,
        { type: "button", "data-session": session, onclick: () => this.step(session) },
        el("strong", {}, String(session)), " ", shown(statement, "bdi.statement"))));
    byId("hand-back").disabled = byId("hand-again").disabled = this.order.length === 0;
    fill(byId("hand-left"), this.says(places, answers, isDone));
    const last = byId("hand-lines").lastElementChild;
    last?.scrollIntoView({ block: "nearest" });
    if (last?.querySelector(".cell")) bringAcross(byId("hand-lines").parentElement, last.querySelector(".cell"));
  }

  async step(session) {
    await this.show([...this.order, session]);
    (byId("hand-next").querySelector(`[data-session="${session}"]`) ?? byId("hand-next").querySelector("button")
      ?? byId("hand-again")).focus();
  }

  // The last answer, and which outcomes it leaves.
  says(places, answers, isDone) {
    const bad = this.parts.lines.filter(({ session }) => session === null).length;
    if (bad) return `${bad} of the lines ${bad === 1 ? "is" : "are"} of no session, and left out.`;
    if (!this.parts.lines.length) return "There is no line to step through: type a script, or choose an example.";
    const reply = answers.at(-1)?.reply ?? "";
    const last = places.length
      ? [`Session ${this.parts.lines[places.at(-1)].session}: `, shown(readableValue(reply) ?? reply), ". "] : [];
    if (!this.possible) return [...last, "The possible outcomes are too many to be listed."];
    const left = this.possible.map((one, at) => [one, at + 1])
      .filter(([one]) => places.every(
        (place, at) => answers[at] && answerOf(one.answers[place]) === answerOf(answers[at])));
    const numbers = left.slice(0, 12).map(([, number]) => number).join(", ");
    return [...last, isDone ? `This is outcome ${numbers} of ${this.possible.length}.`
      : `${left.length} of ${this.possible.length} possible outcomes agree with this so far${left.length && left.length < this.possible.length ? `: ${numbers}` : ""}.`];
  }
}
