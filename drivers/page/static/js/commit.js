// The view of two-phase commit: calls of a transaction manager, one after another, over stores of its own.
import { whole } from "./address.js";
import { ask, Failure } from "./api.js";
import { fromText, linesOf, readableValue } from "./bytes.js";
import { asksStores, isCaption, isEvent, lastBegun } from "./calls.js";
import { enable, wire } from "./controls.js";
import {
  bringIntoView, bringStartIntoView, byId, el, fill, moves, options, printedInto, remarkOf, shown,
} from "./dom.js";
import { doubtList, legend, markWords } from "./doubt.js";
import { Messages } from "./messages.js";
import { Quiz } from "./quiz.js";
import * as rules from "./rules.js";
import { savePng, saveSvg, Sequence } from "./sequence.js";
import { readStores } from "./shown_stores.js";
import { linesUntil, nameOfStop, readStops, wholeNameOfStop } from "./stops.js";
import { drawRows } from "./store_rows.js";
import { Tape } from "./tape.js";
import { follow, titleOf } from "./titles.js";
import { isTransfer, transferCalls, valuesIn } from "./transfer.js";

const STORES = 3;
const MOST_STORES = 16;
const BELOW = 12;
const PEEK = 60; // so much of the calls that wait is seen
const FIRST_SCENARIOS = ["all_yes", "crash_before_the_decision", "in_doubt_and_blocking"];
const NUMBERS = ["UNDECIDED", "DECIDED", "CLOSED"];
const COORDINATOR = '.lane-head[data-lane="1"]';

export class Commit {
  constructor(app) {
    this.app = app;
    this.view = byId("commit");
    this.stores = STORES;
    // in a quiz what isn't a call isn't asked about
    const isPassed = (line) => isCaption(line) || (this.quiz.isOn && isEvent(line));
    this.tape = new Tape({ job: "coordinate", stores: STORES }, (news) => this.changed(news), isPassed);
    this.messages = new Messages();
    this.read = [];
    this.stepping = Promise.resolve();
    this.whole = null; // the lines of which a stop is shown, and the calls that show it
    this.shown = null;
    this.stops = []; // of the whole lines, or of those that stand here
    this.stopped = null; // the lines of which these are
    this.sought = null; // the call to which the slider was moved last, until it is shown
    this.sequence = new Sequence(byId("sequence"), {
      go: (place) => this.goToLine(place),
      fail: (place, { store, call }) => this.tape.insert(place, [`FAIL ${store} AFTER ${call}`], 1),
      stop: (place) => this.tape.insert(place + 1, ["STOP"]),
      remove: (place) => this.tape.remove(place),
    }, () => this.drawn());
    addEventListener("resize", () => this.draw());
    this.quiz = new Quiz(this.view, this.tape, (place) => this.answerAt(place), () => this.changed({}),
      () => this.stepOn());
    this.player = wire(this.view, this.tape,
      { story: (lines, at) => this.open(lines, at, this.stores), quiz: this.quiz, print: () => this.print(),
        isOver: () => !this.messages.isWithin() && this.tape.at >= this.tape.lines.length,
        more: { back: () => this.stepBack(), call: () => this.stepCall(), end: () => this.toEnd(),
          crash: () => this.crash() } });
    this.listenToCoordinator();
    byId("progress").addEventListener("input", (event) => this.goToCall(Number(event.target.value)));
    byId("calls-form").addEventListener("submit", (event) => this.submit(event));
    byId("any-call").addEventListener("keydown", (event) => this.enterKey(event));
    byId("stores").addEventListener("change", (event) => this.setStores(event.target));
    byId("transfer-form").addEventListener("submit", (event) => this.openTransfer(event));
    byId("next-scenario").addEventListener("click", () => this.openExample(this.nextScenario()));
    byId("save-svg").addEventListener("click", () => this.save(saveSvg));
    byId("save-png").addEventListener("click", () => this.save(savePng));
    byId("calls-example").addEventListener("change", (event) => this.openExample(this.examples[event.target.value]));
    byId("stops").addEventListener("change", (event) => this.openStop(this.stops[event.target.value]));
  }

  // The line of the call that was given last, counted from 1; 0 before the first.
  line() {
    return 1 + this.tape.lines.slice(0, this.tape.at).findLastIndex((line) => !this.tape.isCaption(line));
  }

  count() {
    return this.sequence.count(this.line());
  }

  // One message on, once the step before it has come to its end, so that whoever is quick misses none.
  stepOn() {
    const done = this.stepping.then(() => this.stepOnce());
    this.stepping = done.catch(() => {});
    return done;
  }

  // Within the call, or the first message of the next one.
  async stepOnce() {
    if (this.messages.goOn(this.count())) this.changed({});
    else {
      this.messages.upcoming = 1;
      await this.tape.step();
      await this.drawing;
    }
    this.sequence.travel(this.line(), this.messages.shown ?? this.count());
  }

  // One message back: within the call, or to the end of the one before it.
  stepBack() {
    if (!this.quiz.isOn && this.messages.goBack(this.count())) return this.changed({});
    return this.tape.back();
  }

  // A click on the coordinator's head is what its button is.
  listenToCoordinator() {
    const heads = byId("sequence-heads");
    const button = this.view.querySelector('[data-do="crash"]');
    const isMeant = (event) => event.target.closest(COORDINATOR) && !button.disabled;
    heads.addEventListener("click", (event) => {
      fill(byId("cut-says"));
      if (isMeant(event)) button.click();
    });
    // heads that are drawn anew below a pointer at rest say nothing
    heads.addEventListener("mousemove", (event) => fill(byId("cut-says"), isMeant(event) ? button.title : ""));
    heads.addEventListener("mouseleave", () => fill(byId("cut-says")));
  }

  // Crashes the coordinator behind the message that is shown, or has it recover where it is gone.
  crash() {
    const done = this.stepping.then(() => this.crashOnce());
    this.stepping = done.catch(() => {});
    return done;
  }

  // The call ends where its next statement would be sent, as by scissors: without one it is at its end.
  async crashOnce() {
    const line = this.line();
    const isGone = byId("sequence-heads").querySelector(`${COORDINATOR}.gone`) !== null;
    const cut = isGone ? null : this.sequence.cutBehind(line, this.messages.shown);
    if (cut) await this.tape.insert(line - 1, [`FAIL ${cut.store} AFTER ${cut.call}`], 1);
    this.messages.showAll();
    if (isGone && !this.quiz.isOn) this.messages.upcoming = 1;
    await this.tape.give(isGone ? "RECOVER" : "STOP");
    await this.drawing;
  }

  // To the end of the call, or of the next one.
  stepCall() {
    if (!this.messages.isWithin()) return this.tape.step();
    this.messages.showAll();
    return this.changed({});
  }

  toEnd() {
    this.messages.showAll();
    return this.tape.toEnd();
  }

  // To the end of a line, also where it is the one whose messages are being shown.
  goToLine(place) {
    this.messages.showAll();
    return this.tape.goTo(place + 1);
  }

  // The slider stays where it was moved until the tape has come there, so that the next key goes on from it.
  async goToCall(number) {
    this.player.pause();
    const sought = { number };
    this.sought = sought;
    try {
      await this.tape.goTo(this.tape.stops()[number] ?? 0);
    } finally {
      if (this.sought === sought) { // it wasn't moved on meanwhile
        this.sought = null;
        this.showProgress();
      }
    }
  }

  offer({ scenarios, calls }) {
    this.scenarios = scenarios;
    this.examples = [...scenarios, ...calls];
    const listed = (all, from) => all.map((story, at) => [String(from + at), ...titleOf(story)]);
    options(byId("calls-example"),
      [["Scenarios", listed(scenarios, 0)], ["Examples", listed(calls, scenarios.length)]]);
    options(byId("stops"), []);
    const first = FIRST_SCENARIOS.map((name) => scenarios.find((story) => story.name === name)).filter(Boolean);
    fill(byId("first-scenarios"),
      first.map((story) => el("button.story", { type: "button", onclick: () => this.openExample(story) },
      el("strong", {}, story.name.replaceAll("_", " ")), " ", story.title)));
    legend(byId("legend"), rules.words());
  }

  isOpen(example) {
    return linesOf(example.text).join("\n") === this.tape.lines.join("\n");
  }

  // The scenario behind the one that is open and was seen to its end.
  nextScenario() {
    const isOver = this.tape.at >= this.tape.lines.length && !this.messages.isWithin();
    const at = this.scenarios.findIndex((one) => this.isOpen(one));
    return isOver && at >= 0 ? this.scenarios[at + 1] : undefined;
  }

  openExample(example) {
    if (example) this.open(linesOf(example.text), 0, STORES);
  }

  // A number of stores that can't be is said to be none, and the nearest is taken.
  setStores(input) {
    const wanted = Number(input.value);
    const stores = input.value === "" ? STORES : Math.max(1, Math.min(MOST_STORES, Math.round(wanted)));
    if (stores !== wanted)
      this.tells = `There are 1 to ${MOST_STORES} stores. ${stores} ${stores === 1 ? "is" : "are"} taken.`;
    this.open(this.tape.lines, this.tape.at, stores);
    input.value = stores;
  }

  openTransfer(event) {
    event.preventDefault();
    if (!isTransfer(event.target)) return;
    const transfer = valuesIn(event.target);
    this.open(transferCalls(transfer), 0, Math.max(this.stores, transfer.fromStore + 1, transfer.toStore + 1));
  }

  async save(how) {
    try {
      await how(await this.sequence.file(this.question()));
    } catch (fault) {
      if (!(fault instanceof Failure)) throw fault;
      this.app.notify({ fault: fault.message });
    }
  }

  // The lines whose stops are offered: of a stop that is shown those from which it comes.
  wholeLines() {
    return this.whole ?? this.tape.lines;
  }

  async openStop(stop) {
    if (!stop) return;
    this.wantedStop = stop;
    const lines = this.wholeLines();
    const counts = stop.line === null ? []
      : await this.callsOf({ lines: lines.slice(0, stop.line), stores: this.stores });
    if (this.wantedStop !== stop) return; // another was chosen meanwhile
    const calls = linesUntil(lines, stop, counts).join("\n");
    this.app.visit("commit",
      { calls, at: 0, stores: this.stores === STORES ? "" : this.stores, whole: lines.join("\n") });
  }

  // Asks for the stops of the lines, where they are others than before.
  async offerStops() {
    const lines = this.wholeLines();
    const wanted = JSON.stringify([this.stores, lines]);
    if (this.stopped === wanted) return;
    this.stopped = wanted;
    const found = await this.stopsOf({ lines, stores: this.stores });
    if (this.stopped !== wanted) return;
    this.stops = found;
    options(byId("stops"),
      [["Line, and calls of sessions in it",
        found.map((stop, at) => [String(at), nameOfStop(stop, lines), wholeNameOfStop(stop, lines)])]]);
  }

  async stopsOf(asked) {
    if (!asked.lines.length) return [];
    try {
      return readStops((await ask("stops", asked)).output);
    } catch (fault) {
      if (!(fault instanceof Failure)) throw fault;
      return [];
    }
  }

  enter(state) {
    const lines = linesOf(state.calls ?? "");
    this.whole = state.whole ? linesOf(state.whole) : null;
    this.shown = state.whole ? lines.join("\n") : null;
    const at = whole(state.at, 0, lines.length, lines.length);
    const stores = whole(state.stores, 1, MOST_STORES, STORES);
    byId("stores").value = stores;
    const message = whole(state.message, 1, 999, null);
    if (stores === this.stores && lines.join("\n") === this.tape.lines.join("\n") && at === this.tape.at) {
      this.messages.shown = message;
      return this.changed({});
    }
    this.messages.upcoming = message;
    this.stores = stores;
    this.tape.question = { job: "coordinate", stores };
    return this.tape.open(lines, at);
  }

  open(lines, at, stores) {
    this.app.visit("commit", { calls: lines.join("\n"), at: lines.length && at !== lines.length ? at : "",
      stores: stores === STORES ? "" : stores });
  }

  state() {
    const { lines, at } = this.tape;
    return { calls: lines.join("\n"), at: at !== lines.length ? at : "", message: this.messages.shown,
      stores: this.stores === STORES ? "" : this.stores, whole: this.whole?.join("\n") };
  }

  // A button's call, with the numbers and the statement of the form.
  written(form) {
    const value = (id) => fromText(byId(id).value);
    return form.replace(/\b[nkjs]\b/g, (name) => value(name === "s" ? "statement" : name));
  }

  submit(event) {
    event.preventDefault();
    const form = event.submitter?.value;
    if (form === "any") return this.giveAny();
    if (!form || this.lacksStore(form)) return;
    this.tape.give(this.written(form));
  }

  // Says so where a call's store isn't there.
  lacksStore(form) {
    const k = byId("k").value;
    if (!/\bk\b/.test(form) || (/^\d+$/.test(k) && Number(k) < this.stores)) return false;
    const all = this.stores === 1 ? "There is one store, 0."
      : `There are ${this.stores} stores, 0 to ${this.stores - 1}.`;
    this.app.notify({ fault: `${all} There is no store ${k || "without a number"}: choose another, or raise Stores.` });
    byId("k").focus();
    return true;
  }

  enterKey(event) {
    if (event.key !== "Enter" || event.isComposing) return;
    event.preventDefault();
    this.giveAny();
  }

  giveAny() {
    const line = fromText(byId("any-call").value);
    byId("any-call").value = "";
    this.tape.give(line);
  }

  changed(news) {
    this.app.notify({ ...news, fault: news.fault ?? this.tells });
    this.tells = null;
    const answers = this.tape.answers;
    this.read = answers.map(
      ([, text], at) => (this.read[at]?.text === text ? this.read[at] : { text, ...readStores(text) }));
    this.messages.follow(this.tape);
    this.quiz.follow();
    byId("commit-welcome").hidden = this.tape.lines.length > 0;
    byId("k").max = this.stores - 1;
    this.draw();
    this.showNow();
    fill(byId("calls-remark"), remarkOf(this.tape.lines));
    follow(byId("calls-example"), this.examples, (example) => this.isOpen(example));
    if (this.shown !== null && this.shown !== this.tape.lines.join("\n")) this.whole = this.shown = null;
    this.offerStops();
    this.followNumber(answers);
    this.app.keep("commit", this.state());
    if (news.times) this.app.measured(news.times);
  }

  // What is known behind the message that is shown, beside the drawing.
  showNow() {
    const { answers, at } = this.tape;
    const line = this.line();
    const within = this.messages.shown;
    const last = within === null ? at : line - 1;
    const behind = this.read[last - 1];
    const stores = within === null ? behind?.stores ?? [] : this.sequence.doubtAt(line, within);
    const lack = this.sequence.lack();
    doubtList(byId("doubt"), within === null ? null : lack, stores);
    this.sequence.markHeads(line, within, stores.filter(({ prepared }) => prepared.length).map(({ store }) => store));
    drawRows(byId("store-rows"), lack ?? (this.sequence.isWhole ? null : "They are being found out."),
      this.sequence.rows, line, within);
    fill(byId("decisions"),
      NUMBERS.flatMap((name) => [el("dt", {}, name), el("dd", {}, behind?.[name].join(" ") || "none")]));
    printedInto(byId("calls-printed"), answers[last - 1]?.join("") ?? "");
    this.announce();
    this.offerNext();
    this.showProgress();
    enable(this.view, this.tape, { isWithin: within !== null, isAsked: this.quiz.isOn,
      hasCoordinator: byId("sequence-heads").querySelector(COORDINATOR) !== null });
  }

  showProgress() {
    const stops = this.tape.stops();
    const given = stops.findLastIndex((place) => place <= this.tape.at);
    const range = byId("progress");
    range.max = stops.length - 1;
    range.value = this.sought?.number ?? given;
    const count = this.count(); // 0 until it is drawn
    const within = this.messages.shown === null || !count ? "" : `, message ${this.messages.shown} of ${count}`;
    const said = this.tape.lines.length ? `${given} of ${stops.length - 1}${within}` : "";
    range.setAttribute("aria-valuetext", `call ${said}`);
    range.disabled = !said;
    fill(byId("progress-said"), said);
  }

  async callsOf(asked) {
    if (!asksStores(asked.lines.at(-1))) return [];
    try {
      return (await ask("calls", asked)).calls;
    } catch (fault) {
      if (!(fault instanceof Failure)) throw fault;
      return [];
    }
  }

  // The form speaks of the transaction that was begun last.
  followNumber(answers) {
    const begun = lastBegun(answers.slice(0, this.tape.at).map(([answer]) => answer));
    if (begun === this.begun) return;
    this.begun = begun;
    byId("n").value = begun ?? "1";
  }

  question() {
    return { lines: this.tape.lines, at: this.tape.at, stores: this.stores, quiz: this.quiz.isOn,
      asked: this.quiz.asked !== null };
  }

  answerAt(place) {
    const found = this.tape.answers[place]?.[0].replace(/\n$/, "");
    return found ? { printed: found, read: readableValue(found) ?? found } : null;
  }

  // Says what the message that is shown does; of a whole call what it was answered, and how much is in doubt.
  announce() {
    const line = this.line();
    const within = this.messages.shown;
    const says = this.sequence.steps.find((it) => it.line === line)?.says ?? [];
    const answer = this.answerAt(line - 1);
    const doubt = (this.read[this.tape.at - 1]?.stores ?? []).reduce((sum, { prepared }) => sum + prepared.length, 0);
    const isCall = within === null && answer && says.length !== 1; // a crash is no call, and says more of itself
    const told = says[(within ?? says.length) - 1];
    const said = isCall ? [`Line ${line}: `, shown(this.tape.lines[line - 1].trim()), ": ", shown(answer.read),
      `. Branches in doubt: ${doubt}`] : told ? `Line ${line}: ${told}` : null;
    fill(byId("commit-said"), said);
    markWords(byId("legend"), told ?? "");
  }

  offerNext() {
    const next = this.nextScenario();
    byId("next-scenario").hidden = !next;
    fill(byId("next-scenario"), next ? `Next: ${titleOf(next)[0]}` : null);
  }

  // Prints the whole diagram in pages, and comes back to the call that was shown.
  async print() {
    const { at } = this.tape;
    await this.tape.toEnd();
    try {
      await this.sequence.pages(this.question(), byId("sequence-pages"));
      print();
    } catch (fault) {
      if (!(fault instanceof Failure)) throw fault;
      this.app.notify({ fault: fault.message });
    }
    await this.tape.goTo(at);
  }

  // Draws the calls, where they can be seen.
  draw() {
    if (this.view.hidden) return;
    if (this.tape.lines.length === 0) return this.sequence.clear();
    if (this.sequence.isOf(this.tape)) {
      this.sequence.showUntil(this.line(), this.messages.shown);
      this.showCursor();
    }
    this.drawing = this.sequence.show(this.question()).catch((fault) => {
      if (!(fault instanceof Failure)) throw fault;
      this.app.notify({ fault: fault.message });
      this.showNow();
    });
  }

  // Once it is drawn, it is known how many messages the call has.
  drawn() {
    if (this.sequence.isWhole) this.messages.limit(this.count()); // else there may be more of them
    this.sequence.showUntil(this.line(), this.messages.shown);
    this.showNow();
    this.app.keep("commit", this.state());
    this.showCursor();
  }

  // What is asked is to be seen, or else the last answer, and a little of what waits; at the start the first call.
  showCursor() {
    const room = byId("sequence").parentElement;
    const { at, lines } = this.tape;
    const all = byId("sequence").querySelectorAll("[data-line]:is(.call)");
    const until = this.quiz.asked === null ? at : this.quiz.asked + 1;
    const call = [...all].filter((it) => Number(it.dataset.line) <= until).at(-1);
    const step = this.messages.shown ?? (this.messages.isByMessage ? this.count() : null);
    const given = call?.querySelector(`.message[data-step="${step}"]`) ?? call;
    const changed = call?.querySelector(`.rows[data-step="${step}"]`);
    room.style.setProperty("--above", `${byId("sequence-heads").firstElementChild.getBoundingClientRect().height}px`);
    if (!given) return bringStartIntoView(room, [all[0], this.view.querySelector(".tools")]);
    bringIntoView(room, given, until === at && at < lines.length ? PEEK : BELOW);
    if (changed && !moves(room)) changed.scrollIntoView({ block: "nearest" });
  }
}
