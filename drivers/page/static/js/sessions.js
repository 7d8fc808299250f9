// The view of sessions: a column each, the branches as cards, and the rows.
import { whole } from "./address.js";
import { fromText, linesOf, readableValue } from "./bytes.js";
import { card, rowLine, rowsOf, xidText } from "./cards.js";
import { cut, isCaption, lineItem, widestSession } from "./columns.js";
import { enable, wire } from "./controls.js";
import {
  bringAcross, bringIntoView, bringStartIntoView, byId, el, fill, keepingFocus, options, printedInto, remarkOf,
  sessionClass, shown,
} from "./dom.js";
import { readShown } from "./listing.js";
import { Patch } from "./patch.js";
import { Quiz } from "./quiz.js";
import { Tape } from "./tape.js";
import { follow, titleOf } from "./titles.js";

const FEWEST = 2;
const MOST = 16;
const PEEK = 70; // so much of the lines that wait is seen
const BELOW = 12; // so much below a line that is asked about
const FIRST_STORIES = ["two_phase_commit", "lock_conflict", "rolled_back_on_disconnect"];
const SAMPLE = "PUT 'alice','90'";

export class Sessions {
  constructor(app) {
    this.app = app;
    this.view = byId("sessions");
    this.columns = FEWEST;
    this.tape = new Tape({ job: "show" }, (news) => this.changed(news), isCaption);
    this.read = [];  // the answers, read
    this.given = new Patch(byId("given"));
    this.pending = new Patch(byId("pending"));
    this.quiz = new Quiz(this.view, this.tape, (place) => this.answerAt(place), () => this.changed({}));
    wire(this.view, this.tape,
      { story: (lines, at) => this.open(lines, at), quiz: this.quiz, print: () => this.print() });
    byId("add-session").addEventListener("click", () => this.addSession());
    byId("race-this").addEventListener("click", () => this.raceThese());
    byId("story").addEventListener("change", (event) => this.openStory(event.target.value));
    byId("entry").addEventListener("submit", (event) => event.preventDefault());
  }

  offer(examples) {
    this.stories = [...examples.stories, ...examples.scripts];
    const listed = (kind, from) => examples[kind].map((story, at) => [String(from + at), ...titleOf(story)]);
    options(byId("story"),
      [["Stories", listed("stories", 0)], ["Examples", listed("scripts", examples.stories.length)]]);
    this.offerFirst();
  }

  // What somebody who has nothing open can begin with.
  offerFirst() {
    const first = FIRST_STORIES.map((name) => this.stories.find((story) => story.name === name)).filter(Boolean);
    fill(byId("first-stories"),
      first.map((story) => el("button.story", { type: "button", onclick: () => this.open(linesOf(story.text), 0) },
      el("strong", {}, story.name.replaceAll("_", " ")), " ", story.title)));
    fill(byId("sample"), SAMPLE);
    byId("sample").addEventListener("click", () => {
      const input = byId("entry").querySelector('input[name="1"]');
      input.value = SAMPLE;
      input.focus();
    });
  }

  // A script as the address has it; what is there already is left as it is.
  enter(state) {
    const lines = linesOf(state.script ?? "");
    const at = whole(state.at, 0, lines.length, lines.length);
    if (lines.join("\n") === this.tape.lines.join("\n") && at === this.tape.at) return this.changed({});
    this.columns = FEWEST;
    return this.tape.open(lines, at);
  }

  state() {
    const { lines, at } = this.tape;
    return { script: lines.join("\n"), at: lines.length && at !== lines.length ? at : "" };
  }

  open(lines, at) {
    this.app.visit("sessions", { script: lines.join("\n"), at: lines.length ? at : "" });
  }

  openStory(choice) {
    const story = this.stories[Number(choice)];
    if (choice !== "" && story) this.open(linesOf(story.text), 0);
  }

  raceThese() {
    const lines = this.tape.lines.filter((line) => !isCaption(line));
    this.app.visit("race", { script: lines.join("\n") });
  }

  answerAt(place) {
    const found = this.read[place];
    return found?.reply ? { printed: found.reply, read: readableValue(found.reply) ?? found.reply } : null;
  }

  // Prints the whole story, and comes back to the line that was shown.
  async print() {
    const { at } = this.tape;
    await this.tape.toEnd();
    print();
    await this.tape.goTo(at);
  }

  // Says to who hears the page what was answered last.
  announce() {
    const place = this.tape.lines.slice(0, this.tape.at).findLastIndex((line) => !isCaption(line));
    const answer = this.answerAt(place);
    const { session, statement } = place < 0 ? {} : cut(this.tape.lines[place]);
    fill(byId("sessions-said"), answer
      ? [`Line ${place + 1}${session ? `, session ${session}` : ""}: `, shown(statement), ": ", shown(answer.read)]
      : null);
  }

  addSession() {
    this.columns = Math.min(MOST, this.columns + 1);
    this.drawHeads();
    byId("entry").querySelector(`input[name="${this.columns}"]`)?.focus();
  }

  give(session, input) {
    const text = input.value;
    input.value = "";
    return this.tape.give(fromText(`${session} ${text}`));
  }

  changed(news) {
    this.app.notify(news);
    this.read = this.tape.answers.map(
      ([text], at) => (text === this.read[at]?.text ? this.read[at] : { text, ...readShown(text) }));
    this.columns = Math.max(this.columns, widestSession(this.tape.lines));
    this.quiz.follow();
    // what stands above the lines comes first: with it the lines' room is as high as it stays
    byId("welcome").hidden = this.tape.lines.length > 0;
    fill(byId("story-remark"), remarkOf(this.tape.lines));
    this.drawHeads();
    this.drawLines();
    this.drawStore();
    this.announce();
    enable(this.view, this.tape, { isAsked: this.quiz.isOn });
    follow(byId("story"), this.stories, (story) => linesOf(story.text).join("\n") === this.tape.lines.join("\n"));
    this.app.keep("sessions", this.state());
    if (news.times) this.app.measured(news.times);
  }

  now() {
    return this.read.slice(0, this.tape.at);
  }

  branchesNow() {
    return this.now().findLast((it) => it.session !== null)?.branches ?? [];
  }

  drawHeads() {
    const branches = this.branchesNow();
    this.view.style.setProperty("--columns", this.columns);
    const numbers = Array.from({ length: this.columns }, (_, at) => at + 1);
    fill(byId("heads"), el("span.gutter"), numbers.map((session) => {
      const own = branches.find((branch) => branch.session === String(session));
      return el(`div.head.${sessionClass(session)}`, {}, el("strong", {}, `Session ${session}`), " ",
        own ? el("span.seat", {}, own.phase, " ", xidText(own.xid)) : el("span.seat", {}, "free"));
    }));
    this.view.style.setProperty("--heads", `${byId("heads").offsetHeight}px`);
    const entry = byId("entry");
    if (entry.children.length === this.columns + 1) return;
    const kept = new Map([...entry.querySelectorAll("input")].map((input) => [input.name, input.value]));
    fill(entry, el("span.gutter", { "aria-hidden": "true" }, "▸"), numbers.map((session) => this.input(session, kept)));
  }

  input(session, kept) {
    const input = el("input", { name: session, type: "text", spellcheck: "false", autocapitalize: "off",
      "aria-label": `Statement of session ${session}`,
      placeholder: "statement, Enter" });
    input.value = kept.get(String(session)) ?? "";
    input.addEventListener("keydown", (event) => {
      if (event.key !== "Enter" || event.isComposing) return;
      event.preventDefault();
      this.give(session, input);
    });
    return el(`div.${sessionClass(session)}`, { "data-session": session }, input);
  }

  drawLines() {
    const { lines, at } = this.tape;
    const item = (line, place, answer) => [`${place} ${line}`, answer, () => this.item(line, place, answer)];
    keepingFocus(byId("given").parentElement, () => {
      this.given.show(lines.slice(0, at).map((line, place) => item(line, place, this.read[place])));
      this.pending.show(lines.slice(at).map((line, place) => item(line, at + place, null)));
    });
    this.mark(lines, at);
    const room = byId("given").parentElement;
    const last = byId("given").lastElementChild;
    if (this.view.hidden) return;
    if (last) bringIntoView(room, last, byId("entry").offsetHeight + (at < lines.length ? PEEK : 0));
    else bringStartIntoView(room, lines.length ? [this.view.querySelector(".tools")] : []);
    const asked = this.view.querySelector(".line.asked");
    if (asked) bringIntoView(room, asked, BELOW);
    const spoken = (asked ?? this.view.querySelector(".line.current"))?.querySelector(".cell");
    if (spoken) bringAcross(room, spoken);
  }

  // Marks the line that was answered last, and the one that the quiz asks about.
  mark(lines, at) {
    const current = lines.slice(0, at).findLastIndex((line) => !isCaption(line));
    for (const item of this.view.querySelectorAll(".lines > li")) {
      const place = Number(item.dataset.line) - 1;
      item.classList.toggle("current", place === current);
      item.classList.toggle("asked", place === this.quiz.asked);
      // a remark may tell the answer, also one that stands above its line
      item.classList.toggle("veiled", this.quiz.isOn && place >= at && isCaption(lines[place]));
      if (place === current) item.setAttribute("aria-current", "step");
      else item.removeAttribute("aria-current");
    }
  }

  item(line, place, answer) {
    const made = lineItem(line, place, answer, (wanted) => this.tape.goTo(wanted));
    if (answer === null && !isCaption(line)) {
      const label = `Remove line ${place + 1}`;
      made.append(el("button.remove",
        { type: "button", title: label, "aria-label": label, onclick: () => this.tape.remove(place) }, "×"));
    }
    return made;
  }

  drawStore() {
    const branches = this.branchesNow();
    fill(byId("branches"), branches.length ? branches.map(card) : el("p.hint", {}, "There is no branch."));
    const rows = rowsOf(this.now(), branches);
    fill(byId("rows").tBodies[0], rows.map(rowLine));
    byId("rows").hidden = rows.length === 0;
    byId("no-rows").hidden = rows.length > 0;
    printedInto(byId("printed"), this.now().at(-1)?.text ?? "");
  }
}
