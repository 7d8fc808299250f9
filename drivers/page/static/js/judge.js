// The view of the judge: a record of what clients saw, and the program's verdict on it.
import { whole } from "./address.js";
import { ask, Failure } from "./api.js";
import { fromText, linesOf, readable, toText } from "./bytes.js";
import { byId, el, fill, options, printedInto, sessionClass, shown, shownLines } from "./dom.js";
import { endingText } from "./ending.js";
import { drawInto, save } from "./picture.js";
import { clicked, scrollOn } from "./projector.js";
import { follow, titleOf } from "./titles.js";
import { readVerdict } from "./verdict.js";

// The statuses of a verdict and of a faulty record; the others are faults of the program's.
const JUDGED = [0, 4, 5, 6, 7];
const MISUSED = 2;

const WORDS = {
  LEGAL: () => "LEGAL: an order of the statements explains all that was seen.",
  ILLEGAL: ({ line }) => `ILLEGAL at line ${line}: no order explains what was seen up to there.`,
  UNDECIDED: ({ line }) => `UNDECIDED at line ${line}: more configurations than allowed would have to be kept.`,
  FAULTY: () => "No verdict: the record has faulty lines.",
  EMPTY: () => "EMPTY: nothing happens in the record, so there is nothing to judge.",
};

export class Judge {
  constructor(app) {
    this.app = app;
    this.asks = 0;
    this.judged = null;
    byId("judge-form").addEventListener("submit", (event) => {
      event.preventDefault();
      this.app.visit("judge", this.asked(true));
    });
    byId("judge-form").addEventListener("change", (event) => {
      if (event.target.id !== "record-example") this.app.keep("judge", this.asked(false));
    });
    byId("record-example").addEventListener("change", (event) => this.openExample(event.target.value));
    byId("play-order").addEventListener("click",
      () => this.app.visit("sessions", { script: fromText(readable(this.verdict.order.join("\n"))) }));
    byId("save-picture").addEventListener("click", () => save(this.drawn.picture));
    addEventListener("resize", () => this.redraw());
    addEventListener("keydown", (event) => this.clickerKey(event));
  }

  // A clicker moves along the picture.
  clickerKey(event) {
    const wanted = byId("judge").hidden || byId("verdict-room").hidden ? null : clicked(event);
    if (!wanted) return;
    event.preventDefault();
    scrollOn(byId("picture"), wanted);
  }

  offer({ records, judged }) {
    this.records = [...records, ...judged];
    const listed = (all, from) => all.map((record, at) => [String(from + at), ...titleOf(record)]);
    options(byId("record-example"), [["Records", listed(records, 0)], ["Examples", listed(judged, records.length)]]);
  }

  openExample(choice) {
    const record = this.records[Number(choice)];
    if (choice !== "" && record) this.app.visit("judge", { ...this.asked(false), record: record.text });
  }

  asked(go) {
    return { record: this.record(), limit: byId("limit").value, go: go ? ++this.asks : "" };
  }

  record() {
    const typed = byId("record").value;
    return this.opened && typed === this.opened.text ? this.opened.bytes : fromText(typed);
  }

  enter(state) {
    const bytes = state.record ?? this.records[0]?.text ?? ""; // so that there is one to be judged
    byId("record").value = toText(bytes) ?? bytes;
    this.opened = { bytes, text: byId("record").value };
    follow(byId("record-example"), this.records, (record) => record.text === bytes, byId("record-remark"));
    byId("limit").value = whole(state.limit, 1, 1_000_000, 100_000);
    this.asks = Math.max(this.asks, whole(state.go, 1, 1e9, 0));
    const wanted = JSON.stringify(state);
    if (wanted === this.judged) {
      this.redraw();
      return;
    }
    this.drawn = null;
    this.judged = null;
    byId("verdict-room").hidden = true;
    byId("judge-welcome").hidden = false;
    fill(byId("judge-progress"));
    if (state.go) this.judge(wanted);
  }

  redraw() {
    if (this.drawn?.picture) drawInto(byId("picture"), this.drawn);
  }

  async judge(wanted) {
    this.judged = wanted;
    const record = this.record();
    fill(byId("judge-progress"), "The program judges.");
    try {
      const ran = await ask("judge", { record, limit: Number(byId("limit").value) });
      if (this.judged === wanted) this.draw(record, ran);
    } catch (fault) {
      if (!(fault instanceof Failure)) throw fault;
      if (this.judged === wanted) fill(byId("judge-progress"));
      this.app.notify({ fault: fault.message });
    }
  }

  draw(record, ran) {
    this.verdict = readVerdict(ran.output);
    byId("verdict-room").hidden = false;
    byId("judge-welcome").hidden = true;
    fill(byId("judge-progress"));
    const { kind } = this.verdict;
    byId("verdict").className = (kind ?? "none").toLowerCase();
    if (!JUDGED.includes(ran.status) || kind === null) {
      const lacks = ran.status === MISUSED && !/^ +judge /m.test(this.app.help ?? "");
      fill(byId("verdict"), lacks ? "This program has no job that judges records." : endingText(ran));
    } else fill(byId("verdict"), WORDS[kind](this.verdict));
    byId("play-order").hidden = kind !== "LEGAL";
    const faulty = new Map(this.verdict.faults.map(({ line, cause }) => [line, cause]));
    fill(byId("record-lines"), linesOf(record).map((line, at) => this.lineItem(line, at + 1, faulty.get(at + 1))));
    printedInto(byId("judge-printed"), ran.output);
    this.drawn = ran;
    byId("picture").hidden = byId("save-picture").hidden = ran.picture === null;
    this.redraw();
  }

  lineItem(line, number, fault) {
    const event = /^[ \t\r]*([1-9]|1[0-6])[ \t\r]+([<>!])/.exec(line);
    const marked = number === this.verdict.line || fault !== undefined;
    const item = el("li", { "data-line": number }, shown(line));
    if (event) item.classList.add(sessionClass(event[1]), { ">": "called", "<": "returned", "!": "lost" }[event[2]]);
    if (marked) item.classList.add("marked");
    if (number === this.verdict.line)
      item.append(...this.verdict.could.map((reply) => el("span.could", {}, "could be ", shownLines(reply))));
    if (fault !== undefined) item.append(" ", el("span.fault", {}, fault));
    return item;
  }
}
