// The view of races: a script is raced so often, and each history that came is counted.
import { whole } from "./address.js";
import { ask, Failure } from "./api.js";
import { fromText, linesOf, toText } from "./bytes.js";
import { byId, cameText, el, fill, keepingFocus, moves, options, printedInto, sessionClass, shown } from "./dom.js";
import { isCaption } from "./columns.js";
import { endingText } from "./ending.js";
import { orderOf, readOutcome, tie } from "./outcome.js";
import { ByHand } from "./by_hand.js";
import { answersOf, possibleItems, readCame, readPossible } from "./possible.js";
import { clicked, scrollOn } from "./projector.js";
import { partsOf } from "./script_parts.js";
import { draw } from "./timeline.js";
import { follow, titleOf } from "./titles.js";

const BATCH = 10;
const FAULTY = 6; // the status of counted races whose script has faulty lines, which are then the output
const STRIP = 48; // entries that a bar shows
// in place of a seed: else the sessions' turns are shuffled, so that a script shows its histories soon
const UNSHUFFLED = "none";
const MANY = "The possible outcomes are too many to be listed.";
const IN_PARTS = "BESIDE or AFTER parts this script, so its histories aren't listed: see its outcomes.";
const GONE = "The history that the address names didn't come in these runs.";

// A short name for a history, so that an address can say which one is looked at.
function nameOf(key) {
  let name = 0x811c9dc5;
  for (let at = 0; at < key.length; at += 1) name = Math.imul(name ^ key.charCodeAt(at), 0x01000193);
  return (name >>> 0).toString(16).padStart(8, "0");
}

// A race takes no remarks.
const withoutRemarks = (text) => linesOf(text).filter((line) => !isCaption(line)).join("\n");

export class Race {
  constructor(app) {
    this.app = app;
    this.runs = 0; // how often a race was begun: an older one doesn't go on
    this.begun = null;
    this.address = {};
    this.histories = new Map();
    this.came = new Map(); // how often each outcome came, by its answers
    this.picked = null;
    byId("race-form").addEventListener("submit", (event) => {
      event.preventDefault();
      this.app.visit("race", this.asked(true));
    });
    byId("race-form").addEventListener("change", (event) => this.formChanged(event.target.id));
    byId("race-example").addEventListener("change", (event) => this.openExample(event.target.value));
    byId("outcome").addEventListener("change", (event) => this.drawOutcome(Number(event.target.value)));
    this.byHand = new ByHand(app, (hand) => {
      this.hand = hand;
      this.app.keep("race", { ...this.asked(false), hand });
    });
    byId("by-hand-begin").addEventListener("click", () => this.beginByHand());
    addEventListener("keydown", (event) => this.clickerKey(event));
    byId("open-order")
      .addEventListener("click", () => this.app.visit("sessions", { script: orderOf(this.drawn).join("\n") }));
  }

  beginByHand() {
    this.app.visit("race", { ...this.asked(false), hand: "0" });
  }

  // The address has what the form says. A race by hand of another script begins anew.
  formChanged(what) {
    if (what === "race-script" && this.hand) this.beginByHand();
    else if (what !== "race-example") this.app.keep("race", { ...this.asked(false), hand: this.hand });
  }

  offer(examples) {
    this.examples = [...examples.races, ...examples.scripts, ...examples.stories];
    let from = 0;
    const listed = (kind) => examples[kind].map((story) => [String(from++), ...titleOf(story)]);
    options(byId("race-example"),
      [["Races", listed("races")], ["Examples", listed("scripts")], ["Stories", listed("stories")]]);
  }

  openExample(choice) {
    const example = this.examples[Number(choice)];
    if (choice === "" || !example) return;
    this.app.visit("race", { ...this.asked(false), script: withoutRemarks(example.text) });
  }

  asked(go) {
    const number = (id) => byId(id).value;
    return { script: this.script(), together: byId("together").checked ? 1 : "", renew: byId("renew").checked ? 1 : "",
      seed: byId("shuffled").checked ? number("seed") : UNSHUFFLED, runs: number("runs"), capacity: number("capacity"),
      go: go ? ++this.runs : "" };
  }

  // The text of the box; bytes that aren't text stay as the address had them while the box isn't touched.
  script() {
    const typed = byId("race-script").value;
    return this.opened && typed === this.opened.text ? this.opened.bytes : fromText(typed);
  }

  enter(state) {
    const bytes = state.script ?? withoutRemarks(this.examples[0]?.text ?? ""); // so that there is one to be raced
    this.opened = { bytes, text: toText(bytes) ?? Array.from(bytes).join("") };
    byId("race-script").value = this.opened.text;
    this.opened.text = byId("race-script").value;
    const lines = linesOf(bytes).join("\n");
    follow(byId("race-example"), this.examples, (example) => withoutRemarks(example.text) === lines,
      byId("race-remark"));
    byId("together").checked = Boolean(state.together);
    byId("renew").checked = Boolean(state.renew);
    byId("shuffled").checked = state.seed !== UNSHUFFLED;
    for (const [id, plain] of [["seed", 1], ["runs", 50], ["capacity", 1024]]) {
      byId(id).value = whole(state[id], Number(byId(id).min), Number(byId(id).max), plain);
    }
    this.runs = Math.max(this.runs, whole(state.go, 1, 1e9, 0));
    this.hand = state.hand; // as the address has it, or nothing where it isn't stepped by hand
    if (state.hand) {
      this.clear();
      byId("race-welcome").hidden = true;
      return this.byHand.open(partsOf(this.script()), state.hand);
    }
    this.byHand.leave();
    this.named = state.history ?? null;
    const asked = { ...this.asked(false), go: state.go };
    if (state.go && JSON.stringify(asked) !== this.begun) this.race(asked);
    else if (this.script() !== this.raced) this.clear();
    else if (this.named) this.drawBars();
  }

  // Leaves what was raced; a race that goes on stops.
  clear() {
    this.begun = null;
    this.raced = null;
    this.histories = new Map();
    this.came = new Map();
    this.possible = null;
    this.isExplored = false;
    this.picked = null;
    this.chosen = false;
    fill(byId("histories"));
    fill(byId("race-parts"));
    fill(byId("possible"));
    byId("all-outcomes").hidden = true;
    fill(byId("race-faults"));
    fill(byId("race-progress"));
    byId("one-history").hidden = true;
    byId("race-welcome").hidden = false;
  }

  // Races what the form says, which `asked` has as the address has it.
  async race(asked) {
    this.clear();
    const wanted = JSON.stringify(asked);
    this.begun = wanted;
    this.address = asked;
    this.raced = this.script();
    this.parts = partsOf(this.raced);
    fill(byId("race-parts"), this.parts.hasParts ? IN_PARTS : null);
    const times = Math.max(1, Math.min(200, Number(byId("runs").value) || 1));
    const question = { script: this.parts.text, parts: this.parts.hasParts, together: byId("together").checked,
      renew: byId("renew").checked,
      capacity: Number(byId("capacity").value) };
    const seed = byId("shuffled").checked ? Number(byId("seed").value) : null;
    this.app.notify({});
    fill(byId("race-progress"), `0 of ${times} runs`);
    this.explore(wanted);
    try {
      for (let done = 0; done < times && this.begun === wanted; ) {
        const { ran } = await ask("race",
          { ...question, times: Math.min(BATCH, times - done), seed: seed === null ? null : seed + done });
        if (this.begun !== wanted) return;
        done += this.parts.hasParts ? Math.min(BATCH, times - done) : ran.length;
        if (!(this.parts.hasParts ? this.takeCounted(ran[0]) : this.take(ran))) break;
        fill(byId("race-progress"), `${done} of ${times} runs`);
      }
      if (this.begun === wanted && this.named && this.histories.size) this.app.notify({ fault: GONE });
    } catch (fault) {
      if (!(fault instanceof Failure)) throw fault;
      this.app.notify({ fault: fault.message });
    }
  }

  // Asks for all that the script can be answered, beside the runs.
  async explore(wanted) {
    let found = null;
    try {
      found = readPossible((await ask("outcomes", { script: this.parts.text })).output, this.parts);
    } catch (fault) {
      if (!(fault instanceof Failure)) throw fault;
    }
    if (this.begun !== wanted) return;
    this.possible = found;
    this.isExplored = true;
    this.drawPossible();
  }

  drawPossible() {
    if (!this.isExplored || !this.came.size) return;
    byId("all-outcomes").hidden = false;
    if (this.possible === null) return void fill(byId("possible-seen"), MANY);
    const { seen, items } = possibleItems(this.possible, this.came, this.parts,
      (lines) => this.app.visit("sessions", { script: lines.join("\n") }));
    fill(byId("possible-seen"), seen);
    keepingFocus(byId("possible"), () => fill(byId("possible"), items));
  }

  // Counts what came; false where a child ended badly, or the script has faulty lines.
  take(ran) {
    for (const { output, status, error } of ran) {
      if (status !== 0) {
        this.app.notify({ fault: endingText({ status, error }) });
        return false;
      }
      const outcome = readOutcome(output);
      if (outcome.faults.length || !outcome.history) return this.drawFaults(outcome.faults);
      this.count(outcome, output);
    }
    this.drawFaults([]);
    this.drawBars();
    this.drawPossible();
    return true;
  }

  // The same of runs that the program has counted.
  takeCounted({ output, status, error }) {
    if (status !== 0 && status !== FAULTY) {
      this.app.notify({ fault: endingText({ status, error }) });
      return false;
    }
    const counted = readCame(output, this.parts);
    if (!counted.length) return this.drawFaults(linesOf(output));
    for (const [text, count] of counted) this.came.set(text, (this.came.get(text) ?? 0) + count);
    byId("race-welcome").hidden = true;
    this.drawPossible();
    return true;
  }

  count(outcome, output) {
    if (!this.histories.has(outcome.key))
      this.histories.set(outcome.key, { key: outcome.key, count: 0, history: outcome.history, outcomes: new Map() });
    const found = this.histories.get(outcome.key);
    found.count += 1;
    found.outcomes.set(output, (found.outcomes.get(output) ?? 0) + 1);
    const answers = answersOf(outcome, this.parts);
    this.came.set(answers, (this.came.get(answers) ?? 0) + 1);
  }

  drawFaults(faults) {
    const lines = linesOf(this.raced);
    fill(byId("race-faults"), faults.map((fault) => {
      const found = /^LINE (\d+) (.*)$/s.exec(fault);
      const number = found && this.parts.numbers[Number(found[1]) - 1];
      return number ? el("li", {}, `LINE ${number} `, shown(found[2]), ": ", shown(lines[number - 1]))
        : el("li", {}, shown(fault));
    }));
    if (faults.length) fill(byId("histories"));
    return faults.length === 0;
  }

  sorted() {
    return [...this.histories.values()].sort((a, b) => b.count - a.count || (a.key < b.key ? -1 : 1));
  }

  drawBars() {
    const all = this.sorted();
    const named = this.named ? all.find((it) => nameOf(it.key) === this.named) : null;
    if (named) return this.choose(named);
    if (!this.chosen && all.length && all[0].key !== this.picked) return this.pick(all[0]);
    const room = byId("histories");
    const focused = room.contains(document.activeElement);
    const most = Math.max(...all.map((it) => it.count));
    fill(room, all.map((it) => this.bar(it, most)));
    if (focused) room.querySelector('[aria-pressed="true"]').focus();
    this.listOutcomes();
  }

  // A clicker steps by hand, or goes from one history to the next; behind the last one, or without any, it goes on to
  // the outcomes.
  clickerKey(event) {
    const wanted = byId("race").hidden ? null : clicked(event);
    if (wanted && (byId("by-hand").hidden ? this.goOn(wanted) : this.stepByHand(wanted))) event.preventDefault();
  }

  stepByHand(wanted) {
    if (wanted === "step") return this.byHand.stepOnly();
    this.byHand.back();
    return true;
  }

  goOn(wanted) {
    const all = this.sorted();
    const next = all[all.findIndex((it) => it.key === this.picked) + (wanted === "step" ? 1 : -1)];
    const room = document.querySelector("#race .left");
    if (next) this.choose(next);
    else if (moves(room)) scrollOn(room, wanted);
    else return false; // the browser moves the page
    return true;
  }

  bar(found, most) {
    const strip = found.history.slice(0, STRIP)
      .map((entry) => el(`span.entry.${sessionClass(entry.session)}`, {}, String(entry.session)));
    const bar = el("span.bar");
    bar.style.setProperty("--part", found.count / most);
    return el("button.history", { type: "button", "aria-pressed": String(found.key === this.picked),
      "data-count": found.count,
      "aria-label": `History of ${found.history.length} entries, by sessions ${found.history.map((it) => it.session).join(" ")}: ${cameText(found.count)}`,
      onclick: () => this.choose(found) },
    el("span.count", {}, String(found.count)), bar,
    el("span.strip", {}, strip, found.history.length > STRIP ? "…" : null,
      found.history.length === 0 ? "no entries" : null));
  }

  // Picks a history, which the address then names; where nobody has chosen, the one that came most often is picked.
  choose(found) {
    this.named = null;
    this.chosen = true;
    this.pick(found);
    byId("histories").querySelector('[aria-pressed="true"]').scrollIntoView({ block: "nearest" });
    this.app.keep("race", { ...this.address, history: nameOf(found.key) });
  }

  pick(found) {
    const isAnother = this.picked !== found.key;
    this.picked = found.key;
    this.drawn = null;
    byId("one-history").hidden = false;
    byId("race-welcome").hidden = true;
    this.drawBars();
    if (isAnother) byId("history").scrollTop = 0;
  }

  // With which answers the picked history came, the most frequent first; the one that is drawn stays.
  listOutcomes() {
    const found = this.histories.get(this.picked);
    if (!found) return;
    const outcomes = [...found.outcomes].sort(([a, m], [b, n]) => n - m || (a < b ? -1 : 1));
    this.outcomes = outcomes.map(([text]) => text);
    fill(byId("outcome"), outcomes.map(
      ([, count], at) => el("option", { value: at }, `${at + 1} of ${outcomes.length}: ${cameText(count)}`)));
    byId("outcome-choice").hidden = outcomes.length < 2;
    if (this.drawn === null) this.drawOutcome(0);
    else byId("outcome").value = this.outcomes.indexOf(this.text);
  }

  drawOutcome(at) {
    const text = this.outcomes[at];
    this.text = text;
    this.drawn = tie(readOutcome(text), this.parts.text);
    draw(byId("history"), this.drawn);
    printedInto(byId("race-printed"), text);
  }
}
