// Reads what `xa_script race` prints, and ties its answers to the lines of the script.
import { isBlank, linesOf } from "./bytes.js";
import { cut } from "./columns.js";
import { endOfReply, refusalOf } from "./listing.js";

const ENTRY = /^(\d+) (\d+) (.*)$/;
const ANSWER = /(\d+) (\d+) ([^\n]*)\n/y;

// {faults} of a script that wasn't raced, or {history, answers, key}; `key` is the history as it was printed.
export function readOutcome(text) {
  const head = /^HISTORY (\d+)\n/.exec(text);
  if (!head) return { faults: linesOf(text) };
  const lines = text.split("\n", Number(head[1]) + 1);
  const key = lines.map((line) => `${line}\n`).join("");
  const history = lines.slice(1).map((line) => {
    const [, place, session, statement] = ENTRY.exec(line);
    return { place: Number(place), session: Number(session), statement, answer: null };
  });
  return { faults: [], history, answers: readAnswers(text, key.length), key };
}

function readAnswers(text, from) {
  const answers = [];
  for (let at = from; at < text.length; ) {
    ANSWER.lastIndex = at;
    const found = ANSWER.exec(text);
    if (!found) break;
    const rowsFrom = ANSWER.lastIndex;
    at = endOfReply(text, rowsFrom, found[3]);
    answers.push({ session: Number(found[1]), place: Number(found[2]), reply: found[3], rows: text.slice(rowsFrom, at),
      refusal: refusalOf(found[3]), line: "", statement: "" });
  }
  return answers;
}

// Gives each answer its line. A session's lines are answered in order.
export function tie(outcome, script) {
  const waiting = new Map();
  for (const line of linesOf(script).filter((it) => !isBlank(it))) {
    const { session, statement } = cut(line);
    if (!waiting.has(session)) waiting.set(session, []);
    waiting.get(session).push({ line, statement });
  }
  for (const answer of outcome.answers) Object.assign(answer, waiting.get(answer.session)?.shift());
  // An entry's answer is its session's last one at that place: what it was answered before stands in front of the
  // entry.
  for (const answer of outcome.answers) {
    const entry = outcome.history[answer.place];
    if (entry?.session === answer.session) entry.answer = answer;
  }
  return outcome;
}

// What is answered at a place and isn't the entry there.
export function hungAt(outcome, place) {
  const own = outcome.history[place]?.answer;
  return outcome.answers.filter((answer) => answer.place === place && answer !== own);
}

// The lines in one order that the history explains: at each place what doesn't enter there, and then the entry.
export function orderOf(outcome) {
  const lines = [];
  for (let place = 0; place <= outcome.history.length; place += 1) {
    lines.push(...hungAt(outcome, place).map((answer) => answer.line));
    const own = outcome.history[place]?.answer;
    if (own) lines.push(own.line);
  }
  return lines;
}
