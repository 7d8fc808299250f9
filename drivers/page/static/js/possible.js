// All that a script's lines can be answered, whatever the order of its sessions, as `xa_script explore` lists it, and
// which of it came.
import { readableValue } from "./bytes.js";
import { cameText, el, sessionClass, shown, shownLines } from "./dom.js";
import { endOfReply } from "./listing.js";
import { linesInOrder } from "./script_parts.js";

const MOST = 100; // outcomes that are listed, beside those that came

const HEAD = /^OUTCOMES \d+\n/;
const OUTCOME = /OUTCOME \d+(?: CAME (\d+))?\n/y;
const ANSWER = /\d+ ([^\n]*)\n/y;
const ORDER = /ORDER((?: \d+)*)\n/y;

function matchAt(form, text, at) {
  form.lastIndex = at;
  return form.exec(text);
}

// The answers to so many lines from there on, each {reply, rows}, and where they end; null where there are fewer.
function answersFrom(text, from, count) {
  const answers = [];
  let at = from;
  for (let left = count; left > 0; left -= 1) {
    const found = matchAt(ANSWER, text, at);
    if (!found) return null;
    const rowsFrom = at + found[0].length;
    at = endOfReply(text, rowsFrom, found[1]);
    answers.push({ reply: found[1], rows: text.slice(rowsFrom, at) });
  }
  return { answers, end: at };
}

// Each outcome as {text, answers, order}, or null where none is listed: there are too many ways, the script isn't read,
// or the program lacks the job.
export function readPossible(text, parts) {
  const head = HEAD.exec(text);
  if (!head) return null;
  const found = [];
  for (let at = head[0].length; at < text.length; ) {
    const name = matchAt(OUTCOME, text, at);
    const read = name && answersFrom(text, at + name[0].length, parts.lines.length);
    const order = read && matchAt(ORDER, text, read.end);
    if (!order) return null;
    found.push({ text: text.slice(at + name[0].length, read.end), answers: read.answers,
      order: order[1].split(" ").slice(1).map(Number) });
    at = read.end + order[0].length;
  }
  return found;
}

// How often each outcome came in a race of so many runs: pairs of its text and the count; none where the script isn't
// read.
export function readCame(text, parts) {
  const found = [];
  for (let at = 0; at < text.length; ) {
    const name = matchAt(OUTCOME, text, at);
    const read = name && answersFrom(text, at + name[0].length, parts.lines.length);
    if (!read) break;
    found.push([text.slice(at + name[0].length, read.end), Number(name[1])]);
    at = read.end;
  }
  return found;
}

// What a race was answered, without places, in the order of the script's lines.
export function answersOf(outcome, parts) {
  const waiting = new Map();
  for (const answer of outcome.answers) {
    if (!waiting.has(answer.session)) waiting.set(answer.session, []);
    waiting.get(answer.session).push(`${answer.session} ${answer.reply}\n${answer.rows}`);
  }
  return parts.lines.map(({ session }) => waiting.get(session)?.shift() ?? "").join("");
}

// A line with its answer, a value as a statement would have it.
function answeredLine({ session, statement }, { reply, rows }) {
  const kind = reply.startsWith("ERROR") ? "span.reply.refused" : "span.reply";
  return el(`li.${sessionClass(session)}`, {}, el("span.who", {}, String(session)), " ",
    shown(statement, "bdi.statement"), " ",
    el(kind, { "data-printed": reply }, shown(readableValue(reply) ?? reply)),
    rows ? el("pre.rows", {}, shownLines(rows.replace(/\n$/, ""))) : null);
}

function itemOf({ answers, order }, number, count, parts, openLines) {
  const label = `Open outcome ${number} in Sessions`;
  return el(count ? "li.came" : "li", { value: number, "data-came": count },
    el("span.count", {}, cameText(count)),
    el("button", { type: "button", title: label, "aria-label": label,
      onclick: () => openLines(linesInOrder(parts, order)) }, "Open in Sessions"),
    el("ul.answered", {}, parts.lines.map((line, at) => answeredLine(line, answers[at]))));
}

// How many came, and the items: all that came, and so many of the others.
export function possibleItems(possible, came, parts, openLines) {
  const seen = possible.filter((one) => came.has(one.text)).length;
  let others = MOST;
  const items = possible.map((one, at) => {
    const count = came.get(one.text) ?? 0;
    if (!count && others-- <= 0) return null;
    return itemOf(one, at + 1, count, parts, openLines);
  });
  return { seen: `${seen} of ${possible.length} possible outcomes came`, items };
}

