// The lines of a script in a column for each session, each with its answer below it.
import { isBlank, readableValue } from "./bytes.js";
import { el, sessionClass, shown } from "./dom.js";
import { ruleOf } from "./rules.js";

const LINE = /^[ \t\r]*([1-9]|1[0-6])(?:[ \t\r]+|$)([^]*)$/;

// The column in which a line is shown, and its statement: what answers it is the program's alone.
export function cut(line) {
  const found = LINE.exec(line);
  return found ? { session: Number(found[1]), statement: found[2] } : { session: null, statement: line };
}

export function widestSession(lines) {
  return Math.max(0, ...lines.map((line) => cut(line).session ?? 0));
}

// A statement with the byte marked at which it isn't read.
function statementText(statement, refusal) {
  if (!refusal || refusal.at === null) return shown(statement, "bdi.statement");
  const marked = statement.slice(refusal.at, refusal.at + 1);
  return el("bdi.statement", {}, shown(statement.slice(0, refusal.at)),
    el("mark.fault", { title: `byte ${refusal.at}` }, marked === "" ? " " : shown(marked)),
    shown(statement.slice(refusal.at + 1)));
}

// A table's text, of which what stands between backticks is code.
function withCode(text) {
  return text.split("`").map((part, at) => (at % 2 ? el("code", {}, part) : part));
}

function ruleText(refusal, statement, state) {
  const found = ruleOf(refusal, statement, state);
  if (!found) return null;
  const { rule } = found;
  return el("p.rule", {}, el("span.where", {}, withCode(found.where)),
    rule ? el("span.table", {}, `${rule.statement}, ${rule.state}: `, withCode(rule.cell)) : null);
}

// A reply, of which a value is written as a statement would have it; what was printed is below the pointer.
function replySpan(reply) {
  const read = readableValue(reply);
  return read === null ? el("span.reply", {}, shown(reply))
    : el("span.reply", { title: reply, "data-printed": reply }, el("bdi", {}, read));
}

// The state of the session that was answered, as it is listed behind the answer.
function stateOf({ session, branches }) {
  return branches.find((branch) => branch.session === session)?.phase ?? "Free";
}

// `state` is the session's, or null where the program doesn't say it.
function replyText(answer, statement, state) {
  const { reply, rows, refusal } = answer;
  if (reply === null) return null;
  return el(refusal ? "div.answer.refused" : "div.answer", {},
    replySpan(reply),
    rows ? el("pre.rows", {}, shown(rows.replace(/\n$/, ""))) : null,
    refusal ? ruleText(refusal, statement, state) : null);
}

// A statement with its answer below it, which is null for one that waits.
export function spoken(statement, answer, state = null) {
  return [statementText(statement, answer?.refusal), answer ? replyText(answer, statement, state) : null];
}

// A line that isn't one of a session, with what answers it.
const spokenBadly = (line, answer) => [statementText(line, null), answer ? replyText(answer, line, null) : null];

const isRemark = (line) => /^[ \t\r]*#/.test(line);

// Whether a line is read in passing: a step doesn't end behind it.
export const isCaption = (line) => isRemark(line) || isBlank(line);

function captionItem(line, place) {
  const kind = isBlank(line) ? "blank" : "remark";
  const said = line.replace(/^[ \t\r]*#[ \t\r]*/, "");
  return el(`li.line.caption.${kind}`, { "data-line": place + 1 }, el("div.cell", {}, shown(said, "bdi.statement")));
}

// A line at its place; `answer` is null for one that waits.
export function lineItem(line, place, answer, goTo) {
  if (isCaption(line)) return captionItem(line, place);
  const { session, statement } = cut(line);
  const label = `Run to here: line ${place + 1}`;
  const item = el(`li.line.${session === null ? "bad" : "spoken"}`, { "data-line": place + 1 },
    el("button.here", { type: "button", title: label, "aria-label": label, onclick: () => goTo(place + 1) },
      String(place + 1)));
  const cell = el("div.cell", {},
    session !== null ? spoken(statement, answer, answer && stateOf(answer)) : spokenBadly(line, answer));
  if (session !== null) {
    cell.classList.add(sessionClass(session));
    cell.dataset.session = session;
    cell.style.setProperty("--column", session);
  }
  item.append(cell);
  return item;
}
