// Which line of docs/STATEMENTS.md's tables refused a statement: the tables come from the server, which reads them
// there.
import { fetched } from "./api.js";

let tables = { replies: [[]], refusals: [[]], legend: [] };

export async function load() {
  tables = await fetched("tables");
}

// The first column of the table of replies names statements by their words.
function names(row, words) {
  return row.split(", ").some((name) => {
    const [begin, end = ""] = name.toUpperCase().split(" .. ");
    return words.startsWith(begin) && (words.endsWith(end) || end === "");
  });
}

function wordsOf(statement) {
  const words = statement.toUpperCase().replace(/[;\s]+$/, "").trim().replace(/\s+/g, " ");
  return words.replace(/^XA BEGIN\b/, "XA START");
}

// The row of the statement that has the refusal's number in the column of the session's state; ONE PHASE before what it
// begins like.
function replyRule(number, statement, state) {
  const [head = [], ...rows] = tables.replies;
  const column = head.indexOf(state);
  const words = wordsOf(statement);
  const all = rows.filter((row) => row[column]?.includes(number));
  const named = all.filter((row) => names(row[0], words)).sort((a, b) => b[0].length - a[0].length)[0];
  const row = named ?? (all.length === 1 ? all[0] : null);
  return row ? { statement: row[0], state, cell: row[column] } : null;
}

// {where, rule}: when the number is returned, as the table of errors has it, and the row of the table of replies if
// there is one.
export function ruleOf(refusal, statement, state) {
  const row = tables.refusals.slice(1).find((it) => it[0] === refusal.number);
  return row ? { where: row.at(-1), rule: replyRule(refusal.number, statement, state) } : null;
}

// The words of two-phase commit, each with its meaning.
export const words = () => tables.legend;
