// Reads what `xa_script show` prints for a line: its answer, and the store behind it.

const BRANCH = /^ {2}BRANCH (\S+) (ACTIVE|IDLE|PREPARED)(?: SESSION (\d+))?$/;
const HELD = /^ {4}(SHARES|HOLDS) (\S+?)(?: (WRITES) (\S+)| (DELETES))?$/;
const ROW = /^ {2}ROW (\S+) (?:VALUE (\S+)|NONE)$/;
const REFUSAL = /^ERROR (\d+) \((\w+)\): (.*)$/s;
const FAULT_PLACE = /at byte (\d+)$/;

// A reply's end in a text of answers: the line, and behind ROWS n so many rows, whose data may have line feeds.
export function endOfReply(text, from, reply) {
  let at = from;
  const rows = /^ROWS (\d+)$/.exec(reply);
  for (let left = rows ? Number(rows[1]) : 0; left > 0; left -= 1) at = endOfRow(text, at);
  return at;
}

function endOfRow(text, at) {
  const numbers = /\d+ (\d+) (\d+) /y;
  numbers.lastIndex = at;
  const found = numbers.exec(text);
  if (!found) return text.length;
  const length = Number(found[1]) + Number(found[2]);
  const raw = numbers.lastIndex + length;
  return text[raw] === "\n" ? raw + 1 : numbers.lastIndex + 2 + 2 * length + 1;
}

export function refusalOf(reply) {
  const found = REFUSAL.exec(reply);
  if (!found) return null;
  const place = FAULT_PLACE.exec(found[3]);
  return { number: found[1], sqlstate: found[2], text: found[3], at: place ? Number(place[1]) : null };
}

// {session, reply, rows, refusal, branches, touched}: `session` is "-" for a line that isn't one, null where there is
// no answer.
export function readShown(text) {
  const found = { session: null, reply: null, rows: "", refusal: null, branches: [], touched: [] };
  let at = 0;
  const first = /^(\d+|-) ([^\n]*)\n/.exec(text);
  if (first) {
    at = endOfReply(text, first[0].length, first[2]);
    Object.assign(found,
      { session: first[1], reply: first[2], rows: text.slice(first[0].length, at), refusal: refusalOf(first[2]) });
  }
  for (const line of text.slice(at).split("\n")) readListed(line, found);
  return found;
}

function readListed(line, found) {
  const branch = BRANCH.exec(line);
  const held = HELD.exec(line);
  const row = ROW.exec(line);
  if (branch) {
    found.branches.push({ xid: branch[1], phase: branch[2], session: branch[3] ?? null, holds: [] });
  } else if (held && found.branches.length) {
    const kind = held[1] === "SHARES" ? "shares" : held[3] ? "writes" : "deletes";
    found.branches.at(-1).holds.push({ key: held[2], kind, value: held[4] ?? null });
  } else if (row) {
    found.touched.push({ key: row[1], value: row[2] ?? null });
  }
}
