// Reads what `xa_script judge` prints.
import { linesOf } from "./bytes.js";

// {kind, line, could, order, faults}: `kind` is "LEGAL", "ILLEGAL", "UNDECIDED", "EMPTY", "FAULTY", or null where it is
// none of these.
export function readVerdict(text) {
  const lines = linesOf(text);
  const found = { kind: null, line: null, could: [], order: [], faults: [] };
  const first = /^(LEGAL|ILLEGAL|UNDECIDED|EMPTY)(?: line (\d+))?$/.exec(lines[0] ?? "");
  if (first) {
    Object.assign(found, { kind: first[1], line: first[2] ? Number(first[2]) : null });
    if (found.kind === "LEGAL") found.order = lines.slice(1);
    if (found.kind === "ILLEGAL") found.could = couldBe(lines.slice(1));
  } else if (lines.length && lines.every((line) => /^LINE \d+: /.test(line))) {
    found.kind = "FAULTY";
    found.faults = lines.map((line) => ({ line: Number(/\d+/.exec(line)[0]), cause: line.replace(/^LINE \d+: /, "") }));
  }
  return found;
}

// Each answer begins with COULD BE; the rows of a list stand below it.
function couldBe(lines) {
  const found = [];
  for (const line of lines) {
    if (line.startsWith("COULD BE ")) found.push(line.slice("COULD BE ".length));
    else if (found.length) found.push(`${found.pop()}\n${line}`);
  }
  return found;
}
