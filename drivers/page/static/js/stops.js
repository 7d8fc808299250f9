// Every stop of a coordinator, as `xa_script stops` lists them, and the calls that show one.
import { linesOf } from "./bytes.js";

const STOP = /^STOP (?:(\d+) (\d+)|END)$/;

// {line, calls, recovered} of each stop; `line` is null for the one behind all lines. None where a line can't stand
// among stops.
export function readStops(text) {
  const found = [];
  for (const line of linesOf(text)) {
    const stop = STOP.exec(line);
    if (stop) found.push({ line: stop[1] ? Number(stop[1]) : null, calls: Number(stop[2] ?? 0), recovered: "" });
    else if (found.length && !found.at(-1).recovered) found.at(-1).recovered = line;
  }
  return found;
}

const WORD = /^[ \t]*([A-Z]+(?:[ \t]+\d+){0,2})/;

const placeOf = ({ line, calls }) => (line === null ? "END" : `${line}.${calls}`);

// A stop's line, how many calls of sessions the line has made, and what is recovered: short, so that all of it is seen.
export function nameOfStop(stop, lines) {
  const counts = /committed (\d+) rolled back (\d+)(?: missing (\d+))?/.exec(stop.recovered);
  const call = stop.line === null ? "" : ` ${WORD.exec(lines[stop.line - 1])?.[1] ?? ""}`;
  if (!counts) return `${placeOf(stop)}${call}: ${stop.recovered}`;
  const [, committed, rolledBack, missing] = counts;
  return `${placeOf(stop)}${call}: commits ${committed}, rolls back ${rolledBack}`
    + (Number(missing ?? 0) ? `, misses ${missing}` : "");
}

// The same with the whole call, and as it is printed.
export function wholeNameOfStop(stop, lines) {
  return `${placeOf(stop)}${stop.line === null ? "" : ` ${lines[stop.line - 1].trim()}`}: ${stop.recovered}`;
}

// The calls that come to a stop, and recover. `counts` has how many calls the line makes of the session in each store:
// the stores get them in order.
export function linesUntil(lines, { line, calls }, counts) {
  if (line === null) return [...lines, "STOP", "RECOVER"];
  const before = lines.slice(0, line - 1);
  let left = calls;
  for (const [store, count] of counts.entries()) {
    if (left < count) return [...before, `FAIL ${store} AFTER ${left}`, lines[line - 1], "STOP", "RECOVER"];
    left -= count;
  }
  return [...before, "STOP", "RECOVER"];
}
