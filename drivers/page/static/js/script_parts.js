// A script for a race: without its remarks, in its parts, with the numbers that its lines have where they were typed.
import { linesOf } from "./bytes.js";
import { cut, isCaption } from "./columns.js";

const trimmed = (line) => line.replace(/^[ \t\r]+|[ \t\r]+$/g, "");

// {text, numbers, lines, hasParts, before, beside, after}: `text` is what the program is given, `numbers` has for each
// of its lines the number that it was typed with, `lines` are those of statements, and the others have their places
// among these. Lines of no session stand where they are: the program names them.
export function partsOf(script) {
  const kept = linesOf(script).flatMap((line, at) => (isCaption(line) ? [] : [{ line, number: at + 1 }]));
  const found = { text: kept.map(({ line }) => line).join("\n"), numbers: kept.map(({ number }) => number), lines: [],
    hasParts: false, before: [], beside: [], after: [] };
  let part = found.beside;
  for (const { line } of kept) {
    const word = trimmed(line);
    if (word === "BESIDE") [found.before, found.beside] = [found.beside, []];
    if (word === "BESIDE" || word === "AFTER") {
      part = word === "AFTER" ? found.after : found.beside;
      found.hasParts = true;
    } else {
      part.push(found.lines.length);
      found.lines.push({ line, ...cut(line) });
    }
  }
  return found;
}

// The places of the lines where the sessions side by side take turns in this order; those for which there is no line
// are left out.
export function placesIn(parts, order) {
  const left = [...parts.beside];
  const turns = order.flatMap((session) => {
    const at = left.findIndex((place) => parts.lines[place].session === session);
    return at < 0 ? [] : left.splice(at, 1);
  });
  return { before: parts.before, turns, left, after: parts.after };
}

// All lines in an order that the program gives: it is that of the sessions side by side.
export function linesInOrder(parts, order) {
  const { before, turns, after } = placesIn(parts, order);
  return [...before, ...turns, ...after].map((place) => parts.lines[place].line);
}
