// Draws a history as a line of entries, each answer at its place in its session's column.
import { readable } from "./bytes.js";
import { spoken } from "./columns.js";
import { el, fill, sessionClass } from "./dom.js";
import { hungAt } from "./outcome.js";

function answerBox(answer) {
  return el(`div.hung.${sessionClass(answer.session)}`, { "data-place": answer.place, "data-session": answer.session },
    spoken(answer.statement, answer));
}

function cells(columns, boxes) {
  return Array.from({ length: columns }, (_, at) =>
    el("td", {}, boxes.filter((answer) => answer.session === at + 1).map(answerBox)));
}

function betweenRow(outcome, place, columns) {
  const boxes = hungAt(outcome, place);
  if (!boxes.length) return null;
  return el("tr.between", {}, el("th.node", { scope: "row" }, el("span.dot", {}, "")), el("td"), cells(columns, boxes));
}

function entryRow(entry, columns) {
  return el(`tr.entry.${sessionClass(entry.session)}`, { "data-place": entry.place },
    el("th.node", { scope: "row" }, el("span.dot", {}, String(entry.place))),
    el("td.canonical", { title: entry.statement }, el("span.who", {}, String(entry.session)), " ",
      el("bdi", {}, readable(entry.statement))),
    cells(columns, entry.answer ? [entry.answer] : []));
}

export function draw(room, outcome) {
  const columns = Math.max(1, ...outcome.answers.map((answer) => answer.session));
  const heads = Array.from({ length: columns },
    (_, at) => el(`th.${sessionClass(at + 1)}`, { scope: "col" }, `Session ${at + 1}`));
  const rows = outcome.history.flatMap(
    (entry) => [betweenRow(outcome, entry.place, columns), entryRow(entry, columns)]);
  fill(room, el("table.timeline", {},
    el("thead", {}, el("tr", {}, el("th", { scope: "col" }, "Place"), el("th", { scope: "col" }, "Entry"), heads)),
    el("tbody", {}, [...rows, betweenRow(outcome, outcome.history.length, columns)].filter((row) => row))));
}
