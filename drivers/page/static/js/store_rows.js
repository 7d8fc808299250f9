// The rows of each store and who has locked them, as they are behind the message that is shown.
import { el, fillKnown } from "./dom.js";

// Of each store what was listed last up to a message; `step` is null for all messages of the line.
function latest(rows, line, step) {
  const found = new Map();
  for (const one of rows) {
    const isGiven = one.line < line || (one.line === line && (step === null || one.step <= step));
    if (isGiven) found.set(one.store, { ...one, isNew: one.line === line && (step === null || one.step === step) });
  }
  return [...found.values()].sort((a, b) => a.store - b.store);
}

function valueCell({ value, was }) {
  return el("td", {}, was === null ? null : [el("s", {}, was), " "], value === null ? "none" : el("bdi", {}, value));
}

function lockCell({ holder, reads, will }) {
  if (holder === null) return el("td", {}, "free");
  return el("td", {}, el("strong", {}, holder), reads ? " reads it" : [" makes it ", el("bdi", {}, will)]);
}

function rowLine(row, isNew) {
  return el(row.changed && isNew ? "tr.changed" : "tr", {}, el("th", { scope: "row" }, el("bdi", {}, row.key)),
    valueCell(isNew ? row : { ...row, was: null }), lockCell(row));
}

// `unknown` says why the rows aren't known yet, or is null.
export function drawRows(room, unknown, rows, line, step) {
  const stores = latest(rows, line, step);
  fillKnown(room, unknown, stores.length ? el("table.store-rows", {},
    el("thead", {}, el("tr", {}, ["Row", "Value", "Lock"].map((name) => el("th", { scope: "col" }, name)))),
    stores.map(({ store, rows: all, isNew }) => el("tbody", { "data-store": store },
      el("tr.store", {}, el("th", { colspan: 3, scope: "rowgroup" }, `Store ${store}`)),
      all.map((row) => rowLine(row, isNew)))))
    : el("p.hint", {}, "No store was asked for a row yet."));
}
