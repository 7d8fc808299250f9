// Branches as cards, and the rows with who holds them, both from what the program lists.
import { asLiteral, asXid } from "./bytes.js";
import { el, sessionClass } from "./dom.js";

const HELD = { shares: "shares", writes: "writes", deletes: "deletes" };

export const xidText = (xid) => el("bdi.xid", { title: xid }, asXid(xid));
export const literalText = (literal) => el("bdi.literal", { title: literal }, asLiteral(literal));

function heldLine(hold) {
  return el(`li.${hold.kind}`, {}, el("span", {}, `${HELD[hold.kind]} `), literalText(hold.key),
    hold.value === null ? null : [" := ", literalText(hold.value)]);
}

export function card(branch) {
  const owner = branch.session
    ? el(`span.owner.${sessionClass(branch.session)}`, {}, `session ${branch.session}`)
    : el("span.owner", {}, "no owner");
  return el(`article.card.${branch.phase.toLowerCase()}`, { "data-xid": branch.xid },
    el("h3", {}, xidText(branch.xid)),
    el("p", {}, el("span.phase", {}, branch.phase), " ", owner),
    branch.holds.length ? el("ul", {}, branch.holds.map(heldLine)) : el("p.hint", {}, "holds no row"));
}

// The committed value of a row is the one that was listed last; who holds it is what is listed now.
export function rowsOf(answers, branches) {
  const rows = new Map();
  for (const { key, value } of answers.flatMap((it) => it.touched))
    rows.set(key, { key, value, listed: true, holders: [] });
  for (const branch of branches) {
    for (const hold of branch.holds) {
      if (!rows.has(hold.key)) rows.set(hold.key, { key: hold.key, value: null, listed: false, holders: [] });
      rows.get(hold.key).holders.push({ branch, hold });
    }
  }
  return [...rows.values()].sort((a, b) => (a.key < b.key ? -1 : 1));
}

function holder({ branch, hold }) {
  const marks = branch.session ? `.${sessionClass(branch.session)}` : "";
  return el(`li.holder${marks}`, {}, xidText(branch.xid), ` ${HELD[hold.kind]}`,
    hold.value === null ? null : [" ", literalText(hold.value)]);
}

export function rowLine(row) {
  return el("tr", { "data-key": row.key },
    el("th", { scope: "row" }, literalText(row.key)),
    el("td", {},
      !row.listed ? el("span.hint", {}, "not listed yet") : row.value === null ? "none" : literalText(row.value)),
    el("td", {}, row.holders.length ? el("ul", {}, row.holders.map(holder)) : "nobody"));
}
