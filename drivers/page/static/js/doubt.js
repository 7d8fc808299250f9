// The branches that are in doubt, and the words that teach them.
import { el, fill, fillKnown } from "./dom.js";
import { xidText } from "./cards.js";
import { branchText, transactionOf } from "./transactions.js";

// What a branch is called: by its transaction where the coordinator named it. What the program calls it is below the
// pointer.
function branchName(xid) {
  const found = transactionOf(xid);
  return found ? el("span.xid", { title: xid }, branchText(found)) : xidText(xid);
}

// `unknown` says why they aren't known yet, or is null.
export function doubtList(room, unknown, stores) {
  const all = stores.flatMap(({ store, prepared }) => prepared.map((xid) => ({ store, xid })));
  fillKnown(room, unknown, all.length
    ? all.map(({ store, xid }) => el("p.card.prepared", { "data-xid": xid },
      transactionOf(xid)?.store === store ? null : `Store ${store}: `, branchName(xid)))
    : el("p.hint", {}, "No branch is in doubt."));
}

const ALWAYS = ["coordinator", "participant"]; // words that nearly every sentence has

// Marks the words of the legend that a sentence has.
export function markWords(room, said) {
  for (const word of room.querySelectorAll("dt")) {
    const text = word.textContent;
    word.classList.toggle("now", !ALWAYS.includes(text) && said.toLowerCase().includes(text));
  }
}

export function legend(room, words) {
  fill(room, words.flatMap(([word, meaning]) => [el("dt", {}, word), el("dd", {}, meaning)]));
}
