// A transfer between two rows as calls: what a form says, with a crash where it is wanted.
import { fromText } from "./bytes.js";

const MOST_BYTES = 64; // of a key

const parts = (form) => [...form.elements].filter(({ name }) => name);

const valueOf = (input) => (input.type === "number" ? input.valueAsNumber : fromText(input.value));

// What a form says: names are bytes, and what both have, the stores and the amount are numbers.
export const valuesIn = (form) => Object.fromEntries(parts(form).map((input) => [input.name, valueOf(input)]));

// Whether a form says a transfer. If it doesn't, each part that is wrong says what to do until something is changed.
export function isTransfer(form) {
  const values = valuesIn(form);
  for (const input of parts(form)) input.setCustomValidity(faultOf(input, values));
  form.addEventListener("input", () => parts(form).forEach((input) => input.setCustomValidity("")), { once: true });
  return form.reportValidity();
}

const faultOf = (input, values) => ownFault(input) || TOGETHER[input.name]?.(values) || "";

function ownFault(input) {
  if (input.type === "number") return numberFault(input);
  return input.type === "text" ? nameFault(valueOf(input)) : "";
}

// A browser takes a number that differs from a whole one by very little for whole.
function numberFault({ valueAsNumber: number, min, max }) {
  const isRight = Number.isInteger(number) && number >= Number(min) && number <= Number(max);
  return isRight ? "" : `Give a whole number from ${min} to ${max}.`;
}

function nameFault(bytes) {
  if (!bytes) return "Give a name.";
  return bytes.length <= MOST_BYTES ? ""
    : `A name has at most ${MOST_BYTES} bytes, and this one has ${bytes.length}. Give a shorter one.`;
}

// What may be wrong with parts of which each by itself is right.
const TOGETHER = {
  toName: ({ fromName, fromStore, toName, toStore }) =>
    (fromName === toName && fromStore === toStore ? "This is the payer's own row. Give another name or store." : ""),
  amount: ({ fromHas, amount }) =>
    (amount > fromHas ? `The payer has ${fromHas}. Give a smaller amount, or let the payer have more.` : ""),
};

const quoted = (name) => `'${name.replaceAll("\\", "\\\\").replaceAll("'", "''")}'`;

export function transferCalls({ fromName, fromHas, fromStore, toName, toHas, toStore, amount, crash }) {
  const opened = (store, name, has) => [`AT ${store} PUT ${quoted(name)},'${has}'`];
  const [from, to] = [quoted(fromName), quoted(toName)];
  const title = `# ${amount} from ${fromName} in store ${fromStore} to ${toName} in store ${toStore}`;
  const crashed = ["STOP", "RECOVER"];
  const work = ["BEGIN", `WORK 1 ${fromStore} GET ${from}`, `WORK 1 ${fromStore} PUT ${from},'${fromHas - amount}'`,
    `WORK 1 ${toStore} GET ${to}`, `WORK 1 ${toStore} PUT ${to},'${toHas + amount}'`];
  const ends = {
    none: ["PREPARE 1", "DECIDE 1", "FINISH 1"],
    vote: crashed,
    before: ["PREPARE 1", ...crashed],
    after: ["PREPARE 1", "DECIDE 1", ...crashed],
    within: ["PREPARE 1", "DECIDE 1", `FAIL ${Math.max(fromStore, toStore)} AFTER 0`, "FINISH 1", ...crashed],
  };
  // Within one store there is one participant: no vote, no decision.
  const oneStore = { ...ends, none: ["PREPARE 1", "FINISH 1"], after: ["PREPARE 1", ...crashed],
    within: ["PREPARE 1", `FAIL ${fromStore} AFTER 0`, "FINISH 1", ...crashed] };
  return [title, "# What both have, put there by another client.", ...opened(fromStore, fromName, fromHas),
    ...opened(toStore, toName, toHas),
    "# The transfer.", ...work, ...(fromStore === toStore ? oneStore : ends)[crash], `AT ${fromStore} GET ${from}`,
    `AT ${toStore} GET ${to}`];
}
