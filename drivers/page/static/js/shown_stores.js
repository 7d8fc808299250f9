// Reads what `SHOW` answers: what is prepared in each store, and how the numbers stand.

const ROW = /^(\d+) (\d+) (\d+) 0x([0-9a-f]*)$/;
const NUMBERS = /^(UNDECIDED|DECIDED|CLOSED)((?: \d+)*)$/;

const part = (digits) => (digits === "" ? "X''" : `0x${digits}`);

export function readStores(text) {
  const found = { stores: [], UNDECIDED: [], DECIDED: [], CLOSED: [] };
  for (const line of text.split("\n")) {
    const store = /^STORE (\d+)$/.exec(line);
    const row = ROW.exec(line);
    const numbers = NUMBERS.exec(line);
    if (store) found.stores.push({ store: Number(store[1]), prepared: [], fault: null });
    else if (numbers) found[numbers[1]] = numbers[2].split(" ").slice(1);
    else if (row && found.stores.length) {
      const split = 2 * Number(row[2]);
      found.stores.at(-1).prepared.push(`${part(row[4].slice(0, split))},${part(row[4].slice(split))},${row[1]}`);
    } else if (line.startsWith("FAULT")) found.stores.at(-1).fault = line;
  }
  return found;
}
