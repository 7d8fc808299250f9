// The coordinator's branches by their transactions, as docs/COORDINATOR.md names them: the page's coordinator has the
// name `c`.

const NAMED = /^0x63([0-9a-f]{16}),0x([0-9a-f]{2}),22593$/;
const ROW = /^22593 9 1 0x63([0-9a-f]{16})([0-9a-f]{2})$/;

const found = (match) => match && { number: String(BigInt(`0x${match[1]}`)), store: parseInt(match[2], 16) };

// {number, store} of an identifier in canonical form, or null for another's branch.
export const transactionOf = (xid) => found(NAMED.exec(xid));

// The same of a row of `XA RECOVER CONVERT XID`.
export const transactionInRow = (row) => found(ROW.exec(row));

export const branchText = ({ number, store }) => `transaction ${number}, store ${store}`;
