// Bytes are strings of the characters U+0000 to U+00FF, one a byte, as the server sends them.

const encoder = new TextEncoder();
const decoder = new TextDecoder("utf-8", { fatal: true, ignoreBOM: true });

// What a reader can't see, or can't distinguish from something else: controls, marks of direction, unassigned ones,
// blanks other than a space.
const UNSEEN = /[\p{C}\p{Zl}\p{Zp}]|(?! )\p{Zs}/u;
const MARK_FIRST = /^\p{M}/u;

export function fromText(text) {
  return Array.from(encoder.encode(text), (byte) => String.fromCharCode(byte)).join("");
}

function toArray(bytes) {
  return Uint8Array.from(bytes, (char) => char.charCodeAt(0));
}

// The text that the bytes are in UTF-8, or null.
export function toText(bytes) {
  try {
    return decoder.decode(toArray(bytes));
  } catch {
    return null;
  }
}

export function toHex(bytes) {
  return Array.from(bytes, (char) => char.charCodeAt(0).toString(16).padStart(2, "0")).join("");
}

// The bytes of a literal in canonical form, 0x6162 or X''.
export function ofCanonical(literal) {
  const digits = literal.startsWith("0x") ? literal.slice(2) : "";
  return (digits.match(/../g) ?? []).map((pair) => String.fromCharCode(parseInt(pair, 16))).join("");
}

// A literal that a statement may have for these bytes: in quotes where all of it can be seen, and else as it is
// printed.
export function asLiteral(canonical) {
  const text = toText(ofCanonical(canonical));
  if (text === null || text === "" || UNSEEN.test(text) || MARK_FIRST.test(text)) return canonical;
  return `'${text.replaceAll("\\", "\\\\").replaceAll("'", "''")}'`;
}

// A statement as the program prints it, with literals as a person would write them.
export const readable = (printed) => printed.replace(/0x[0-9a-f]+/g, asLiteral);

// The same of a reply that is a value, or null where nothing would be another.
export function readableValue(reply) {
  const read = /^VALUE 0x[0-9a-f]+$/.test(reply) ? readable(reply) : reply;
  return read === reply ? null : read;
}

// An identifier in canonical form as a person would write it.
export function asXid(canonical) {
  const [gtrid, bqual, format] = canonical.split(",");
  return [asLiteral(gtrid), asLiteral(bqual), format].join(",");
}

// Bytes as pieces to show in order: {text} for what can be seen, {byte} for each byte that can't.
export function pieces(bytes) {
  const found = [];
  let text = "";
  for (const [chunk, isSeen] of characters(bytes)) {
    if (isSeen) {
      text += chunk;
      continue;
    }
    if (text) found.push({ text });
    text = "";
    for (const byte of chunk) found.push({ byte: toHex(byte) });
  }
  if (text) found.push({ text });
  return found;
}

// Each character of UTF-8, or byte of none, with whether it can be seen.
function* characters(bytes) {
  for (let at = 0; at < bytes.length; ) {
    const first = bytes.charCodeAt(at);
    const length = first < 0x80 ? 1 : first >= 0xf0 ? 4 : first >= 0xe0 ? 3 : 2;
    const chunk = bytes.slice(at, at + length);
    const text = toText(chunk);
    if (text !== null && Array.from(text).length === 1) {
      const seen = !UNSEEN.test(text);
      yield seen ? [text, true] : [chunk, false];
      at += length;
    } else {
      yield [bytes[at], false];
      at += 1;
    }
  }
}

// The lines of a text: an empty piece behind the last line feed is none.
export function linesOf(bytes) {
  const lines = bytes.split("\n");
  if (lines.at(-1) === "") lines.pop();
  return lines;
}

export const isBlank = (line) => /^[ \t\r\n]*$/.test(line);
