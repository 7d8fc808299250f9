// The state of a view in the page's address: #view?name=value&.., each value bytes.

const PLAIN = /[A-Za-z0-9\-._~'(),;:@/!*]/;

function encode(bytes) {
  return Array.from(bytes, (char) => {
    if (char === " ") return "+";
    return PLAIN.test(char) ? char : `%${char.charCodeAt(0).toString(16).padStart(2, "0")}`;
  }).join("");
}

function decode(text) {
  return text.replaceAll("+", " ")
    .replace(/%([0-9A-Fa-f]{2})/g, (_, digits) => String.fromCharCode(parseInt(digits, 16)));
}

export function read(fragment) {
  const [view, rest = ""] = fragment.replace(/^#/, "").split(/\?(.*)/s);
  const found = {};
  for (const part of rest.split("&").filter((it) => it !== "")) {
    const [name, value = ""] = part.split(/=(.*)/s);
    found[name] = decode(value);
  }
  return { view, state: found };
}

// A whole number of a state, or what stands for it where there is none in that range.
export function whole(value, least, most, otherwise) {
  const found = /^\d{1,9}$/.test(value ?? "") ? Number(value) : null;
  return found !== null && found >= least && found <= most ? found : otherwise;
}

// Values that are empty stand for themselves by being left out.
export function write(view, state) {
  const parts = Object.entries(state)
    .filter(([, value]) => value !== "" && value !== null && value !== undefined && value !== false)
    .map(([name, value]) => `${name}=${encode(String(value))}`);
  return parts.length ? `#${view}?${parts.join("&")}` : `#${view}`;
}
