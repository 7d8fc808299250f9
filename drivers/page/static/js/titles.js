import { fill } from "./dom.js";

// How an example is named where it can be chosen, short enough to be read as a whole, and what it is about.
export function titleOf({ name, title }) {
  const plain = name.replaceAll("_", " ");
  return [plain, title ? `${plain}: ${title}` : plain];
}

// Has a choice say which example is open, if one is: `isOpen` says so of each. What it is about stands in `about`. Who
// is choosing isn't disturbed.
export function follow(select, examples, isOpen, about = null) {
  const at = examples.findIndex(isOpen);
  if (about) fill(about, examples[at]?.title ?? "");
  if (document.activeElement !== select) select.value = at < 0 ? "" : String(at);
}
