// A link to what is shown, for the clipboard.
import { el } from "./dom.js";

const SAID = 2500; // milliseconds for which the button says that it is done

async function put(text) {
  if (navigator.clipboard) {
    try {
      return void await navigator.clipboard.writeText(text);
    } catch { /* not allowed here: as a browser does it that has no such clipboard */ }
  }
  const area = el("textarea", { readonly: true });
  area.value = text;
  document.body.append(area);
  area.select();
  const done = document.execCommand("copy");
  area.remove();
  if (!done) throw new Error("the browser doesn't allow it");
}

export async function copy(text, button) {
  const before = button.dataset.says ?? button.textContent;
  button.dataset.says = before;
  const focused = document.activeElement;
  button.replaceChildren(await put(text).then(() => "Copied", () => "Copy the address bar"));
  focused?.focus();
  setTimeout(() => { button.textContent = before; }, SAID);
}
