// The picture of a record: the server makes its SVG, which is shown as it is and saved as it is. The narrow one is
// shown on a telephone, where it is never wider than the screen, and on a projector that has no room for the lanes.
import { bringIntoView, el, fill } from "./dom.js";
import { isProjected } from "./projector.js";

const UNITS = 16; // of the picture for the height of the page's letters
const PROJECTED = 11; // and on a projector, where its smallest letters are as high as those
const BELOW = 120; // pixels that are seen below the mark
const BESIDE = 24; // and beside it
const TELEPHONE = "(max-width: 40rem)"; // as the style sheets have it

// Its style stands in a style sheet of the page's own.
function read(svg) {
  const [head, , rest] = svg.split(/<\/?style>/);
  return document.importNode(new DOMParser().parseFromString(head + rest, "image/svg+xml").documentElement, true);
}

export function drawInto(room, { picture, narrow }) {
  const units = isProjected() ? PROJECTED : UNITS;
  const letter = parseFloat(getComputedStyle(document.documentElement).fontSize);
  const usual = read(picture);
  const fits = Number(usual.getAttribute("width")) / units * letter <= room.clientWidth;
  const isNarrow = matchMedia(TELEPHONE).matches || (isProjected() && !fits);
  const made = isNarrow ? read(narrow) : usual;
  room.classList.toggle("narrow", isNarrow);
  for (const side of ["width", "height"]) made.setAttribute(side, `${Number(made.getAttribute(side)) / units}rem`);
  fill(room, made);
  room.scrollTo(0, 0);
  const marked = room.querySelector(".marked");
  if (!marked) return;
  bringIntoView(room, marked, BELOW);
  room.scrollLeft = Math.max(0, marked.getBoundingClientRect().right - room.getBoundingClientRect().right + BESIDE);
}

export function save(svg) {
  const address = URL.createObjectURL(new Blob([svg], { type: "image/svg+xml" }));
  el("a", { href: address, download: "record.svg" }).click();
  setTimeout(() => URL.revokeObjectURL(address), 10_000);
}
