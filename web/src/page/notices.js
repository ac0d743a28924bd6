import { byId } from "../dom.js";

const SHOWN_MS = 4000;
let ending;

/** Says a sentence for a few seconds. */
export function toast(text) {
  const box = byId("toast");
  box.textContent = text;
  box.classList.add("on");
  clearTimeout(ending);
  ending = setTimeout(() => box.classList.remove("on"), SHOWN_MS);
}

/** Says what the page waits for; an empty text ends it. */
export function hint(text) {
  const box = byId("hint");
  if (box.textContent === text) return;
  box.textContent = text;
  box.classList.toggle("on", Boolean(text));
}
