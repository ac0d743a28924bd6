import katex from "katex";
import { h } from "./dom.js";
import { annotate, annotatePieces } from "./latex.js";
import { whenSeen } from "./seen.js";

// Typesetting the program's LaTeX.

function render(tex, plain, display) {
  const el = h(display ? "div" : "span");
  const options = {
    displayMode: display, trust: ({ command }) => command === "\\htmlClass", strict: "ignore", throwOnError: true,
    output: "html", // what is typeset carries its text as a label
  };
  try {
    katex.render(tex, el, options);
  } catch {
    katex.render(plain, el, { ...options, throwOnError: false });
  }
  return el;
}

/** Typesets LaTeX of the program. @returns {HTMLElement} */
export const typeset = (tex, display = false) => render(annotate(tex), tex, display);

/** A formula that is too wide for one line, in pieces. The first are typeset at once, the others when they are seen. */
function typesetBroken(tex, printed) {
  const piece = (part, i) => {
    const el = h("span", { class: "piece" });
    const fill = () => {
      el.replaceChildren(render(part, part));
      explainParts(el, printed);
    };
    if (i < AT_ONCE) fill();
    else whenSeen(el, fill, "…");
    return el;
  };
  return h("div", { class: "pieces" }, annotatePieces(tex).map(piece));
}

const AT_ONCE = 12; // pieces
const LONG = 500; // characters of LaTeX that fit in no line
const LEAST_SIZE = 0.68; // of a formula that is made smaller; beyond it scrolls

/** Typesets an equation: it breaks after its sign and between factors, then gets smaller, and last scrolls. */
function typesetLine(line, tex, printed) {
  const sign = tex.indexOf(" = ") + 2, right = tex.slice(sign + 1);
  const broken = () => typesetBroken(right, printed);
  line.replaceChildren(typeset(tex.slice(0, sign), true), right.length > LONG ? broken() : typeset(right, true));
  explainParts(line, printed);
  new ResizeObserver(() => fit(line, broken)).observe(line);
}

/** Called whenever the line's size changes, so also when a piece of it was made. */
function fit(line, broken) {
  const width = line.clientWidth, last = line.lastChild;
  if (!width) return;
  if (last.className !== "pieces" && last.scrollWidth > width) last.replaceWith(broken());
  const parts = line.lastChild.className === "pieces" ? [...line.lastChild.children] : [line.lastChild];
  shrink([line.firstChild, ...parts], width);
}

/** Makes what is wider than its line smaller. All is measured before anything changes. */
function shrink(parts, width) {
  for (const el of parts) if (el.style.fontSize) el.style.fontSize = "";
  const widths = parts.map((el) => el.scrollWidth);
  parts.forEach((el, i) => {
    if (widths[i] > width) el.style.fontSize = `${Math.max(LEAST_SIZE, (0.98 * width) / widths[i])}em`;
  });
}

/** What a formula's coloured parts mean, at the pointer. @param {string[]} printed its lines */
function explainParts(box, printed) {
  for (const el of box.querySelectorAll(".bound")) {
    el.title = "a bound name: it runs over all its values, by the sum to its left";
  }
  for (const el of box.querySelectorAll(".part")) {
    el.title = printed.find((row) => row.startsWith(`${el.textContent.replace(/\W/g, "")} = `)) ?? "";
  }
}

/**
 * The lines of a formula. The first is typeset at once, the others when they are seen.
 * @param {string[]} tex lines of LaTeX @param {string[]} printed the program's text of the same lines
 */
export function formula(tex, printed) {
  return tex.map((line, i) => {
    const el = h("div", { class: "line", role: "math", "aria-label": printed[i] });
    if (i === 0) typesetLine(el, line, printed);
    else whenSeen(el, () => typesetLine(el, line, printed), printed[i]);
    return el;
  });
}

/** A part that is typeset when it is seen. */
export function typesetWhenSeen(tex, text, display = false) {
  const el = h(display ? "div" : "span", { role: "math", "aria-label": text });
  whenSeen(el, () => el.replaceChildren(typeset(tex, display)), text);
  return el;
}
