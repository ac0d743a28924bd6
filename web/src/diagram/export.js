import { save } from "../dom.js";
import { codeOfR, tikzOf } from "./code.js";
import { pdfOf } from "./pdf.js";

// The drawing as a file of its own, in the colours of paper.

const KEPT = [
  "fill", "fill-opacity", "stroke", "stroke-width", "stroke-dasharray", "stroke-linecap", "opacity", "font-size",
  "font-weight", "font-style", "font-family", "text-anchor",
];
const MARGIN = 16;
const SCALE = 3; // pixels of a picture to one of the drawing
const MOST_PIXELS = 8000;

/** The drawing as an SVG of its own. @param {import("./diagram.js").Diagram} diagram @returns {SVGSVGElement} */
export function exported(diagram) {
  const root = document.documentElement;
  root.classList.add("paper");
  const copy = diagram.element.cloneNode(true);
  carryStyles(diagram.element, copy);
  root.classList.remove("paper");
  for (const el of copy.querySelectorAll(".grip, .ghost, .frame, .rim, .edge.under")) el.remove();
  for (const el of copy.querySelectorAll("*")) {
    for (const name of ["class", "tabindex", "role", "aria-label", "aria-haspopup", "aria-hidden"]) {
      el.removeAttribute(name);
    }
  }
  const { left, right, top, bottom } = diagram.bounds();
  const [x, y] = [left - MARGIN, top - MARGIN], [w, h] = [right - left + 2 * MARGIN, bottom - top + 2 * MARGIN];
  for (const { name } of [...copy.attributes]) copy.removeAttribute(name);
  const attributes = { viewBox: [x, y, w, h].map(Math.round).join(" "), width: Math.round(w), height: Math.round(h) };
  for (const [name, value] of Object.entries(attributes)) copy.setAttribute(name, value);
  copy.querySelector("g").removeAttribute("transform");
  return copy;
}

export const textOf = (svg) => new XMLSerializer().serializeToString(svg);

/** The drawing in pixels. */
async function painted(svg) {
  const image = new Image(), [width, height] = ["width", "height"].map((name) => Number(svg.getAttribute(name)));
  const k = Math.min(SCALE, MOST_PIXELS / Math.max(width, height));
  image.src = `data:image/svg+xml;charset=utf-8,${encodeURIComponent(textOf(svg))}`;
  await image.decode();
  const canvas = document.createElement("canvas"), context = canvas.getContext("2d");
  Object.assign(canvas, { width: Math.ceil(k * width), height: Math.ceil(k * height) });
  context.fillStyle = "#fff";
  context.fillRect(0, 0, canvas.width, canvas.height);
  context.drawImage(image, 0, 0, canvas.width, canvas.height);
  return canvas;
}

async function jpegOf(svg) {
  const canvas = await painted(svg);
  return { jpeg: atob(canvas.toDataURL("image/jpeg", 0.95).split(",")[1]), width: canvas.width, height: canvas.height };
}

function carryStyles(from, to) {
  const copies = to.querySelectorAll("*");
  from.querySelectorAll("*").forEach((el, i) => {
    if (!el.matches("path, rect, text")) return;
    const style = getComputedStyle(el);
    for (const name of KEPT) {
      const value = style.getPropertyValue(name);
      if (el.matches("text") || !/^(font|text)/.test(name)) copies[i].setAttribute(name, value);
    }
  });
}

/**
 * The ways to save a drawing, or the diagram as code.
 * @param {(kind: string) => string} nameOf a file's name, by its ending @returns {{text: string, act: () => void}[]}
 */
export function waysToSave(diagram, text, nameOf) {
  const png = async () => (await painted(exported(diagram))).toBlob((blob) => save(nameOf("png"), blob, "image/png"));
  const pdf = async () => {
    const svg = exported(diagram);
    save(nameOf("pdf"), await pdfOf(svg, () => jpegOf(svg)), "application/pdf");
  };
  return [
    { text: "SVG", act: () => save(nameOf("svg"), textOf(exported(diagram)), "image/svg+xml"), cls: "first" },
    { text: "PNG", act: png },
    { text: "PDF", act: pdf },
    { text: "TikZ, for LaTeX", act: () => save(nameOf("tex"), tikzOf(diagram), "text/plain"), cls: "first" },
    { text: "R code", act: () => save(nameOf("R"), codeOfR(text), "text/plain") },
  ];
}
