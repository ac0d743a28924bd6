// A drawing's SVG as PDF: its boxes, curves, arrowheads and names. Names that PDF's own letters lack make it a picture inside.

const ARC = 0.5523; // of a radius, for a curve that is nearly a quarter of a circle

const number = (x) => String(Math.round(x * 100) / 100);

/** The names' letters that PDF's own fonts have. */
const isLatin = (text) => /^[\x20-\x7e\u00a0-\u00ff…]*$/.test(text);

/** @param {SVGSVGElement} svg as `exported` makes it @param {() => Promise<{jpeg: string, width: number, height: number}>} picture */
export async function pdfOf(svg, picture) {
  const [x, y, width, height] = svg.getAttribute("viewBox").split(" ").map(Number);
  const texts = [...svg.querySelectorAll("text")].map((el) => el.textContent);
  if (!texts.every(isLatin)) return withPicture(width, height, await picture());
  const drawing = new Drawing(svg);
  const content = `1 0 0 -1 ${number(-x)} ${number(height + y)} cm\n${drawing.operators.join("\n")}`;
  const states = [...drawing.alphas].map(([alpha, name]) => `/${name} << /ca ${alpha} /CA ${alpha} >>`).join(" ");
  const fonts = Object.entries(FONTS).map(([name, font]) => `/${name} << /Type /Font /Subtype /Type1 /BaseFont /${font} /Encoding /WinAnsiEncoding >>`);
  return file(width, height, content, `/Font << ${fonts.join(" ")} >> /ExtGState << ${states} >>`);
}

const FONTS = { F0: "Helvetica", F1: "Helvetica-Oblique", F2: "Helvetica-Bold" };

function withPicture(width, height, { jpeg, width: w, height: h }) {
  const image = `<< /Type /XObject /Subtype /Image /Width ${w} /Height ${h} /ColorSpace /DeviceRGB /BitsPerComponent 8 `
    + `/Filter /DCTDecode /Length ${jpeg.length} >>\nstream\n${jpeg}\nendstream`;
  return file(width, height, `${number(width)} 0 0 ${number(height)} 0 0 cm /I Do`, "/XObject << /I 5 0 R >>", [image]);
}

/** The bytes of a file with one page. */
function file(width, height, content, resources, more = []) {
  const objects = [
    "<< /Type /Catalog /Pages 2 0 R >>",
    "<< /Type /Pages /Kids [3 0 R] /Count 1 >>",
    `<< /Type /Page /Parent 2 0 R /MediaBox [0 0 ${number(width)} ${number(height)}] /Contents 4 0 R /Resources << ${resources} >> >>`,
    `<< /Length ${content.length} >>\nstream\n${content}\nendstream`, ...more,
  ];
  let text = "%PDF-1.4\n";
  const places = objects.map((object, i) => {
    const at = text.length;
    text += `${i + 1} 0 obj\n${object}\nendobj\n`;
    return at;
  });
  const table = places.map((at) => `${String(at).padStart(10, "0")} 00000 n \n`).join("");
  text += `xref\n0 ${objects.length + 1}\n0000000000 65535 f \n${table}trailer\n<< /Size ${objects.length + 1} /Root 1 0 R >>\n`
    + `startxref\n${text.length}\n%%EOF\n`;
  return Uint8Array.from(text, (c) => c.charCodeAt(0));
}

const ruler = globalThis.document?.createElement("canvas").getContext("2d");

/** Reads the shapes of an SVG, in their order. */
class Drawing {
  operators = [];
  alphas = new Map();

  constructor(svg) {
    this.svg = svg;
    for (const el of svg.querySelectorAll("g path, g rect, g text")) this.#shape(el);
  }

  #shape(el) {
    if (el.getAttribute("opacity") === "0") return;
    const [dx, dy] = offsetOf(el, this.svg), get = (name) => el.getAttribute(name) ?? "";
    this.operators.push("q", `1 0 0 1 ${number(dx)} ${number(dy)} cm`);
    if (el.tagName === "text") this.#text(el, get);
    else if (el.tagName === "rect") this.#paint(roundBox(...["x", "y", "width", "height", "rx"].map((name) => Number(get(name)))), get);
    else this.#path(get);
    this.operators.push("Q");
  }

  #path(get) {
    const d = get("d"), points = (d.match(/-?[\d.]+/g) ?? []).map(Number), curve = /^M([^Q]+)Q/.test(d);
    if (!d) return;
    this.#paint(curve ? quadratic(points) : d.includes("h") ? bar(points) : polygon(points), get);
    if (!curve) return;
    const [x0, y0, cx, cy, x1, y1] = points, width = Number.parseFloat(get("stroke-width"));
    if (get("marker-end")) this.#head(get("marker-end"), x1, y1, x1 - cx, y1 - cy, width);
    if (get("marker-start")) this.#head(get("marker-start"), x0, y0, x0 - cx, y0 - cy, width);
  }

  /** An arrowhead at a point, in a direction. */
  #head(url, x, y, dx, dy, width) {
    const marker = this.svg.querySelector(url.match(/#[\w-]+/)[0]), size = (Number(marker.getAttribute("markerWidth")) * width) / 10;
    const length = Math.hypot(dx, dy) || 1, c = dx / length, s = dy / length;
    const at = (px, py) => [x + size * ((px - 8.5) * c - (py - 5) * s), y + size * ((px - 8.5) * s + (py - 5) * c)];
    const fill = marker.querySelector("path").getAttribute("fill");
    this.#paint(polygon([...at(0, 1), ...at(9, 5), ...at(0, 9)]), (name) => (name === "fill" ? fill : ""));
  }

  #paint(shape, get) {
    const fill = colourOf(get("fill")), stroke = colourOf(get("stroke")), dashes = get("stroke-dasharray").match(/[\d.]+/g);
    const alpha = Number(get("fill-opacity") || 1) * Number(get("opacity") || 1);
    if (!fill && !stroke) return;
    if (alpha < 1) this.operators.push(`/${this.#state(alpha)} gs`);
    if (fill) this.operators.push(`${fill} rg`);
    if (stroke) this.operators.push(`${stroke} RG`, `${number(Number.parseFloat(get("stroke-width")))} w`);
    if (stroke && dashes) this.operators.push(`[${dashes.join(" ")}] 0 d`);
    this.operators.push(`${shape} ${fill && stroke ? "B" : fill ? "f" : "S"}`);
  }

  #state(alpha) {
    if (!this.alphas.has(alpha)) this.alphas.set(alpha, `G${this.alphas.size}`);
    return this.alphas.get(alpha);
  }

  #text(el, get) {
    const size = Number.parseFloat(get("font-size")), isItalic = get("font-style") === "italic";
    ruler.font = `${isItalic ? "italic " : ""}${size}px Helvetica, Arial, "Liberation Sans", "Nimbus Sans", sans-serif`;
    this.operators.push(`${colourOf(get("fill")) ?? "0 0 0"} rg`);
    for (const line of el.children.length ? [...el.children].filter((part) => part.hasAttribute("y")) : [el]) {
      const x = Number(line.getAttribute("x")) - ruler.measureText(line.textContent).width / 2, y = Number(line.getAttribute("y"));
      const text = line.textContent.replaceAll("…", "\x85").replace(/[\\()]/g, "\\$&");
      this.operators.push(`BT /${isItalic ? "F1" : "F0"} ${number(size)} Tf 1 0 0 -1 ${number(x)} ${number(y + 0.35 * size)} Tm (${text}) Tj ET`);
    }
  }
}

/** How far an element is moved by those that it stands in. */
function offsetOf(el, root) {
  let x = 0, y = 0;
  for (let at = el; at && at !== root; at = at.parentNode) {
    const m = /translate\(([-\d.]+)[, ]+([-\d.]+)\)/.exec(at.getAttribute?.("transform") ?? "");
    if (m) [x, y] = [x + Number(m[1]), y + Number(m[2])];
  }
  return [x, y];
}

/** A colour of CSS as three parts; null where nothing is painted. */
function colourOf(css) {
  const parts = /^(rgba?|color)\(/.test(css) ? css.match(/[\d.]+/g).map(Number) : null;
  if (!parts || parts[3] === 0) return null;
  return parts.slice(0, 3).map((part) => number(css.startsWith("color") ? part : part / 255)).join(" ");
}

const polygon = (p) => `${number(p[0])} ${number(p[1])} m ${range(p, 2).map(([x, y]) => `${number(x)} ${number(y)} l`).join(" ")} h`;
const range = (p, from) => Array.from({ length: (p.length - from) / 2 }, (_, i) => [p[from + 2 * i], p[from + 2 * i + 1]]);
const bar = ([x, y, w, h]) => `${number(x)} ${number(y)} ${number(w)} ${number(h)} re`;

function quadratic([x0, y0, cx, cy, x1, y1]) {
  const at = [x0 + (2 / 3) * (cx - x0), y0 + (2 / 3) * (cy - y0), x1 + (2 / 3) * (cx - x1), y1 + (2 / 3) * (cy - y1), x1, y1];
  return `${number(x0)} ${number(y0)} m ${at.map(number).join(" ")} c`;
}

function roundBox(x, y, w, h, rx) {
  const r = Math.min(rx, h / 2, w / 2), k = r * (1 - ARC), [a, b] = [x + w, y + h];
  const curve = (...at) => `${at.map(number).join(" ")} c`, line = (...at) => `${at.map(number).join(" ")} l`;
  return [
    `${number(x + r)} ${number(y)} m`, line(a - r, y), curve(a - k, y, a, y + k, a, y + r), line(a, b - r),
    curve(a, b - k, a - k, b, a - r, b), line(x + r, b), curve(x + k, b, x, b - k, x, b - r), line(x, y + r),
    curve(x, y + k, x + k, y, x + r, y), "h",
  ].join(" ");
}
