// A report as one HTML file, which prints and which text processors read, and as LaTeX.
import katex from "katex";
import { tikzOf } from "../diagram/code.js";
import { exported, textOf } from "../diagram/export.js";
import { textTex } from "../paper.js";

/** @typedef {import("./gather.js").Report} Report  @typedef {import("./gather.js").Part} Part */

const escaped = (text) => text.replace(/[&<>"]/g, (sign) => ({ "&": "&amp;", "<": "&lt;", ">": "&gt;", '"': "&quot;" })[sign]);

const mathml = (tex) => katex.renderToString(tex, { displayMode: true, output: "mathml", throwOnError: false });

const STYLE = `body{font:11pt/1.5 Georgia,"Times New Roman",serif;max-width:46em;margin:2em auto;padding:0 1em;color:#111}
h1,h2{font-family:system-ui,sans-serif;line-height:1.2}h1{font-size:1.6em}h2{font-size:1.15em;margin:1.6em 0 .4em;break-after:avoid}
svg{max-width:100%;height:auto}table{border-collapse:collapse;margin:.6em 0;font-size:.95em}th,td{text-align:left;padding:.2em 1em .2em 0;border-bottom:1px solid #ccc;vertical-align:top}
pre{font-size:.85em;white-space:pre-wrap;background:#f4f4f2;padding:.5em .8em}.formula{overflow-x:auto;margin:.6em 0}li{break-inside:avoid}
table,svg,.formula{break-inside:avoid}footer{margin-top:2.5em;font-size:.85em;color:#555}@media print{body{margin:0;max-width:none}pre{background:none;border:1px solid #ccc}}`;

/** @param {Report} report @param {import("../diagram/diagram.js").Diagram} diagram */
export function htmlOf({ title, sections }, diagram) {
  const cells = (row, tag) => row.map((text) => `<${tag}>${escaped(text)}</${tag}>`).join("");
  const part = (p) => {
    if (p.picture) return textOf(exported(diagram));
    if (p.text !== undefined) return `<p>${escaped(p.text)}</p>`;
    if (p.formula) return p.formula.map((tex) => `<div class="formula">${mathml(tex)}</div>`).join("");
    if (p.list) return `<ul>${p.list.map((text) => `<li>${escaped(text)}</li>`).join("")}</ul>`;
    if (p.steps) return `<ol>${p.steps.map(({ words, tex }) => `<li>${escaped(words)}<div class="formula">${mathml(tex)}</div></li>`).join("")}</ol>`;
    if (p.table) {
      return `<table><thead><tr>${cells(p.table.head, "th")}</tr></thead><tbody>${p.table.rows.map((row) => `<tr>${cells(row, "td")}</tr>`).join("")}</tbody></table>`;
    }
    return `<pre>${escaped(p.code)}</pre>`;
  };
  const body = sections.map((section) => `<section><h2>${escaped(section.title)}</h2>${section.parts.map(part).join("\n")}</section>`);
  return `<!doctype html>\n<html lang="en"><head><meta charset="utf-8"><title>${escaped(title)}</title><style>${STYLE}</style></head><body>
<h1>${escaped(title)}</h1>\n${body.join("\n")}\n<footer>${escaped(FOOT)}</footer>\n</body></html>\n`;
}

const FOOT = "Made by causal. Formulas, sets and derivations are those of a proved program; anyone can ask it again by the commands that are shown. "
  + "Whether the diagram is true of the world isn't decided by it.";

/** @param {Report} report @param {import("../diagram/diagram.js").Diagram} diagram */
export function latexOf({ title, sections }, diagram) {
  const row = (list) => `${list.map(textTex).join(" & ")} \\\\`;
  const part = (p) => {
    if (p.picture) return `\\begin{center}\\resizebox{\\ifdim\\width>\\textwidth\\textwidth\\else\\width\\fi}{!}{%\n${tikzOf(diagram)}}\\end{center}`;
    if (p.text !== undefined) return `${textTex(p.text)}\n`;
    if (p.formula) return `\\begin{align*}\n${p.formula.map((tex) => `  ${tex.replace(" = ", " &= ")}`).join(" \\\\\n")}\n\\end{align*}`;
    if (p.list) return p.list.length ? `\\begin{itemize}\n${p.list.map((text) => `\\item ${textTex(text)}`).join("\n")}\n\\end{itemize}` : "";
    if (p.steps) return `\\begin{enumerate}\n${p.steps.map(({ words, tex }) => `\\item ${textTex(words)}\n  \\begin{multline*} ${tex.replace(" = ", " \\\\ = ")} \\end{multline*}`).join("\n")}\n\\end{enumerate}`;
    if (p.table) {
      const [first, ...rest] = p.table.head.map(() => "l");
      return `\\begin{longtable}{p{0.38\\textwidth}${first ? rest.join("") : ""}}\n\\toprule\n${row(p.table.head)}\n\\midrule\n${p.table.rows.map(row).join("\n")}\n\\bottomrule\n\\end{longtable}`;
    }
    return `\\begin{verbatim}\n${p.code}\n\\end{verbatim}`;
  };
  const body = sections.map((section) => `\\section*{${textTex(section.title)}}\n${section.parts.map(part).join("\n\n")}`);
  return `\\documentclass[11pt]{article}
\\usepackage[T1]{fontenc}
\\usepackage{amsmath,booktabs,longtable,graphicx,tikz}
\\usepackage[margin=25mm]{geometry}
\\usetikzlibrary{arrows.meta}
\\begin{document}
\\section*{\\LARGE ${textTex(title)}}
${body.join("\n\n")}

\\bigskip\\noindent{\\small ${textTex(FOOT)}}
\\end{document}
`;
}
