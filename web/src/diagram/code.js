// A diagram as code: TikZ for LaTeX, and R.
import { linesOf } from "./geometry.js";

const UNIT = 50; // pixels to a centimetre

const special = { "\\": "\\textbackslash{}", "^": "\\^{}", "~": "\\~{}" };
const latex = (name) => name.replace(/[\\_#&$%{}^~]/g, (c) => special[c] ?? `\\${c}`);
const number = (x) => String(Math.round(x * 100) / 100 || 0);

const HEAD = `% needs \\usepackage{tikz} and \\usetikzlibrary{arrows.meta}
\\begin{tikzpicture}[
  >={Stealth[length=6pt]}, semithick,
  vertex/.style={draw=black!55, fill=black!4, rounded corners=9pt, minimum height=18pt, inner xsep=8pt, align=center},
  exposure/.style={vertex, draw=green!50!black, fill=green!15},
  outcome/.style={vertex, draw=blue!60!black, fill=blue!10},
  adjusted/.style={vertex, draw=black, fill=white, very thick},
  latent/.style={vertex, dashed, fill=black!8, font=\\itshape}]`;

/** The lines of a name, which isn't cut short here. */
const linesIn = (name) => (linesOf(name).join("") === name ? linesOf(name).map((line) => line.trimEnd()) : [name]);

/** @param {import("./diagram.js").Diagram} diagram */
export function tikzOf(diagram) {
  const { graph, places } = diagram, ids = new Map(graph.vertices.map((v, i) => [v.name, `v${i + 1}`]));
  const at = ({ x, y }) => `(${number(x / UNIT)},${number(-y / UNIT)})`;
  const vertices = graph.vertices.filter((v) => places.has(v.name)).map((v) =>
    `  \\node[${v.role ?? "vertex"}] (${ids.get(v.name)}) at ${at(places.get(v.name))} {${linesIn(v.name).map(latex).join(" \\\\ ")}};`);
  const edges = graph.edges.filter((e) => places.has(e.a) && places.has(e.b)).map((e) => {
    const { from, to, bend } = diagram.curveOf(e), control = (p) => ({ x: p.x + (2 / 3) * (bend.x - p.x), y: p.y + (2 / 3) * (bend.y - p.y) });
    const isStraight = !bend || Math.hypot(bend.x - (from.x + to.x) / 2, bend.y - (from.y + to.y) / 2) < 1;
    const way = isStraight ? "--" : `.. controls ${at(control(from))} and ${at(control(to))} ..`;
    return `  \\draw[${e.both ? "<->, dashed" : "->"}] (${ids.get(e.a)}) ${way} (${ids.get(e.b)});`;
  });
  return [HEAD, ...vertices, ...edges, "\\end{tikzpicture}", ""].join("\n");
}

/** Code of R for the package causal; DAGitty's package reads the same text. */
export function codeOfR(text) {
  let dashes = "";
  while (text.includes(`)${dashes}"`)) dashes += "-";
  return [
    `text <- r"${dashes}(${text.trimEnd()})${dashes}"`, "", "library(causal)", "diagram <- causal_diagram(text)", "plot(diagram)",
    "identify_effect(diagram)", "adjustment_sets(diagram)", "", "# The package dagitty reads the same text: dagitty::dagitty(text)", "",
  ].join("\n");
}
