// Formulas and texts for a paper: LaTeX that compiles by itself, with amsmath, and looks as the page does.
import { latex, parse } from "./expression.js";

const SIGNS = {
  "\\": "\\textbackslash{}", "^": "\\textasciicircum{}", "~": "\\textasciitilde{}", "<": "\\textless{}", ">": "\\textgreater{}", "|": "\\textbar{}",
  "→": "$\\rightarrow$", "←": "$\\leftarrow$", "↔": "$\\leftrightarrow$", "∅": "$\\emptyset$", "²": "$^2$", "−": "$-$", "Σ": "$\\Sigma$", "…": "\\ldots{}",
};

/** A text outside of formulas. */
export const textTex = (text) => text.replace(/[\\_#&$%{}^~<>|→←↔∅²−Σ…]/g, (sign) => SIGNS[sign] ?? `\\${sign}`);

/** A name in a formula: a letter as it is, any other as text; its primes behind it. */
export function nameTex(name) {
  const [, plain, primes] = /^(.+?)('*)$/.exec(name);
  return (/^[A-Za-z]$/.test(plain) ? plain : `\\text{${textTex(plain)}}`) + primes;
}

/** An expression with its names as text. @param {import("./expression.js").Expr} expression */
export const exprTex = (expression) => latex(expression, nameTex);

/**
 * The lines of a formula, its equation first.
 * @param {any} formula an object of the program with `x`, `y`, `tree` and `definition_trees`; of the treated with `observed` @returns {string[]}
 */
export function formulaLines({ y, x, given = [], observed = [], tree, definition_trees: parts }) {
  return [`${exprTex({ term: y, do: x, given: [...given, ...observed] })} = ${exprTex(tree)}`, ...parts.map((part, i) => `q_{${i}} = ${exprTex(part)}`)];
}

/** The same as one formula. */
export const formulaTex = (formula) => aligned(formulaLines(formula));

function aligned(lines) {
  if (lines.length === 1) return lines[0];
  return `\\begin{aligned}\n${lines.map((line) => line.replace(" = ", " &= ")).join(" \\\\\n")}\n\\end{aligned}`;
}

/** The lines of the formula of a natural effect, and behind it of the factors that stand there as effects, with their parts. @param {any} object of `natural` */
export function naturalLines({ y, x, through, second, given, formula, factors }) {
  const list = (names) => names.map(nameTex).join(", "), group = (names) => `{${list(names)}}`, line = (left, right) => `${left} = ${exprTex(right)}`;
  const effect = `P(${group(y)}_{${group(x)}, ${group(through)}_{${list(second)}}}${given.length ? ` \\mid ${list(given)}` : ""})`;
  const named = factors.filter(({ definitions }) => definitions.length);
  return [line(effect, parse(formula)), ...named.flatMap((one) => [line(exprTex(parse(one.effect)), one.tree), ...one.definition_trees.map((part, i) => line(`q_{${i}}`, part))])];
}

/** The same as one formula. */
export const naturalTex = (object) => aligned(naturalLines(object));
