// Expressions: trees as the program's objects have them, and reading those of natural effects, which it tells as text alone.
import { nameText } from "./text/printed.js";

/**
 * @typedef {{term: string[], do: string[], given: string[]}} Term
 * @typedef {Term | {sum: string[], of: Expr} | {product: Expr[]} | {quotient: [Expr, Expr]} | {definition: number}} Expr
 */

const childrenOf = (/** @type {Expr} */ e) => (e.sum ? [e.of] : e.product ?? e.quotient ?? []);

/** The nodes of an expression as the program numbers them, a parent before its parts. @param {Expr} e @returns {Expr[]} */
export const nodesOf = (e) => [e, ...childrenOf(e).flatMap(nodesOf)];

/** The part of an expression at a path of children. @param {number[]} path @returns {Expr} */
export const partAt = (e, path) => path.reduce((x, i) => childrenOf(x)[i], e);

/** A name as the program writes it in LaTeX. */
function escape(name) {
  const named = { "\\": "\\textbackslash{}", "^": "\\^{}", "~": "\\~{}" };
  return nameText(name).replace(/[\\_#&$%{}^~]/g, (c) => named[c] ?? `\\${c}`);
}

/** An expression in LaTeX. @param {Expr} e @param {(name: string) => string} [named] how a name is written */
export function latex(e, named = escape) {
  const names = (list) => list.map(named).join(", "), inner = (x) => latex(x, named);
  const wrap = (x) => (x.sum || x.product || x.quotient ? `\\left( ${inner(x)} \\right)` : inner(x));
  if (e.term) {
    const conditions = [...(e.do.length ? [`\\mathrm{do}(${names(e.do)})`] : []), ...e.given.map(named)];
    return `P(${names(e.term)}${conditions.length ? ` \\mid ${conditions.join(", ")}` : ""})`;
  }
  if (e.sum) return `\\sum_{${names(e.sum)}} ${inner(e.of)}`;
  if (e.product) return e.product.map(wrap).join(" ");
  if (e.quotient) return `\\frac{${inner(e.quotient[0])}}{${inner(e.quotient[1])}}`;
  return `q_{${e.definition}}`;
}

/** Reads an expression as the program prints it. */
class Reader {
  #at = 0;

  constructor(text) {
    this.tokens = text.match(/"[^"]*"|[{}(),|*/]|[^\s{}(),|*/"]+/g);
  }

  #names() {
    const { tokens } = this, list = [];
    for (; !/^[)}|]$/.test(tokens[this.#at]) && tokens[this.#at + 1] !== "("; this.#at++) {
      if (tokens[this.#at] !== ",") list.push(tokens[this.#at].replaceAll('"', ""));
    }
    return list;
  }

  #operand() {
    const { tokens } = this;
    if (tokens[this.#at] === "(") {
      this.#at++;
      const inner = this.expression();
      this.#at++;
      return inner;
    }
    if (tokens[this.#at + 1] !== "(") return { definition: Number(tokens[this.#at++].slice(1)) };
    this.#at += 2;
    const term = { term: this.#names(), do: [], given: [] };
    if (tokens[this.#at] === "|") {
      this.#at++;
      if (tokens[this.#at + 1] === "(") {
        this.#at += 2;
        term.do = this.#names();
        this.#at++;
      }
      term.given = this.#names();
    }
    this.#at++;
    return term;
  }

  expression() {
    const { tokens } = this;
    if (tokens[this.#at] === "sum" && tokens[this.#at + 1] === "{") {
      this.#at += 2;
      const over = this.#names();
      this.#at++;
      return { sum: over, of: this.expression() };
    }
    const list = [this.#operand()];
    if (tokens[this.#at] === "/") {
      this.#at++;
      return { quotient: [list[0], this.#operand()] };
    }
    while (tokens[this.#at] === "*") {
      this.#at++;
      list.push(this.#operand());
    }
    return list.length > 1 ? { product: list } : list[0];
  }
}

/** @returns {Expr} */
export const parse = (text) => new Reader(text).expression();
