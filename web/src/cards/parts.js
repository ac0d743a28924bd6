// What the cards have in common.

import { button, copyButton, h, save } from "../dom.js";
import { lacksMark } from "../faults.js";
import { formula } from "../formula.js";
import { CERTIFICATE, DIAGRAM } from "../names.js";
import { edgesOf, linesOf } from "../objects.js";
import { formulaTex } from "../paper.js";

/** @typedef {import("../diagram/diagram.js").Marks} Marks  @typedef {import("../objects.js").Said} Said */
/**
 * What a card answers with: whether its tab says yes or no, and in which words where they aren't the card's, its view, and what it shows
 * in the drawing.
 * @typedef {{dot: "yes" | "no" | "", dotWords?: {yes: string, no: string}, view: () => Node, marks?: Marks}} Shown
 */
/**
 * A card asks the program and shows what it answers. `ahead` are the questions that it will ask by the text alone; one that wants variables isn't
 * asked before there are some.
 * @typedef {{id: string, title: string, about: string, hasDot?: boolean, wantsVariables?: boolean, dotWords?: {yes: string, no: string}, ahead?: string[][],
 *   answer: (ctx: Context) => Promise<Shown>}} Card
 */
/**
 * @typedef {object} Context
 * @property {import("../text/printed.js").Graph} graph the accepted one
 * @property {string} text its text
 * @property {string[]} observed the names of vertices that aren't hidden, in their order
 * @property {any} memory what the cards keep between answers
 * @property {(words: string[]) => Promise<import("../runner.js").Answer>} ask asks for an answer as text
 * @property {(words: string[]) => Promise<Said>} read asks for it as an object
 * @property {(words: string[]) => Promise<string>} print asks for what is printed, for a card that is shown
 * @property {(kind: string) => string} nameOf a name for a file of this diagram, by its ending
 * @property {(name: string, text: string) => void} put gives the program a second input
 * @property {(text: string, words: string[]) => Promise<import("../runner.js").Answer>} askAbout asks about another text
 * @property {(message: object) => Promise<any>} compute has the worker compute, beside the program
 * @property {() => boolean} isShown whether no newer question came
 * @property {() => void} refresh shows the card anew, after a choice in it
 * @property {(id: string) => void} show shows another card
 * @property {(marks?: Marks) => void} mark shows something else in the drawing; nothing gives the card's own again
 * @property {(file: File) => void} take takes a table of counts
 * @property {() => import("../page/kept.js").Entry[]} kept the diagrams that the browser keeps
 * @property {(text: string) => Promise<void>} open shows another diagram
 * @property {import("../page/drawing.js").Drawing} drawing
 * @property {import("../page/acts.js").Acts} acts
 * @property {import("../places.js").Places} places
 * @property {{name: string, text: string, columns: string[]}[]} samples tables of counts among the examples
 */

const shellWord = (word) => (/^[\w./,=-]+$/.test(word) ? word : `'${word.replaceAll("'", `'\\''`)}'`);

/** The words as a command line. */
export const commandOf = (words) => ["causal", ...words].map(shellWord).join(" ");

let showsPrinted = false; // when one such text is opened, those of later answers are

/** The command line that gives an answer; behind it, folded, the text that is printed for it, or that is asked for; empty where there is none. */
export function source(words, /** @type {string | (() => Promise<string>)} */ printed) {
  const line = commandOf(words), shown = line.split(" ").map((word, i) => [i ? " " : "", h("span", { class: "word" }, word)]);
  const code = h("code", {}, h("span", { class: "prompt", "aria-hidden": "true" }, "$ "), shown);
  return h("div", { class: "source" }, printed ? foldedText(code, printed) : h("div", { class: "command" }, code), copyButton(line, "command"));
}

function foldedText(code, printed) {
  const box = h("div", { class: "printed" });
  const fill = async () => fillPrinted(box, typeof printed === "string" ? printed : await printed());
  const details = h("details", { open: showsPrinted, ontoggle: () => {
    showsPrinted = details.open;
    if (details.open && !box.childNodes.length) fill();
  } }, h("summary", { class: "command", title: "What the program prints" }, code), box);
  if (details.open) fill();
  return details;
}

function fillPrinted(box, text) {
  box.replaceChildren(h("pre", { tabindex: 0, role: "region", "aria-label": "Printed by the program" }, text.trimEnd()),
    copyButton(text, "answer"));
}

/** The same for an answer: what is printed is asked for when it is shown. A fault is told in a sentence. @param {Said} said */
export const sourceOf = (ctx, words, { fault }) => source(words, fault ? lineOf(fault) : () => ctx.print(words));

const lineOf = ({ number, told }) => (number ? "" : told);

/** @param {"yes" | "no" | "ask" | "warn"} kind */
export const verdict = (kind, title, ...text) =>
  h("div", { class: `verdict ${kind}` }, h("strong", { role: "heading", "aria-level": 2 }, title), text.length ? h("p", {}, ...text) : null);

/** A part that opens; it stays open over later answers, and is filled only when open. */
export function fold({ memory }, key, title, fill) {
  const body = h("div", { class: "body" });
  const details = h("details", { open: memory.open.has(key), ontoggle: () => {
    memory.open[details.open ? "add" : "delete"](key);
    if (details.open && !body.childNodes.length) body.append(fill());
  } }, h("summary", { data: { key } }, title), body);
  if (details.open) body.append(fill());
  return details;
}

export const withRole = ({ graph }, role) => graph.vertices.filter((v) => v.role === role).map((v) => v.name);

/** Names in bold, as a list in a sentence. */
export const listed = (names) =>
  names.map((name, i) => [i ? (i === names.length - 1 ? " and " : ", ") : "", h("b", {}, name)]);

/** What is shown while nothing is drawn yet. */
export const drawFirst = () => verdict("ask", "Draw your variables", "Double-click the drawing, or press + Variable. Then mark exposure and outcome.");

/** What is shown where the program refuses the question, above it the choices that led to it, and what to do. @param {Context} ctx @param {Said} said */
export function refused({ graph }, words, { fault }, choices = () => null, toDo = "") {
  const isEmpty = !graph.vertices.length && lacksMark(fault), help = "Click a variable, and choose Exposure or Outcome (or focus it and press e or o).";
  const told = isEmpty ? drawFirst()
    : verdict("ask", fault.sentence, ...(lacksMark(fault) ? [help] : toDo ? [toDo] : []));
  return { dot: "", view: () => h("div", {}, choices(), told, source(words, lineOf(fault))) };
}

/** @param {import("../objects.js").Path} path */
export const pathMarks = (path) => edgesOf(path).map((e) => ({ ...e, cls: "open" }));

/**
 * A formula with its ways out: its LaTeX, and a larger view; and beside them the choice of its form, where there is one.
 * @param {any} object the program's, with `latex` and the trees @param {Node | null} choice @param {string} copied its LaTeX for a paper
 */
export function formulaBox(object, choice = null, copied = formulaTex(object)) {
  const tex = object.latex.split("\n"), printed = linesOf(object);
  const enlarge = () => {
    const close = h("form", { method: "dialog" }, h("button", { class: "small" }, "Close"));
    const box = h("dialog", { class: "large", "aria-label": "Formula", onclose: () => box.remove() }, close,
      h("div", { class: "formula", tabindex: 0 }, formula(tex, printed)));
    document.body.append(box);
    box.showModal();
  };
  return h("div", {}, h("div", { class: "formula" }, formula(tex, printed)),
    h("div", { class: "row end" }, choice, copyButton(copied, "LaTeX", "Copy LaTeX"), button("Enlarge", enlarge)));
}

/** Saving the certificate of the answer to these words, and having it checked. */
export function certificateRow(ctx, asked) {
  const result = h("div", { class: "checked", role: "status" });
  const certificate = async () => (await ctx.ask([...asked, "--certificate"])).out;
  const check = async () => {
    ctx.put(CERTIFICATE, await certificate());
    const words = ["check", DIAGRAM, CERTIFICATE], { status, out, err } = await ctx.ask(words);
    result.replaceChildren(verdict(status === 0 ? "yes" : "no", (out + err).trim()), source(words, ""));
  };
  const keep = async () => save(ctx.nameOf("certificate.json"), await certificate(), "application/json");
  return h("div", { class: "certificate" },
    h("button", { type: "button", class: "primary", id: "save", onclick: keep }, "Save certificate"),
    h("button", { type: "button", id: "check", onclick: check }, "Check it"), result);
}
