import { h } from "../dom.js";
import { ruleGraphOf } from "../objects.js";
import { lostEdges } from "../steps.js";
import { pathText } from "../text/printed.js";
import { inGraph, ruleMarks, ruleWords } from "./derivation.js";
import { pathMarks, sourceOf, verdict, withRole } from "./parts.js";
import { chosenSet, howToChoose } from "./sets.js";

const RULES = [
  "1: leave z out of what is observed", "2: observe z in place of setting it", "3: leave z out of what is set",
];

/** @param {import("./parts.js").Context} ctx */
async function answer(ctx) {
  const n = (ctx.memory.rule ??= 2);
  const y = chosenSet(ctx, "rule y", "y", withRole(ctx, "outcome"));
  const z = chosenSet(ctx, "rule z", "z", withRole(ctx, "exposure"));
  const doing = chosenSet(ctx, "rule do", "do", []), given = chosenSet(ctx, "rule given", "given", []);
  const rule = { n, y: y.names, z: z.names, doing: doing.names, given: given.names };
  const words = ruleWords(rule), said = await ctx.read(words), graph = said.fault ? null : ruleGraphOf(ctx.observed, said.object.graph);
  const { open: path } = said.object, where = graph ? inGraph(await lostEdges(ctx, graph)) : "";
  const choose = (e) => {
    ctx.memory.rule = Number(e.target.value);
    ctx.refresh();
  };
  return {
    dot: "",
    marks: { ...ruleMarks(rule, graph), edges: path ? pathMarks(path) : [] },
    view: () => h("div", {},
      h("label", { class: "picker" }, h("span", { class: "arm" }, "Rule"),
        h("select", { data: { key: "rule number" }, onchange: choose },
          RULES.map((text, i) => h("option", { value: i + 1, selected: i + 1 === n }, text)))),
      h("div", { class: "pickers" }, [y, z, doing, given].map((set) => set.row())), howToChoose(),
      judged(said, where, rule), sourceOf(ctx, words, said)),
  };
}

function judged({ status, object, fault }, where, { y }) {
  if (!y.length) return verdict("ask", "Choose y, or mark an outcome");
  if (fault) return verdict("ask", fault.sentence);
  if (status === 1) {
    return verdict("no", "The rule doesn't apply", "It doesn't give ", equationOf(object), `, since this path is open ${where}: `,
      h("code", {}, pathText(object.open)));
  }
  return verdict("yes", "The rule applies", equationOf(object),
    `, if the diagram is right: no path is open ${where}.`);
}

const equationOf = ({ left, right }) => h("code", {}, `${left} = ${right}`);

/** @type {import("./parts.js").Card} */
export const rules = { id: "rules", title: "Rules", wantsVariables: true, about: "The three rules of do-calculus, one by one", answer };
