// Which effect is asked for: the total one; a direct one, in which variables on the way are set too; the effect among the treated; or the
// natural effects, what goes through mediators and what goes past them.
import { button, h } from "../dom.js";
import { listWord } from "../text/printed.js";
import { Ways } from "../ways.js";
import { withRole } from "./parts.js";
import { chosenSet, howToChoose } from "./sets.js";

const KEY = "also set";
const THROUGH = "through"; // the mediators of natural effects
const TITLES = { total: "Total effect", direct: "Direct effect", treated: "Among the treated", through: "Through mediators" };

/** The kinds for which adjustment sets are asked. */
const USUAL = ["total", "direct"];
export const ALL_KINDS = [...USUAL, "treated", "through"];

/**
 * The kind that is chosen: all that is set, the mediators, the words that say what is set, and the choice at the top of a card.
 * @typedef {{id: "total" | "direct" | "treated" | "through", isDirect: boolean, doing: string[], also: string[], through: string[], words: string[], row: () => Node}} Kind
 */

/** @param {import("./parts.js").Context} ctx @param {string[]} kinds those that may be chosen here @returns {Promise<Kind>} */
export async function chosenKind(ctx, kinds = USUAL) {
  const { memory } = ctx, xs = withRole(ctx, "exposure"), id = kinds.includes(memory.kind) ? memory.kind : "total", wantsMore = id === "direct";
  if (wantsMore && memory.sets[KEY] === undefined) memory.sets[KEY] = await onTheWay(ctx);
  if (id === THROUGH && memory.sets[THROUGH] === undefined) memory.sets[THROUGH] = await onTheWay(ctx);
  const also = chosenSet(ctx, KEY, "Also set", []), names = wantsMore ? also.names.filter((name) => !xs.includes(name)) : [];
  const doing = [...xs, ...names], isDirect = names.length > 0, through = chosenSet(withoutAsked(ctx), THROUGH, "Through", []);
  return {
    id, isDirect, doing, also: names, through: id === THROUGH ? through.names : [], words: isDirect ? ["--x", listWord(doing)] : [],
    row: () => row(ctx, kinds, id, { also, through }),
  };
}

/** The same context, in which neither exposure, outcome nor what is given can be taken. */
function withoutAsked(ctx) {
  const asked = new Set([...withRole(ctx, "exposure"), ...withRole(ctx, "outcome"), ...(ctx.memory.sets.condition ?? [])]);
  return { ...ctx, observed: ctx.observed.filter((name) => !asked.has(name)) };
}

/** The measured variables on directed ways from exposure to outcome. */
async function onTheWay(ctx) {
  const between = await new Ways(ctx.askAbout, ctx.graph).between(withRole(ctx, "exposure"), withRole(ctx, "outcome"));
  return ctx.observed.filter((name) => between.includes(name));
}

function row(ctx, kinds, now, { also, through }) {
  const { memory } = ctx;
  const choice = (id) => h("button", {
    type: "button", role: "radio", "aria-checked": String(id === now), data: { key: id },
    onclick: () => {
      Object.assign(memory, { kind: id, armed: null });
      if (id !== "direct") delete memory.sets[KEY];
      if (id !== THROUGH) delete memory.sets[THROUGH];
      ctx.refresh();
    },
  }, TITLES[id]);
  const again = (key) => async () => {
    memory.sets[key] = await onTheWay(ctx);
    ctx.refresh();
  };
  const picked = (key, set, about) => h("div", { class: "stack" }, h("div", { class: "pickers" }, set.row()),
    h("p", { class: "small-print" }, about, button("Take what is on the way", again(key), { data: { key: "take mediators" } })), howToChoose());
  return h("div", { class: "kind" },
    h("div", { class: "segments", role: "radiogroup", "aria-label": "Which effect" }, kinds.map(choice)),
    now === "direct" && picked(KEY, also, "These are set as well (the controlled direct effect: what doesn't go through them). "),
    now === THROUGH && picked(THROUGH, through, "The mediators: the indirect effect is what goes through them, and the direct effect what goes past all of them. "));
}
