import { button, h } from "../dom.js";
import { DIAGRAM } from "../names.js";
import { listWord, nameText, pathText, setText } from "../text/printed.js";
import { Ways } from "../ways.js";
import { setsWith } from "./containing.js";
import { chosenKind } from "./kind.js";
import { formulaBox, listed, pathMarks, refused, sourceOf, verdict, withRole } from "./parts.js";

const LIST = ["adjust", DIAGRAM];

/** @param {import("./parts.js").Context} ctx */
async function answer(ctx) {
  const { memory } = ctx, adjusted = withRole(ctx, "adjusted"), kind = await chosenKind(ctx), list = [...LIST, ...kind.words];
  const test = [...list, "--set", listWord(adjusted), ...(memory.backDoor ? ["--back-door"] : [])];
  const [said, tested] = await Promise.all([ctx.read(list), ctx.read(test)]);
  if (said.fault) return refused(ctx, list, said, () => (kind.id === "direct" ? kind.row() : null));
  const sets = bySize(said.object.sets), set = sets.find((other) => isSame(other, memory.set ?? [])) ?? sets[0] ?? null;
  memory.set = set;
  const chosen = set && [...list, "--set", listWord(set)], formula = chosen && (await ctx.read(chosen));
  const { open: path, forbidden } = tested.object, isAdmissible = tested.status === 0;
  const found = {
    ctx, said, list, kind, sets, hasMore: said.object.more, adjusted, test, tested, chosen, formula, path, forbidden,
    isOnTheWay: forbidden && (await new Ways(ctx.askAbout, ctx.graph).leadsToAny(forbidden, withRole(ctx, "outcome"))),
    containing: adjusted.length && tested.status === 1 && !forbidden ? await setsWith(ctx, adjusted, kind) : [],
  };
  const isTestFirst = !sets.length || (adjusted.length && tested.status === 1);
  const isOnTest = memory.shows ? memory.shows === "test" : isTestFirst;
  const isGood = adjusted.length ? isAdmissible : sets.length > 0;
  return {
    dot: isGood ? "yes" : "no", dotWords: adjusted.length ? MARKED_WORDS : undefined, view: () => view(found, isOnTest),
    marks: isOnTest ? testMarks(found) : marksOf(set),
  };
}

const MARKED_WORDS = { yes: "what is marked is admissible", no: "what is marked is not admissible" };

/** The smaller sets first. */
const bySize = (sets) => [...sets].sort((one, other) => one.length - other.length);

const isSame = (one, other) => setText(one) === setText(other);

const marksOf = (set) => ({ vertices: new Map(set.map((name) => [name, "chosen"])) });

function testMarks({ path, forbidden, adjusted }) {
  if (path) return { edges: pathMarks(path), ...marksOf(adjusted) };
  return forbidden ? { vertices: new Map([[forbidden, "bad"]]) } : marksOf(adjusted);
}

/** What is marked is judged first; then the sets. */
function view(found, isOnTest) {
  const { ctx, said, list, kind, chosen, formula, adjusted } = found, isMarked = adjusted.length > 0;
  return h("div", {}, kind.row(),
    isMarked && tested(found, isOnTest),
    isMarked && h("h3", {}, "Minimal sets"),
    setsVerdict(found), requirements(found), chips(found),
    sourceOf(ctx, list, said),
    formula?.status === 0 && formulaBox(formula.object),
    formula && sourceOf(ctx, chosen, formula),
    !isMarked && h("h3", {}, "Without any adjustment"),
    !isMarked && tested(found, isOnTest));
}

function setsVerdict({ sets, hasMore }) {
  if (!sets.length) {
    return verdict("no", "No set meets the adjustment criterion", "There may still be a formula: see Effect.");
  }
  const title = sets.length === 1 ? "One minimal set" : `${sets.length}${hasMore ? " or more" : ""} minimal sets`;
  return verdict("yes", title, !sets[0].length ? "The empty set meets the criterion: nothing has to be adjusted for."
    : sets.length === 1 ? "Adjust for it: it suffices, and nothing can be left out of it."
      : "Adjust for one of them: each suffices, and nothing can be left out of it. The smallest come first.");
}

const MOST_ROWS = 40;

/** Which variables a set must have, or can't have, to be shown. */
function requirements({ ctx, sets }) {
  const { memory } = ctx, names = ctx.observed.filter((name) => sets.some((set) => set.includes(name)));
  if (sets.length < 3) return null;
  const wish = (memory.wish ??= {}), next = { undefined: "must", must: "not", not: undefined };
  const chip = (name) => h("button", {
    type: "button", class: `chip wish ${wish[name] ?? ""}`, data: { key: `wish ${name}` },
    "aria-label": `${name}: ${{ must: "must be in the set", not: "can't be measured" }[wish[name]] ?? "may be in the set"}`,
    onclick: () => {
      wish[name] = next[wish[name]];
      ctx.refresh();
    },
  }, { must: "✓ ", not: "✗ " }[wish[name]] ?? "", name);
  return h("div", { class: "stack" }, h("p", { class: "small-print" }, "Show the sets with (✓) or without (✗) a variable; click once or twice:"),
    h("div", { class: "chips", role: "group", "aria-label": "What the sets must have, or can't" }, names.slice(0, MOST_ROWS).map(chip)));
}

const isWanted = (wish = {}) => (set) => Object.entries(wish).every(([name, how]) => !how || set.includes(name) === (how === "must"));

function chips({ ctx, sets }) {
  const { memory } = ctx;
  if (!sets.length) return null;
  const choose = (set) => {
    memory.set = set;
    memory.shows = "set";
    ctx.refresh();
  };
  const chip = (set) => h("button", {
    type: "button", class: "chip", "aria-pressed": String(set === memory.set), data: { key: `set ${setText(set)}` },
    onclick: () => choose(set), onpointerenter: () => ctx.mark(marksOf(set)), onpointerleave: () => ctx.mark(),
    onfocus: () => ctx.mark(marksOf(set)), onblur: () => ctx.mark(),
  }, set.join(", ") || "∅ (nothing)");
  const shown = sets.length < 3 ? sets : sets.filter(isWanted(memory.wish));
  return h("div", { class: "chips", role: "group", "aria-label": "Minimal adjustment sets" }, shown.length ? shown.map(chip) : "No set is like that.");
}

/** The set that is marked, tested. */
function tested(found, isOnTest) {
  const { ctx, adjusted, chosen, test, tested: said } = found, { memory } = ctx;
  const take = () => ctx.acts.setAdjusted(memory.set);
  const show = () => {
    memory.shows = "test";
    ctx.refresh();
  };
  const byBackDoor = (e) => {
    memory.backDoor = e.target.checked;
    memory.shows = "test";
    ctx.refresh();
  };
  const isTaken = memory.set && isSame(memory.set, ctx.observed.filter((name) => adjusted.includes(name)));
  return h("div", { class: "stack" },
    testVerdict(found),
    h("p", {},
      adjusted.length ? ["Marked adjusted: ", listed(adjusted), ". "] : "No variable is marked adjusted, so this tests the empty set. ",
      chosen && !isTaken && button("Mark the chosen set", take, { data: { key: "take" } })),
    containingPart(found),
    h("label", { class: "tick-box" },
      h("input", { type: "checkbox", checked: memory.backDoor, data: { key: "back-door" }, onchange: byBackDoor }),
      " by the back-door criterion (one exposure)"),
    !isOnTest && !said.fault
      && h("p", {}, button("Show this in the drawing", show, { data: { key: "show test" } })),
    sourceOf(ctx, test, said));
}

/** Sets that contain what is marked, where that alone isn't admissible. */
function containingPart({ ctx, containing, adjusted, tested: said, forbidden }) {
  if (!adjusted.length || said.status !== 1 || forbidden) return null;
  if (!containing.length) return h("p", {}, "No admissible set that contains it was found.");
  const chip = (set) => h("button", {
    type: "button", class: "chip", data: { key: `with ${set}` }, title: "Mark this set",
    onclick: () => ctx.acts.setAdjusted(set), onpointerenter: () => ctx.mark(marksOf(set)), onpointerleave: () => ctx.mark(),
    onfocus: () => ctx.mark(marksOf(set)), onblur: () => ctx.mark(),
  }, set.join(", "));
  return h("div", { class: "stack" },
    h("p", {}, "With what is marked in them these are admissible, and without any one of the others they aren't (each was tested by "
      + "the program). There may be further ones."),
    h("div", { class: "chips", role: "group", "aria-label": "Admissible sets that contain what is marked" }, containing.map(chip)));
}

function testVerdict({ tested: { status, fault }, path, forbidden, isOnTheWay }) {
  if (status === 0) return verdict("yes", "Admissible");
  if (fault) return verdict("ask", fault.sentence);
  return forbidden
    ? verdict("no", "Not admissible", h("b", {}, nameText(forbidden)), isOnTheWay
      ? " lies on the way from the exposure to the outcome: adjusting for it takes away a part of the effect, or biases what is left."
      : " lies behind a variable that is on the way from the exposure to the outcome: adjusting for it biases the effect.")
    : verdict("no", "Not admissible", "This path stays open: ", h("code", {}, pathText(path)));
}

/** @type {import("./parts.js").Card} */
export const adjustment = {
  id: "adjustment", title: "Adjust", about: "What to adjust for, and whether what is marked suffices", hasDot: true, ahead: [LIST], answer,
  dotWords: { yes: "a set is admissible", no: "no set is admissible" },
};
