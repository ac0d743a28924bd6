// Admissible sets that contain given vertices, found by the program's test alone: a set that is large enough loses vertices one by
// one, as long as the test says that it stays admissible.
import { DIAGRAM } from "../names.js";
import { listWord } from "../text/printed.js";
import { Ways } from "../ways.js";
import { withRole } from "./parts.js";

const MOST_ORDERS = 8;

/** Admissible sets that contain these vertices, and from which no other vertex can be left out. @param {import("./kind.js").Kind} kind @returns {Promise<string[][]>} */
export async function setsWith(ctx, wanted, kind) {
  const xs = kind.doing, ys = withRole(ctx, "outcome"), test = (set) => isAdmissible(ctx, kind, set);
  const before = await new Ways(ctx.askAbout, ctx.graph).before([...xs, ...ys, ...wanted]);
  const others = ctx.observed.filter((name) => before.has(name) && ![...xs, ...ys, ...wanted].includes(name));
  const allowed = [];
  for (const name of others) if (!(await isForbidden(ctx, kind, name))) allowed.push(name);
  if (!(await test([...wanted, ...allowed]))) return [];
  const found = new Map();
  for (let i = 0; i < Math.min(MOST_ORDERS, Math.max(1, allowed.length)); i++) {
    let kept = [...allowed.slice(i), ...allowed.slice(0, i)];
    for (const name of [...kept]) {
      const less = kept.filter((other) => other !== name);
      if (await test([...wanted, ...less])) kept = less;
    }
    const set = ctx.observed.filter((name) => wanted.includes(name) || kept.includes(name));
    found.set(set.join("\n"), set);
  }
  return [...found.values()];
}

const words = (kind, set) => ["adjust", DIAGRAM, ...kind.words, "--set", listWord(set)];

async function isAdmissible(ctx, kind, set) {
  return (await ctx.read(words(kind, set))).status === 0;
}

/** Whether the criterion excludes a vertex from every set. */
async function isForbidden(ctx, kind, name) {
  return (await ctx.read(words(kind, [name]))).object.forbidden !== undefined;
}
