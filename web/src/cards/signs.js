// The signs of a formula, in words.
import { h } from "../dom.js";
import { boundIn } from "../objects.js";
import { listed } from "./parts.js";

/** What there is to say of a formula's signs. */
export function notesOn(formula, xs, ys) {
  const { free } = formula, bound = boundIn(formula), parts = formula.definitions.length, notes = [];
  const note = (...text) => notes.push(h("li", {}, ...text));
  if (xs.length) {
    note("P(… | do(…)) is the distribution when the exposure is ", h("i", {}, "set"),
      " from outside, not merely seen.");
  }
  if (bound.length) {
    const isOutside = bound.some((n) => xs.includes(n) || ys.includes(n));
    note(h("span", { class: "key bound" }, "Σ"), " runs over all values of ", listed(bound), ". Where such a "
      + `name stands under its sum (coloured), it is a bound name${isOutside ? ", not the value on the left." : "."}`);
  }
  if (parts) {
    note(h("span", { class: "key part" }, parts > 1 ? `q0 … q${parts - 1}` : "q0"),
      parts > 1 ? " are named parts, each given on its own line." : " is a named part, given on its own line.");
  }
  if (free.length) {
    note(h("span", { class: "key" }, `free ${free.join(", ")}`), " The formula reads ", listed(free),
      ", yet its value doesn't depend on it: take any one level.");
  }
  return notes;
}
