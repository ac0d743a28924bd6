// In which form a formula is shown and evaluated: a short one, or the full one that the identification algorithm builds.
import { h } from "../dom.js";
import { linesOf } from "../objects.js";

const SHORT = "--short";

/** What a card will ask by the text alone that shows the formula of these words. */
export const askedAhead = (words) => [words, [...words, SHORT]];

/**
 * The form that is chosen of a formula: what was said, the words for it, and what these have more than the procedure's; and where the
 * two forms differ, the choice, with a sentence about it.
 * @typedef {{said: import("../objects.js").Said, words: string[], more: string[], choice: () => Node | null, note: string | null}} Form
 */

/** The form that is chosen of the formula that these words ask for. @param {import("./parts.js").Context} ctx @returns {Promise<Form>} */
export async function chosenForm(ctx, words) {
  const [said, short] = await Promise.all([ctx.read(words), ctx.read([...words, SHORT])]);
  const isShorter = short.status === 0 && (said.status !== 0 || !isSame(short.object, said.object));
  const more = isShorter && !ctx.memory.procedure ? [SHORT] : [];
  return {
    said: more.length ? short : said, words: [...words, ...more], more,
    choice: () => (isShorter ? tickBox(ctx) : null), note: isShorter ? noteOn(more) : null,
  };
}

const isSame = (one, other) => linesOf(one).join("\n") === linesOf(other).join("\n");

function tickBox(ctx) {
  const { memory } = ctx;
  const choose = (e) => {
    memory.procedure = e.target.checked;
    ctx.refresh();
  };
  return h("label", { class: "tick-box" },
    h("input", { type: "checkbox", id: "procedure", checked: memory.procedure, data: { key: "procedure" }, onchange: choose }),
    " the full formula, built step by step");
}

const noteOn = (more) => (more.length ? "A short formula (--short), which is no longer than the one that the identification algorithm builds step by step from the diagram. "
  : "The formula that the identification algorithm builds step by step from the diagram; there is a short one that is no longer. ")
  + "Both equal the effect; over a sample their values may differ.";
