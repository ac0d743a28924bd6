import { adjustment } from "./adjustment.js";
import { compare } from "./compare.js";
import { data } from "./data.js";
import { effect } from "./effect.js";
import { experiments } from "./experiments.js";
import { implications } from "./implications.js";
import { paths } from "./paths.js";
import { rules } from "./rules.js";
import { separation } from "./separation.js";
import { views } from "./views.js";

/**
 * The cards in the order of their tabs. A further command of the program is a further card here.
 * @type {import("./parts.js").Card[]}
 */
export const CARDS = [adjustment, effect, paths, separation, rules, implications, experiments, data, compare, views];
