// Draws of a table with replacement, and intervals of what is computed over them. All of it is computed; nothing is proved.
import { binomial } from "./random.js";

/** As many records as the counts sum to, drawn with replacement: the counts of the draw. */
export function drawn(random, counts) {
  let rest = counts.reduce((sum, count) => sum + count, 0), left = rest;
  return counts.map((count) => {
    const number = count ? binomial(random, left, Math.min(1, count / rest)) : 0;
    left -= number;
    rest -= count;
    return number;
  });
}

/** The value at a part of the ordered values, between two of them in proportion. */
export function percentile(ordered, part) {
  const place = part * (ordered.length - 1), low = Math.floor(place), high = Math.min(low + 1, ordered.length - 1);
  return ordered[low] + (ordered[high] - ordered[low]) * (place - low);
}

/** The percentile interval of the draws that have a value; null where fewer than two have one. */
export function intervalOf(values, level = 0.95) {
  const ordered = values.filter(Number.isFinite).sort((p, q) => p - q), tail = (1 - level) / 2;
  return ordered.length < 2 ? null : [percentile(ordered, tail), percentile(ordered, 1 - tail)];
}

/**
 * From the lower percentile of what something is at least to the upper one of what it is at most; null where fewer than two draws have bounds.
 * @param {[number, number][]} ends both of each draw @returns {[number, number] | null}
 */
export function rangeOf(ends) {
  const [lows, highs] = [0, 1].map((i) => intervalOf(ends.map((end) => end[i])));
  return lows && highs && [lows[0], highs[1]];
}
