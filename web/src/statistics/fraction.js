// The program's numbers as exact fractions, and their digits rounded outwards.

/** @typedef {{top: bigint, bottom: bigint}} Fraction the bottom is above 0 */

/** A number as the program writes it: 26/55, or 0.472727. @returns {Fraction} */
export function fractionOf(text) {
  const [top, bottom] = text.split("/");
  if (bottom) return { top: BigInt(top), bottom: BigInt(bottom) };
  const [whole, digits = ""] = top.split(".");
  return { top: BigInt(whole + digits), bottom: 10n ** BigInt(digits.length) };
}

/** @param {Fraction} p @param {Fraction} q @returns {Fraction} */
export const minus = (p, q) => ({ top: p.top * q.bottom - q.top * p.bottom, bottom: p.bottom * q.bottom });

const PLACES = 4;
const UNIT = 10n ** BigInt(PLACES);

/** @param {bigint} units */
function written(units) {
  const digits = String(units < 0n ? -units : units).padStart(PLACES + 1, "0");
  return `${units < 0n ? "-" : ""}${digits.slice(0, -PLACES)}.${digits.slice(-PLACES)}`;
}

/** Four digits that are no larger. @param {Fraction} number */
export function digitsBelow({ top, bottom }) {
  const units = (top * UNIT) / bottom; // towards 0
  return written(units * bottom > top * UNIT ? units - 1n : units);
}

/** Four digits that are no smaller. @param {Fraction} number */
export function digitsAbove({ top, bottom }) {
  const units = (top * UNIT) / bottom;
  return written(units * bottom < top * UNIT ? units + 1n : units);
}

/** About the number. @param {Fraction} number */
export const nearly = ({ top, bottom }) => Number((top * 10n ** 12n) / bottom) / 1e12;
