// Pseudorandom numbers, and numbers of successes drawn with them.

/** A generator of numbers from 0 up to 1, which begins with a seed (the algorithm sfc32). @returns {() => number} */
export function generator(seed) {
  let a = 0x9e3779b9, b = 0x243f6a88, c = seed | 0, counter = 1;
  const next = () => {
    const t = (((a + b) | 0) + counter) | 0;
    counter = (counter + 1) | 0;
    a = b ^ (b >>> 9);
    b = (c + (c << 3)) | 0;
    c = (c << 21) | (c >>> 11);
    c = (c + t) | 0;
    return t >>> 0;
  };
  for (let i = 0; i < 16; i++) next();
  return () => ((next() >>> 5) * 2 ** 26 + (next() >>> 6)) / 2 ** 53;
}

/** The logarithm of the gamma function, by Stirling's series. */
export function logGamma(x) {
  let shift = 0;
  for (; x < 12; x++) shift -= Math.log(x);
  const y = 1 / (x * x), series = (1 / 12 - y * (1 / 360 - y * (1 / 1260 - y / 1680))) / x;
  return shift + (x - 0.5) * Math.log(x) - x + 0.5 * Math.log(2 * Math.PI) + series;
}

export const logChoose = (n, k) => logGamma(n + 1) - logGamma(k + 1) - logGamma(n - k + 1);

/** A draw of the gamma distribution with a shape of 1 at least (Marsaglia and Tsang). */
function gamma(random, shape) {
  const d = shape - 1 / 3, c = 1 / Math.sqrt(9 * d);
  for (;;) {
    const normal = Math.sqrt(-2 * Math.log(1 - random())) * Math.cos(2 * Math.PI * random());
    const v = (1 + c * normal) ** 3;
    if (v > 0 && Math.log(1 - random()) < 0.5 * normal * normal + d - d * v + d * Math.log(v)) return d * v;
  }
}

const WIDE = 400; // a variance from which the middle one of the trials is drawn first

/** A draw of how many of n trials succeed, each with probability p. */
export function binomial(random, n, p) {
  let successes = 0;
  while (p > 0 && p < 1 && n * p * (1 - p) > WIDE) {
    const below = Math.floor(n / 2) + 1, left = gamma(random, below), middle = left / (left + gamma(random, n + 1 - below));
    if (middle <= p) {
      successes += below;
      n -= below;
      p = middle < 1 ? (p - middle) / (1 - middle) : 1;
    } else {
      n = below - 1;
      p /= middle;
    }
  }
  if (p <= 0 || n === 0) return successes;
  return successes + (p >= 1 ? n : nearMode(random(), n, p));
}

/** The number of successes that a uniform number stands for: it is used up by the probabilities, from the mode outward. */
function nearMode(left, n, p) {
  const mode = Math.min(Math.floor((n + 1) * p), n), odds = p / (1 - p);
  let up = Math.exp(logChoose(n, mode) + mode * Math.log(p) + (n - mode) * Math.log1p(-p)), down = up, low = mode, high = mode;
  left -= up;
  while (left > 0 && up + down > 1e-20) {
    up *= (odds * (n - high)) / (high + 1);
    high++;
    left -= up;
    if (left <= 0) return high;
    down *= low / (odds * (n - low + 1));
    low--;
    left -= down;
  }
  return left <= 0 ? low : mode;
}

/** How many of those drawn are good, where as many are drawn of good and bad ones without putting any back. */
export function hypergeometric(random, good, bad, drawn) {
  const least = Math.max(0, drawn - bad), most = Math.min(good, drawn);
  let low = Math.min(Math.max(Math.floor(((drawn + 1) * (good + 1)) / (good + bad + 2)), least), most), high = low, found = low;
  let atLow = Math.exp(logChoose(good, low) + logChoose(bad, drawn - low) - logChoose(good + bad, drawn)), atHigh = atLow;
  let left = random() - atLow;
  while (left > 0 && (low > least || high < most)) {
    const above = high < most ? (atHigh * (good - high) * (drawn - high)) / ((high + 1) * (bad - drawn + high + 1)) : -1;
    const below = low > least ? (atLow * low * (bad - drawn + low)) / ((good - low + 1) * (drawn - low + 1)) : -1;
    if (above >= below) [found, atHigh] = [++high, above];
    else [found, atLow] = [--low, below];
    left -= Math.max(above, below);
  }
  return found;
}
