// Parts that are made when they come into view, or before the page is printed.

const waiting = new Map();
const observer = new IntersectionObserver((entries) => {
  for (const { target, isIntersecting } of entries) if (isIntersecting) make(target);
}, { rootMargin: "400px" });

function make(el) {
  observer.unobserve(el);
  const fill = waiting.get(el);
  waiting.delete(el);
  fill?.();
}

/** Calls `fill` when the element comes into view; until then it shows a plain text. */
export function whenSeen(el, fill, text = "") {
  el.textContent = text;
  waiting.set(el, fill);
  observer.observe(el);
}

/** Drops the parts that left the page. */
export function forgetGone() {
  for (const el of waiting.keys()) {
    if (el.isConnected) continue;
    observer.unobserve(el);
    waiting.delete(el);
  }
}

export function makeAll() {
  for (const el of [...waiting.keys()]) make(el);
}

addEventListener("beforeprint", makeAll);
