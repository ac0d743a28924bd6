"""The contrast of every text that is seen with what stands behind it: at least 4.5, in light and in dark."""
import sys
import time

import browser

LEAST = 4.5
MEASURE = r"""
const least = arguments[0], found = new Map();
const parse = (css) => {
  const n = (css.match(/-?[\d.]+(e-?\d+)?/g) ?? []).map(Number), k = css.startsWith("color(") ? 255 : 1;
  return n.length < 3 ? [0, 0, 0, 0] : [n[0] * k, n[1] * k, n[2] * k, n[3] ?? 1];
};
const over = (top, below) => {
  const a = top[3] + below[3] * (1 - top[3]);
  return a ? [...[0, 1, 2].map((i) => (top[i] * top[3] + below[i] * below[3] * (1 - top[3])) / a), a] : [0, 0, 0, 0];
};
const light = ([r, g, b]) => {
  const part = (x) => (x /= 255) <= 0.03928 ? x / 12.92 : ((x + 0.055) / 1.055) ** 2.4;
  return 0.2126 * part(r) + 0.7152 * part(g) + 0.0722 * part(b);
};
const ratio = (p, q) => {
  const [a, b] = [light(p), light(q)].sort((x, y) => y - x);
  return (a + 0.05) / (b + 0.05);
};
const style = (el) => getComputedStyle(el);
const fade = (color, alpha) => [color[0], color[1], color[2], color[3] * alpha];
function behind(el) {
  let layers = [];
  const vertex = el.closest?.(".vertex");
  if (vertex) for (const part of [".shape", ".halo"]) {
    const s = style(vertex.querySelector(part));
    if (s.fill !== "none") layers.push(fade(parse(s.fill), Number(s.fillOpacity)));
  }
  for (let at = el; at; at = at.parentElement) {
    const s = style(at);
    layers.push(parse(s.backgroundColor));
    if (at.matches("#panel, #text-pane, dialog, .menu, #toast, #hint, #tabs") && parse(s.backgroundColor)[3] === 1) break;
  }
  layers.push(parse(style(document.body).backgroundColor), [255, 255, 255, 1]);
  return layers.reduce((sum, layer) => over(sum, layer));
}
const opacity = (el) => { let o = 1; for (let at = el; at; at = at.parentElement) o *= Number(style(at).opacity); return o; };
const walker = document.createTreeWalker(document.body, NodeFilter.SHOW_TEXT);
let seen = 0;
for (let node; (node = walker.nextNode()); ) {
  const el = node.parentElement, text = node.textContent.trim();
  if (!text || el.closest("script, style, .unseen, :disabled, textarea, .katex-mathml, option, [hidden]")) continue;
  const range = document.createRange();
  range.selectNodeContents(node);
  const box = range.getBoundingClientRect();
  if (!box.width || !box.height || style(el).visibility === "hidden") continue;
  const o = opacity(el);
  if (o === 0) continue;
  seen++;
  const isSvg = el instanceof SVGElement, ground = behind(el);
  const ink = over(fade(parse(isSvg ? style(el).fill : style(el).color), o), ground), r = ratio(ink, ground);
  if (r >= least) continue;
  const at = `${el.tagName.toLowerCase()}.${el.getAttribute("class") ?? ""} in ${el.closest("[id]")?.id}`;
  if (!found.has(at)) found.set(at, `${r.toFixed(2)}: ${at}: ${text.slice(0, 40)}`);
}
return [seen, [...found.values()]];
"""

# What is shown before the texts are measured: an example, a card, and a script.
KEY = """{ const v = [...document.querySelectorAll('#drawing .vertex')].find((v) => v.querySelector('text').textContent === '%s');
    v.focus(); v.dispatchEvent(new KeyboardEvent('keydown', {key: '%s', bubbles: true})); }"""
DROP = """{ const data = new DataTransfer(); data.items.add(new File([%r], 'table.csv'));
    document.body.dispatchEvent(new DragEvent('drop', { dataTransfer: data, bubbles: true, cancelable: true })); }"""
BY = "setTimeout(() => { const el = document.getElementById('by'); el.value = '%s'; el.dispatchEvent(new Event('change')); }, 300);"
FEW = "S,T,R\nsmall,A,success\nsmall,A,failure\nsmall,B,success\nsmall,B,failure\nlarge,A,success\nlarge,A,failure\n"
SHOWN = {
    "a formula with all that opens": ("napkin", "effect", "document.querySelectorAll('#panel details').forEach((el) => (el.open = true))"),
    "a hedge": ("bow", "effect", ""),
    "paths": ("m_bias", "adjustment", "document.getElementById('paths').click();" + KEY % ("M", "a")),
    "the first example": ("firefighters", "adjustment", ""),
    "sets with wishes": ("warm_up", "adjustment", "document.querySelector('[data-key=\"wish Coach\"]').click()"),
    "a list of paths": ("warm_up", "paths", ""),
    "another view": ("warm_up", "views", ""),
    "what would help": ("bow", "effect", "document.querySelector('summary[data-key=next]').click()"),
    "an empty diagram": ("bow", "adjustment", "document.getElementById('new').click()"),
    "the list of diagrams": ("bow", "effect", "document.getElementById('diagrams').click()"),
    "a rule": ("front_door", "rules", ""),
    "separation": ("hidden_cause", "separation", ""),
    "implications": ("fork", "implications", ""),
    "trials": ("front_door", "experiments", ""),
    "values": ("kidney_stones", "data", "document.getElementById('sample')?.click()"),
    "values under a condition": ("kidney_stones", "data", "document.getElementById('sample')?.click();" + BY % "condition"),
    "bounds": ("noncompliance", "data", "document.getElementById('sample')?.click()"),
    "the treated": ("kidney_stones", "effect", "document.querySelector('#panel [data-key=treated]').click()"),
    "the treated, by a path alone": ("napkin", "effect", "document.querySelector('#panel [data-key=treated]').click()"),
    "no record": ("kidney_stones", "data", DROP % FEW),
    "zero cells": ("kidney_stones", "data", DROP % FEW + "setTimeout(() => document.getElementById('zero').click(), 400)"),
    "a comparison": ("chain", "compare", """const t = document.querySelector('textarea.second');
        t.value = 'dag { A -> B <- C }'; t.dispatchEvent(new Event('input'))"""),
    "a fault": ("napkin", "effect", """const t = document.getElementById('text');
        t.value = t.value.replace('}', 'Y -> W\\n}'); t.dispatchEvent(new Event('input'))"""),
    "a warning": ("napkin", "effect", """const t = document.getElementById('text');
        t.value = 'dag { X [exposure] Y [outcome] U [latent] A [adjusted] X -> Y U -> Y A -> Y note=1 ~ }'; t.dispatchEvent(new Event('input'))"""),
    "a menu": ("front_door", "effect", KEY % ("X", "Enter")),
    "several vertices": ("front_door", "effect", KEY % ("X", "s") + KEY % ("M", "s")),
    "an edge that is drawn": ("front_door", "effect", KEY % ("X", "c")),
    "about": ("front_door", "effect", "document.getElementById('about').click()"),
}


def main():
    seen, wrong = 0, []
    for scheme in ("light", "dark"):
        driver = browser.start(dark=scheme == "dark")
        try:
            browser.open_page(driver)
            for name, (graph, card, script) in SHOWN.items():
                browser.example(driver, graph)
                driver.execute_script("document.getElementById('tab-' + arguments[0]).click()", card)
                time.sleep(0.5)
                driver.execute_script(script)
                time.sleep(1)
                count, below = driver.execute_script(MEASURE, LEAST)
                seen += count
                wrong += [f"{scheme}, {name}: {line}" for line in below]
                driver.execute_script("""document.querySelector('dialog[open]')?.close(); document.getElementById('menu')?.remove();
                    if (document.getElementById('paths').getAttribute('aria-pressed') === 'true') document.getElementById('paths').click();
                    document.dispatchEvent(new KeyboardEvent('keydown', {key: 'Escape', bubbles: true}));""")
        finally:
            driver.quit()
    for line in wrong:
        print(f"too little contrast: {line}")
    print(f"{seen} texts measured, {len(wrong)} with a contrast below {LEAST}")
    sys.exit(bool(wrong))


if __name__ == "__main__":
    main()
