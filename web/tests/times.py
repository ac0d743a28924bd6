"""The page's figures: size, time to the first answer, and an edit to its answers on a diagram of 40 vertices."""
import time

import browser

EDIT = """
const [text, done] = arguments;
const area = document.getElementById("text"), panel = document.getElementById("panel"), start = performance.now();
const layer = document.querySelector("#drawing .edges");
let drawn;
new MutationObserver(() => (drawn ??= performance.now() - start))
  .observe(layer, { childList: true, subtree: true, attributes: true });
new MutationObserver((_, observer) => {
  observer.disconnect();
  const answered = performance.now() - start;
  requestAnimationFrame(() => setTimeout(() => done([answered, performance.now() - start, drawn])));
}).observe(panel, { childList: true });
area.value = text;
area.dispatchEvent(new Event("input"));
"""
LARGE = """
const [text, done] = arguments;
const area = document.getElementById("text"), panel = document.getElementById("panel"), start = performance.now();
const svg = document.getElementById("drawing");
let answered;
new MutationObserver((_, observer) => {
  observer.disconnect();
  answered = performance.now() - start;
}).observe(panel, { childList: true });
const look = () => {
  const isDrawn = svg.querySelectorAll(".edges > *").length === Number(arguments[1]) && !svg.classList.contains("late");
  if (answered && isDrawn) done([answered, performance.now() - start]);
  else setTimeout(look, 5);
};
area.value = text;
area.dispatchEvent(new Event("input"));
setTimeout(look, 5);
""".replace("const [text, done] = arguments;", "const text = arguments[0], done = arguments[arguments.length - 1];")
KEY = """
const [name, key, done] = arguments;
const vertex = [...document.querySelectorAll("#drawing .vertex")].find((v) => v.querySelector("text").textContent === name);
vertex.focus();
const start = performance.now();
new MutationObserver((_, observer) => {
  observer.disconnect();
  done(performance.now() - start);
}).observe(document.getElementById("panel"), { childList: true });
vertex.dispatchEvent(new KeyboardEvent("keydown", { key, bubbles: true }));
"""
REPEATS = 4
KEYS = 8
PAUSE = 1


def opened():
    """Milliseconds from the beginning of opening to the first answer: in a fresh browser, and again."""
    fresh, again = [], []
    for _ in range(REPEATS):
        driver = browser.start()
        try:
            fresh.append(browser.open_page(driver))
            again.append(browser.open_page(driver))
        finally:
            driver.quit()
    return fresh, again


def edits(texts):
    """For each text: milliseconds until its answer stands in the page, until it's painted, and until it's drawn."""
    driver = browser.start()
    try:
        browser.open_page(driver)
        figures = []
        for text in texts:
            figures.append(driver.execute_async_script(EDIT, text))
            time.sleep(PAUSE)
        return figures
    finally:
        driver.quit()


def spread(name, numbers):
    numbers = [round(n) for n in numbers if n is not None]
    print(f"{name}: {min(numbers)} to {max(numbers)} ms ({', '.join(map(str, numbers))})")


def with_places(text):
    """The same text with a place for each vertex, in rows of eight."""
    lines = text.split("\n")
    for i in range(40):
        at = lines.index(next(line for line in lines if line in (f"v{i}", f"v{i} [exposure]", f"v{i} [outcome]")))
        place = f'pos="{1.5 * (i % 8)},{1.2 * (i // 8)}"'
        lines[at] = lines[at].replace("]", f",{place}]") if "[" in lines[at] else f"{lines[at]} [{place}]"
    return "\n".join(lines)


def large(vertices=64, edges=820):
    """A diagram of so many vertices and edges, each arrow from an earlier vertex to a later one, as text."""
    state, pairs = 1, [(i, j) for i in range(vertices) for j in range(i + 1, vertices)]
    while len(pairs) > edges:
        state = (state * 6364136223846793005 + 1442695040888963407) % 2**64
        pairs.pop((state >> 33) % len(pairs))
    lines = ["v0 [exposure]", f"v{vertices - 1} [outcome]", *[f"v{i} -> v{j}" for i, j in pairs]]
    return "dag {\n" + "\n".join(lines) + "\n}\n"


def large_text():
    """Milliseconds from a text of 64 vertices and 820 edges to its answer, and until it is drawn as well."""
    figures = []
    for _ in range(REPEATS):
        driver = browser.start()
        try:
            browser.open_page(driver)
            figures.append(driver.execute_async_script(LARGE, large(), 820))
        finally:
            driver.quit()
    return figures


def keys():
    """Milliseconds from a key on a vertex to its answer, with 20 vertices: it is marked adjusted, or unmeasured."""
    driver = browser.start()
    try:
        browser.open_page(driver)
        figures = {}
        for card in ("adjustment", "effect"):
            driver.execute_script("document.getElementById('new').click()")
            time.sleep(PAUSE)
            driver.execute_async_script(LARGE, large(20, 60), 60)
            driver.execute_script("document.getElementById('tab-' + arguments[0]).click()", card)
            time.sleep(PAUSE)
            figures[card] = []
            for i in range(KEYS):
                figures[card].append(driver.execute_async_script(KEY, f"v{i + 2}", "u" if card == "effect" else "a"))
                time.sleep(PAUSE / 2)
        return figures
    finally:
        driver.quit()


def main():
    print(f"web/dist/causal.html: {browser.PAGE.stat().st_size} bytes")
    fresh, again = opened()
    spread("opening to the first answer, in a fresh browser", fresh)
    spread("the same, opened again", again)
    figures = large_text()
    spread("a text of 64 vertices and 820 edges to its answer", [f[0] for f in figures])
    spread("  until it is drawn as well", [f[1] for f in figures])
    for card, found in keys().items():
        spread(f"a key to its answer, 20 vertices, {card}", found[1:])
    for answer, ends in {"a hedge": (0, 39), "a formula": (36, 38)}.items():
        # a further edge, so that the answer and the layout change
        more = [[f"v{k} -> v{k + 20}", f"v{k} -> v{k + 19}"] for k in range(REPEATS)]
        for how, written in {"places in the text": with_places, "a computed layout": lambda text: text}.items():
            texts = [written(browser.survey(*ends, more=edges)) for edges in [[], *more]]
            figures = edits(texts)[1:]
            spread(f"an edit to its answer, 40 vertices, {answer}, {how}", [f[0] for f in figures])
            spread("  until it is painted", [f[1] for f in figures])


if __name__ == "__main__":
    main()
