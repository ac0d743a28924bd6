"""The worked cases through the page's own worker, in headless Chromium, with the program's expected output."""
import base64
import json
import sys

import expected

RUN = """
const [cases, done] = arguments;
const inlined = (id) => document.getElementById(id).textContent.trim();
const source = new Blob([inlined("worker-source")], { type: "text/javascript" });
const worker = new Worker(URL.createObjectURL(source));
worker.postMessage({ packed: inlined("module") });
const ask = (message) => new Promise((resolve) => {
  worker.onmessage = ({ data }) => resolve(data.answers[0]);
  worker.postMessage({ id: 0, text: "dag { }", ...message });
});
(async () => {
  const wrong = [];
  for (const { case: name, words, inputs, status, out, err } of cases) {
    for (const [file, { base64, pad }] of Object.entries(inputs)) {
      const content = Uint8Array.from(atob(base64), (c) => c.charCodeAt(0));
      const bytes = new Uint8Array(Math.max(pad, content.length)).fill(32);
      bytes.set(content);
      worker.postMessage({ name: file, text: bytes });
    }
    const answer = await ask({ questions: [words] });
    if (answer.status !== status || answer.out !== out || answer.err !== err) wrong.push({ name, status, out, err, answer });
    for (const file of Object.keys(inputs)) worker.postMessage({ name: file, text: null });
  }
  worker.terminate();
  done(wrong);
})();
"""


def told(case):
    """A case as JSON: blanks at the end of an input are told by its length."""
    inputs = {name: {"base64": base64.b64encode(content.rstrip(b" ")).decode(), "pad": len(content)}
              for name, content in case["inputs"].items()}
    return case | {"inputs": inputs}


def main():
    kept, left = expected.load()
    cases = [told(case) for case in kept]
    if sys.argv[1:2] == ["--write"]:
        with open(sys.argv[2], "w", encoding="utf-8") as file:
            json.dump(cases, file)
        print(f"{left} worked cases need inputs or outputs that a page has none of, and are left out")
        return
    import browser  # wants selenium

    driver = browser.start()
    try:
        browser.open_page(driver)
        wrong = driver.execute_async_script(RUN, cases)
    finally:
        driver.quit()
    for case in wrong:
        print(f"differs: {case}")
    print(f"{len(cases)} worked cases in Chromium, {len(wrong)} wrong")
    sys.exit(bool(wrong))


if __name__ == "__main__":
    main()
