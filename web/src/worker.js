// Holds the proved program, away from the page. Messages to it:
//   {packed}                 the module, gzip in base64; comes first
//   {name, text}             a file that later questions may name; text is null where it goes
//   {id, text, questions}    lists of words about diagram.dag with this text; answered by {id, answers}
//   {id, compute: "draws", text, words, name, ..}   values or bounds over draws of a table, which the words name; {id, values}
//   {id, compute: "tests", table, pairs, seed}      tests of independences; {id, tests}
import { load } from "./causal.mjs";
import { AS_JSON, DIAGRAM } from "./names.js";
import { drawValues, testPairs } from "./statistics/work.js";

const files = new Map();
let causal;

/** The module's bytes from gzip in base64. */
async function unpack(packed) {
  const bytes = Uint8Array.from(atob(packed), (c) => c.charCodeAt(0));
  const stream = new Blob([bytes]).stream().pipeThrough(new DecompressionStream("gzip"));
  return new Uint8Array(await new Response(stream).arrayBuffer());
}

function answer(program, words, text, more = {}) {
  const named = words.filter((word) => files.has(word));
  const inputs = { ...Object.fromEntries(named.map((name) => [name, files.get(name)])), [DIAGRAM]: text, ...more };
  const start = performance.now();
  try {
    return { ...program.run(words, inputs), ms: performance.now() - start };
  } catch (e) {
    return { status: -1, out: "", err: `causal: the module stopped: ${e.message}`, ms: 0 };
  }
}

onmessage = async ({ data }) => {
  if (data.packed) causal = unpack(data.packed).then(load);
  else if (data.questions) {
    const program = await causal;
    postMessage({ id: data.id, answers: data.questions.map((words) => answer(program, words, data.text)) });
  } else if (data.compute === "draws") {
    const program = await causal;
    const evaluate = (csv) => answer(program, [...data.words, AS_JSON], data.text, { [data.name]: csv });
    postMessage({ id: data.id, values: drawValues(data, evaluate) });
  } else if (data.compute === "tests") postMessage({ id: data.id, tests: testPairs(data) });
  else if (data.text === null) files.delete(data.name);
  else files.set(data.name, data.text);
};
