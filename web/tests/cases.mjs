// node cases.mjs MODULE.wasm CASES.json: the worked cases through the module, with the program's expected output.
import { readFileSync } from "node:fs";
import { load } from "../src/causal.mjs";

const [module, cases] = process.argv.slice(2);
const causal = await load(readFileSync(module));
const all = JSON.parse(readFileSync(cases, "utf8"));
let wrong = 0;
for (const { case: name, words, inputs, status, out, err } of all) {
  const bytes = Object.entries(inputs).map(([n, { base64, pad }]) => {
    const content = Buffer.from(base64, "base64");
    return [n, Buffer.concat([content, Buffer.alloc(Math.max(0, pad - content.length), " ")])];
  });
  const answer = causal.run(words, Object.fromEntries(bytes));
  if (answer.status === status && answer.out === out && answer.err === err) continue;
  wrong++;
  console.log(`differs: ${name}: wanted ${status} ${JSON.stringify({ out, err })}, got ${JSON.stringify(answer)}`);
}
console.log(`${all.length} worked cases in node, ${wrong} wrong`);
process.exit(wrong ? 1 : 0);
