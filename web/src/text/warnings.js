// What a text that the program accepts may not have meant.
import { straightQuotes } from "./taken.js";
import { isMark, survey, tokens } from "./tokens.js";

/** @typedef {import("./printed.js").Graph} Graph */

/** @typedef {{sentence: string, fixed?: string, label?: string}} Note */

const CIRCLES = /(?:^|[\s"])o-+[>o]|<-+o(?=[\s"]|$)/m;
const SIGNS = /^[^\p{L}\p{N}]+$/u;

/**
 * Notes on statements that say nothing, on vertices that look like edges, and on names that became two vertices.
 * @param {Graph} graph the text's own @returns {Note[]}
 */
export function warningsOf(text, { vertices, edges }) {
  const joined = new Set(edges.flatMap(({ a, b }) => [a, b])), found = survey(text);
  const signs = vertices.filter(({ name }) => SIGNS.test(name) && !joined.has(name));
  const dropped = found.dropped.filter(({ name }) => name !== "bb");
  return [
    ...dropped.map(({ name, value }) => ({ sentence: `${name} = ${value} says nothing of the diagram and is left out. An edge is written ->, <- or <->.` })),
    ...signs.map(({ name }) => ({ sentence: `${name} is read as a variable, without an edge. An edge is written ->, <- or <->.` })),
    ...(CIRCLES.test(text) ? [{ sentence: `Edges with circles, such as o-> and o-o, aren't read: their o is read as a variable. Give each edge a direction.` }]
      : curlyQuotes(text) ?? partedNames(text, vertices, joined)),
  ];
}

/** A note on quotation marks that aren't straight; null where there are none. @returns {Note[] | null} */
function curlyQuotes(text) {
  const fixed = straightQuotes(text);
  return fixed === text ? null : [{ sentence: "Quotation marks that aren't straight are read as letters of the names.", label: "Straighten them", fixed }];
}

/**
 * Vertices without edges and marks that always stand right before the same others, in their line: parts of a name without its quotes.
 * @returns {Note[]}
 */
function partedNames(text, vertices, joined) {
  const list = tokens(text), alone = new Set(vertices.filter(({ name, role }) => !role && !joined.has(name) && !SIGNS.test(name)).map(({ name }) => name));
  const isName = (t) => t && !isMark(t) && !t.text.startsWith('"') && !t.text.includes("@"), isAlone = (t) => isName(t) && alone.has(t.text);
  const isInLine = (i) => isName(list[i + 1]) && !/[\r\n;]/.test(text.slice(list[i].end, list[i + 1].start));
  const runs = new Map(); // by its first word, what each run is: its words, or null where it doesn't end with a variable that has edges or marks
  for (let i = 1; i < list.length; i++) {
    if (!isAlone(list[i])) continue;
    const from = i;
    while (isAlone(list[i]) && isInLine(i)) i++;
    const words = list.slice(from, i + 1).map((t) => t.text);
    runs.set(words[0], [...(runs.get(words[0]) ?? []), isAlone(list[i]) ? null : words]);
  }
  return [...runs.values()].filter((all) => all.every((words) => words && words.join(" ") === all[0].join(" "))).map(([words]) => {
    const lone = words.slice(0, -1), name = words.join(" ");
    return {
      sentence: `${lone.join(" and ")} ${lone.length > 1 ? "are read as variables of their own, without edges" : "is read as a variable of its own, without an edge"}. `
        + `A name of ${words.length} words needs quotation marks: "${name}".`, label: "Put them", fixed: quoted(text, list, words),
    };
  });
}

/** The text with these words as one name; where the last stands alone, it is that name too. */
function quoted(text, list, words) {
  const isHere = (i) => words.every((word, k) => list[i + k]?.text === word), name = `"${words.join(" ")}"`;
  let made = "", at = 0;
  list.forEach((t, i) => {
    if (t.start < at || !(isHere(i) || t.text === words.at(-1))) return;
    made += text.slice(at, t.start) + name;
    at = (isHere(i) ? list[i + words.length - 1] : t).end;
  });
  return made + text.slice(at);
}
