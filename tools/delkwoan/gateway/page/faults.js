// What the service refuses, said of the field that is the cause.

import { warn } from "/page/elements.js";

const BAD_LINE = 3;
const OF = {
  4: ["other", () => "no member has this name"],
  5: ["product", () => "no product has this name"],
  6: ["other", () => "this is yourself"],
  8: ["amount", () => "more than 1,000,000,000,000,000, the most of one trade"],
  9: ["amount", () => "with this the product's trades would come to more than 10^18"],
  22: ["day", (value) => `not before the product's maturity, ${value}`],
  23: ["ceiling", () => "below the floor"],
};

/** The name of the word at an offset of a line; the words have these names. */
function nameAt(offset, words, names) {
  let end = 0;
  return names.find((_, at) => (end += words[at].length + 1) > offset);
}

/** Says of the field that it is wrong, and goes there. `names` are those of the line's words, `words` its words. */
export function blame(problem, fields, words, names) {
  const { error, field, number, name, value } = problem.content || {};
  let [key, say] = OF[number] || [];
  if (error === "bad-field") [key, say] = [field, () => "this can't be"];
  else if (number === BAD_LINE) [key, say] = [nameAt(Number(value), words, names), () => "this can't be"];
  const found = fields[key];
  if (!found) throw problem;
  const text = `${say(value)}${name ? ` (${name})` : ""}`;
  found.fault(text);
  found.input.focus();
  warn(`Refused. ${found.label.textContent}: ${text}.`);
}
