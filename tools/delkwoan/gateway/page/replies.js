// Replies of the service as words. Amounts stay texts or become BigInts: they may be larger than a Number holds.

/** The words behind the kind of a reply's head line, and those of its detail lines. */
export function read(text) {
  const [head, ...lines] = text.split("\n");
  return { words: head.split(" ").slice(3), lines, rows: lines.map((line) => line.split(" ")) };
}

const TRADE = ["trade", "seller", "buyer", "product", "amount", "day", "state", "held"];
const PAIR = ["product", "seller", "buyer", "lower", "lowerOf", "now", "next", "upper", "upperOf"];

function named(names, words) {
  return Object.fromEntries(names.map((name, at) => [name, words[at]]));
}

/** A trade's line of a STATEMENT. */
export const tradeOf = (line) => named(TRADE, line.split(" ").slice(1));

export const pairsOf = (text) => read(text).rows.filter((words) => words[0] === "pair").map((words) => named(PAIR, words.slice(1)));

/** A whole number with its thousands apart. */
export const grouped = (text) => (/^-?\d+$/.test(String(text)) ? String(text).replace(/\B(?=(\d{3})+$)/g, "\u202f") : String(text));

export function compare(one, other) {
  if (!/^-?\d+$/.test(one) || !/^-?\d+$/.test(other)) return one < other ? -1 : Number(one > other);
  const gap = BigInt(one) - BigInt(other);
  return gap < 0n ? -1 : Number(gap > 0n);
}
