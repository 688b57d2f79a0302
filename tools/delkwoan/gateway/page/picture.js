// A proposal as a picture: each own pair before and after, with its bounds. What changes most comes first.

import { draw, make } from "/page/elements.js";
import { grouped } from "/page/replies.js";

const MOST = 100;
const SCALE = 10_000n;
const HEIGHT = 30;

const size = (amount) => (amount < 0n ? -amount : amount);

const changeOf = (pair) => BigInt(pair.next) - BigInt(pair.now);

/** How long a bar is, as a part of the widest. */
const part = (amount, most) => (most === 0n ? 0 : Number((BigInt(amount) * SCALE) / most) / Number(SCALE));

function tick(x, owner, text) {
  return draw("g", { class: "bound" }, draw("line", { x1: x, x2: x, y1: 0, y2: HEIGHT }), draw("title", {}, `${text}, ${owner}`));
}

function bars(pair, most, width) {
  const room = width - 4;
  const bar = (kind, amount, y) => draw("rect", { class: kind, x: 0, y, width: Math.max(part(amount, most) * room, amount === "0" ? 0 : 2), height: 12 });
  const bounds = [];
  if (pair.lower !== "0") bounds.push(tick(1 + part(pair.lower, most) * room, pair.lowerOf, `at least ${grouped(pair.lower)}`));
  if (pair.upper !== "-" && BigInt(pair.upper) <= most) bounds.push(tick(1 + part(pair.upper, most) * room, pair.upperOf, `at most ${grouped(pair.upper)}`));
  return draw("svg", { viewBox: `0 0 ${width} ${HEIGHT}`, width, height: HEIGHT, "aria-hidden": "true" }, bar("before", pair.now, 2), bar("after", pair.next, 16), bounds);
}

function changeText(pair) {
  const change = changeOf(pair);
  const word = change === 0n ? "as before" : `${grouped(size(change))} ${change < 0n ? "less" : "more"}`;
  return `${grouped(pair.now)} before, ${grouped(pair.next)} after: ${word}`;
}

function itemOf(pair, most, width) {
  const limits = [pair.lower === "0" ? "" : `at least ${grouped(pair.lower)} (${pair.lowerOf})`, pair.upper === "-" ? "" : `at most ${grouped(pair.upper)} (${pair.upperOf})`].filter((it) => it);
  return make("li", {}, make("p", {}, make("b", {}, `${pair.product}: ${pair.seller} owes ${pair.buyer}`)), bars(pair, most, width),
    make("p", { class: "soft" }, [changeText(pair), ...limits].join(", ")));
}

function byChange(one, other) {
  const gap = size(changeOf(other)) - size(changeOf(one));
  return gap < 0n ? -1 : Number(gap > 0n);
}

/** A figure of the pairs that have an amount before or after. */
export function picture(pairs, width) {
  const shown = pairs.filter((it) => it.now !== "0" || it.next !== "0").sort(byChange);
  const most = shown.flatMap((it) => [BigInt(it.now), BigInt(it.next)]).reduce((one, other) => (one > other ? one : other), 0n);
  const wide = Math.min(Math.max(width, 200), 760);
  const count = shown.length > MOST ? `The ${MOST} of ${shown.length} pairs that change most.` : shown.length === 1 ? "1 pair." : `${shown.length} pairs.`;
  return make("figure", {}, make("p", { class: "soft" }, "Grey is before, blue after; a mark is a bound. What changes most comes first. ", count),
    make("ol", { class: "pairs" }, shown.slice(0, MOST).map((pair) => itemOf(pair, most, wide))));
}
