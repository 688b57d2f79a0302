// The member's own test of a proposal in words: what was compared with what, and what could not be.

import { make } from "/page/elements.js";

const counted = (count, one, more) => (count === 1 ? `1 ${one}` : `${count} ${more}`);

/** What the notes of this browser were compared with. */
function comparedText({ pairs, tolerances, later, untold, trades }) {
  const words = [
    `${counted(tolerances, "tolerance that this browser noted", "tolerances that this browser noted")}, with the bounds of ${tolerances === 1 ? "its pair" : "their pairs"}`,
    `${counted(trades, "trade at the freeze", "trades at the freeze")}, with the amounts of ${counted(pairs, "pair", "pairs")} and the steps`,
    "the numbers of the proposal, with each other",
  ];
  const not = [later && `${later} set since the version began`, untold && `${untold} of pairs that can't have an amount`].filter((it) => it);
  return `Compared: ${words.join("; ")}. A side without a noted tolerance was taken to have none.${not.length ? ` They do not count here: ${not.join(", ")}.` : ""}`;
}

const LACKS = {
  tolerances: "A tolerance set by another program, or in another browser, could not be compared: this browser does not know of any.",
  trades: "Your trades could not be compared: this browser has noted none.",
};

function doubted({ clash, line }) {
  return [make("p", {}, `This line is not what the notes of this browser give (${clash}):`), line ? make("p", {}, make("code", {}, line)) : null,
    make("p", {}, "Either you set a tolerance, or made a trade, that this browser did not note, or the proposal is wrong. Look at it before you accept.")];
}

const headed = (word, text) => make("p", {}, make("b", {}, word), ` — ${text}`);

/** What is shown of a verdict of /api/check. */
export function shown(told) {
  if (told.verdict === "no") {
    return [headed("no", `the proposal is wrong, whatever you have set. check_mine finds: ${told.clash}`), told.line ? make("p", {}, make("code", {}, told.line)) : null].filter((it) => it);
  }
  const compared = make("p", { class: "soft" }, comparedText(told.compared));
  const hash = make("p", { class: "soft" }, `all ${told.all}`);
  if (told.verdict === "yes") return [headed("yes", "by check_mine it is right, if these are all the tolerances that you have set."), compared, hash];
  const lacks = told.lacks.map((it) => make("p", {}, LACKS[it]));
  const head = told.clash ? headed("not sure", "the proposal does not fit these notes.") : headed("not sure", "nothing speaks against it, but not all could be compared.");
  return [head, ...(told.clash ? doubted(told) : lacks), compared, hash].filter((it) => it);
}
