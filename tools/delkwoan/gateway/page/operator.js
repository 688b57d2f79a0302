// What the operator has: the market, the cycle's steps, the plan, and the votes.

import { button, field, form, isSure, make, tell } from "/page/elements.js";
import { call } from "/page/calls.js";
import { grouped, read } from "/page/replies.js";
import { Table } from "/page/table.js";

const MODES = ["conservative", "hybrid", "free"];
const MARKET = [["product", "Product"], ["gross", "Gross", true], ["floor", "Least by nets", true], ["excess", "Excess", true], ["bilateral", "Bilateral", true]];
const STEPS = [["place", "Step", true], ["what", "What"], ["trade", "Trade", true], ["seller", "Seller"], ["buyer", "Buyer"], ["product", "Product"], ["before", "Before", true], ["after", "After", true]];
const PLAYED = [["mode", "Mode"], ["before", "Gross before", true], ["after", "Gross after", true], ["less", "Less", true], ["what", "What it comes to"]];
const LIMITS = [["seller", "Seller"], ["buyer", "Buyer"], ["lower", "At least", true], ["now", "Now", true], ["upper", "At most", true], ["place", "Row", true]];

function stepOf(words, at) {
  const none = { place: String(at + 1), what: words[0], trade: "", seller: "", buyer: "", product: "", before: "", after: "" };
  if (words[0] === "new") return { ...none, seller: words[1], buyer: words[2], product: words[3], before: "0", after: words[4] };
  return words[0] === "cut" ? { ...none, trade: words[1], before: words[2], after: words[3] } : { ...none, trade: words[1], after: "0" };
}

/** A mode's rehearsed reply as a row. */
function playedOf({ mode, reply, kind }) {
  const [, , before, after] = read(reply).words;
  if (kind === "proposed") return { mode, before, after, less: String(BigInt(before) - BigInt(after)), what: "a proposal" };
  return { mode, before: "", after: "", less: "", what: kind === "nothing" ? "it touches nobody, and ends the cycle" : `refused: ${kind}` };
}

export class Market {
  constructor({ roster, act }) {
    Object.assign(this, { roster, act });
    this.more = new Set();
    this.table = new Table({ label: "The market", columns: MARKET, key: "product", empty: "Name a product." });
    const product = field("Product", { list: "products", required: true });
    const look = () => act(async () => {
      this.more.add(product.input.value);
      await this.update().catch((problem) => {
        this.more.delete(product.input.value);
        throw problem;
      });
    });
    this.element = make("div", {}, form("A product", [product], "Show", look), this.table.element);
  }

  async update() {
    const products = [...new Set([...this.roster.products, ...this.more])];
    const rows = [];
    for (const product of products) {
      const [gross, floor, excess, bilateral] = read((await call("GET", `/api/market/${encodeURIComponent(product)}`)).reply).words;
      rows.push({ product, gross, floor, excess, bilateral });
    }
    this.table.update(rows);
  }
}

export class Operation {
  constructor({ act }) {
    this.act = act;
    this.version = "";
    this.told = make("ul", {});
    this.votes = make("p", {});
    const day = field("Freeze what matures after", { type: "date", required: true });
    day.input.value = new Date().toISOString().slice(0, 10);
    const product = field("Product", { list: "products", required: true });
    this.freeze = form("Freeze", [day], "Freeze", () => this.does("/api/cycles", { day: day.input.value }));
    this.limits = new Table({ label: "Limits", columns: LIMITS.slice(0, -1), key: "place", empty: "Name a product." });
    this.plan = new Table({ label: "The plan", columns: STEPS, key: "place", empty: "Nothing is proposed." });
    this.propose = make("div", { class: "line" }, MODES.map((mode) => make("p", {}, button(`Propose ${mode}`, () => this.does(`/api/cycles/${this.cycle}/proposal`, { mode })))));
    this.played = new Table({ label: "All modes", columns: PLAYED, key: "mode", empty: "Nothing is rehearsed yet.", filters: false });
    this.rehearsal = make("div", {}, make("h2", {}, "All modes beside each other"),
      make("p", {}, "What each would come to now, over a copy of the journal. Members see nothing of it."),
      make("p", {}, button("Rehearse", () => this.rehearse())), this.played.element);
    this.begin = make("div", { class: "line" }, MODES.map((mode) => make("p", {}, button(`Begin ${mode}`, () => this.does(`/api/cycles/${this.cycle}/versions`, { mode })))));
    this.cancel = make("p", {}, button("Cancel the cycle", () => this.drop()));
    this.bounds = make("div", {}, make("h2", {}, "Limits of the version"), form("Limits", [product], "Show", () => this.ask(product.input.value)), this.limits.element);
    this.element = make("div", {}, this.freeze, this.propose, make("details", {}, make("summary", {}, "Begin a version without solving it"), this.begin), this.rehearsal,
      make("h2", {}, "What came of it"), this.told, make("h2", {}, "Votes"), this.votes, make("h2", {}, "The plan"), this.plan.element, this.bounds, this.cancel);
  }

  does(path, body) {
    return this.act(async () => {
      tell("It is being done …");
      const told = await call("POST", path, body);
      const words = read(told.reply).words;
      const text = {
        frozen: `Cycle ${words[0]}: ${words[1]} trades are frozen.`,
        begun: `Version ${words[1]} is begun, ${body.mode}.`,
        proposed: `Version ${words[1]}, ${body.mode}: the gross goes from ${grouped(words[2])} to ${grouped(words[3])}.`,
        nothing: `Version ${words[1]}, ${body.mode}: it touches nobody.`,
        cancelled: `Cycle ${words[0]} is cancelled.`,
      }[told.kind];
      this.told.prepend(make("li", {}, text));
      tell(text);
    });
  }

  rehearse() {
    return this.act(async () => {
      tell("It is being rehearsed …");
      const { modes } = await call("POST", "/api/rehearsal", { cycle: this.cycle });
      this.played.update(modes.map(playedOf));
      tell("All modes are rehearsed.");
    });
  }

  async drop() {
    if (await isSure("Cancel the cycle?", "Its proposal and votes are dropped; nothing is frozen any more.", "Cancel it")) await this.does(`/api/cycles/${this.cycle}/cancel`, {});
  }

  ask(product) {
    return this.act(async () => {
      const { rows } = read((await call("GET", `/api/limits/${encodeURIComponent(product)}`)).reply);
      this.limits.update(rows.map(([, seller, buyer, lower, now, upper], at) => ({ seller, buyer, lower, now, upper: upper === "-" ? "none" : upper, place: String(at) })));
    });
  }

  async update({ cycle, phase, version }) {
    this.cycle = cycle;
    this.freeze.hidden = phase !== "none";
    this.propose.hidden = this.rehearsal.hidden = this.begin.parentElement.hidden = phase !== "frozen" && phase !== "solving";
    if (phase === "none") this.played.update([]);
    this.bounds.hidden = phase !== "solving" && phase !== "proposed";
    this.cancel.hidden = phase === "none";
    const wanted = phase === "proposed" ? `${cycle} ${version}` : "";
    if (wanted !== this.version) {
      const rows = wanted ? read((await call("GET", `/api/cycles/${cycle}/plan`)).reply).rows : [];
      this.plan.update(rows.map(stepOf));
      this.version = wanted;
    }
    const votes = await call("GET", "/api/votes");
    this.votes.textContent = votesText(votes);
    this.fallen({ cycle, phase }, votes);
    this.before = { cycle, phase, version };
  }

  /** Says that a proposal was declined since the last look, and by whom, if that came through this gateway. */
  fallen({ cycle, phase }, votes) {
    const { cycle: cycleBefore, phase: phaseBefore, version } = this.before || {};
    if (phaseBefore !== "proposed" || phase !== "frozen" || cycle !== cycleBefore) return;
    const isKnown = votes.declined && `${votes.cycle} ${votes.version}` === `${cycle} ${version}`;
    const text = `Version ${version} was declined${isKnown ? ` by ${votes.declined}` : "; by whom did not come through this gateway"}.`;
    this.told.prepend(make("li", {}, text));
    warn(text);
  }
}

function votesText({ version, cycle, accepted, declined, left }) {
  if (!cycle) return "No vote has come through this gateway. Votes that come another way are in the history, and not shown here.";
  const names = accepted.length ? accepted.join(", ") : "nobody";
  const rest = left === null ? "" : left === 0 ? " It is carried out." : ` By the last reply ${left} had not accepted.`;
  return `Cycle ${cycle}, version ${version}, through this gateway: accepted by ${names}.${rest}${declined ? ` Declined by ${declined}.` : ""}`;
}
