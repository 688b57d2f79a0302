// The proposal as it concerns a member: its picture, the member's own test, its steps, and the vote.

import { button, field, isSure, make, tell } from "/page/elements.js";
import { call } from "/page/calls.js";
import { save } from "/page/notes.js";
import { picture } from "/page/picture.js";
import { grouped, pairsOf, read } from "/page/replies.js";
import { Table } from "/page/table.js";
import { shown } from "/page/verdict.js";

const PAIRS = [
  ["product", "Product"], ["seller", "Seller"], ["buyer", "Buyer"], ["lower", "At least", true], ["lowerOf", "Whose"],
  ["now", "Before", true], ["next", "After", true], ["upper", "At most", true], ["upperOf", "Whose"], ["place", "Row", true],
];

function stepText(words) {
  switch (words[0]) {
    case "end": return `Trade ${words[1]} ends.`;
    case "cut": return `Trade ${words[1]} is cut from ${grouped(words[2])} to ${grouped(words[3])}.`;
    default: return `A new trade: ${words[1]} owes ${words[2]} ${grouped(words[4])} of ${words[3]}.`;
  }
}

export class Proposal {
  constructor({ name, notes, roster, act }) {
    Object.assign(this, { name, notes, roster, act });
    this.version = "";
    this.head = make("p", {});
    this.verdict = make("div", { class: "verdict", "aria-live": "polite" });
    this.all = field("", { type: "checkbox", change: () => this.act(() => this.test()) });
    this.all.element.className = "tick";
    this.image = make("div", {});
    this.table = new Table({ label: "My pairs", columns: PAIRS.slice(0, -1), key: "place", empty: "No pairs.", filters: false });
    this.steps = make("ol", {});
    this.accept = button("Accept", () => this.vote("accept"), { class: "main" });
    this.decline = button("Decline", () => this.vote("decline"));
    this.voted = make("p", {});
    this.buttons = make("p", { class: "buttons" }, this.accept, this.decline);
    this.own = field("A roster of my own, without keys", { type: "file", accept: ".csv,text/csv" });
    this.own.input.addEventListener("change", () => this.act(async () => {
      this.roster.take(await this.own.input.files[0].text(), true);
      await this.test();
    }));
    this.element = make("div", {}, this.head, make("h2", {}, "My own test"), this.verdict, this.all.element, make("details", {}, make("summary", {}, "Test without this gateway"),
      make("p", {}, "The gateway has run check_mine over your browser's notes. Who does not trust it saves these, and runs tools/check_mine."),
      make("p", { class: "buttons" }, ["notes", "proof", "plan"].map((it) => button(`Save ${it}`, () => save(`${name}-${it}.txt`, this.texts()[it])))), this.own.element),
      make("h2", {}, "My pairs, before and after"), this.image, make("details", {}, make("summary", {}, "The same as a table"), this.table.element),
      make("h2", {}, "What it does"), this.steps, make("h2", {}, "My vote"), this.voted, this.buttons);
    new ResizeObserver(() => this.picture()).observe(this.image);
  }

  /** Shows what stands. The proposal is asked for once for each version, and whether this member has voted anew each time. */
  async update(cycle, version) {
    if (this.version !== `${cycle} ${version}`) await this.ask(cycle, version);
    this.shows(await call("GET", "/api/votes/mine"));
  }

  async ask(cycle, version) {
    const [proof, plan] = await Promise.all(["proof", "plan"].map((it) => call("GET", `/api/cycles/${cycle}/${it}`)));
    if ([proof, plan].some(({ reply }) => read(reply).words[1] !== version)) return;
    Object.assign(this, { cycle, number: version, proof: proof.reply, plan: plan.reply, version: `${cycle} ${version}` });
    this.pairs = pairsOf(this.proof).map((pair, at) => ({ ...pair, place: String(at) }));
    const [, , day, mode] = read(this.proof).words;
    const steps = read(this.plan).rows;
    this.head.textContent = `Cycle ${cycle}, version ${version}, ${mode}, with what matures after ${day}.`;
    this.steps.replaceChildren(...steps.map((words) => make("li", {}, stepText(words))));
    this.buttons.hidden = this.voted.hidden = steps.length === 0;
    if (!steps.length) this.steps.replaceChildren(make("li", {}, "It does not touch you: there is nothing to vote on."));
    this.width = 0;
    this.picture();
    this.table.update(this.pairs.map((it) => ({ ...it, upper: it.upper === "-" ? "none" : it.upper })));
    this.all.input.checked = false;
    await this.test();
  }

  /** Whether this member has voted, as far as the gateway knows. */
  shows({ cycle, version, vote }) {
    const isThis = `${cycle} ${version}` === this.version;
    const hasAccepted = isThis && vote === "accepted";
    this.accept.disabled = hasAccepted;
    this.accept.textContent = hasAccepted ? "Accepted" : "Accept";
    this.voted.textContent = hasAccepted ? "You have accepted this version."
      : "No vote of yours on this version has come through this gateway. Whether one came by another way is not known here; a second one is refused, and does no harm.";
  }

  picture() {
    const width = Math.floor(this.image.clientWidth);
    if (!this.pairs || !width || width === this.width) return;
    this.width = width;
    this.image.replaceChildren(picture(this.pairs, width));
  }

  texts() {
    return { notes: this.notes.text(), proof: `${this.proof}\n`, plan: `${this.plan}\n` };
  }

  async test() {
    const count = this.notes.settings().length;
    const label = { 0: "I have set no tolerance.", 1: "The 1 tolerance that this browser noted is all that I have set." }[count];
    this.all.label.textContent = label || `The ${count} tolerances that this browser noted are all that I have set.`;
    this.verdict.className = "verdict";
    try {
      const told = await call("POST", "/api/check", { ...this.texts(), roster: this.roster.text, complete: this.all.input.checked });
      this.verdict.classList.add(told.verdict);
      this.verdict.replaceChildren(...shown(told));
    } catch (problem) {
      const noRoster = problem.content?.error === "no-roster";
      this.verdict.replaceChildren(make("p", {}, noRoster ? "Not tested: choose a roster without keys, below." : `Not tested: ${problem.message}`));
    }
  }

  vote(verb) {
    return this.act(async () => {
      const texts = { accept: ["Accept the proposal?", "With the last acceptance it is carried out at once.", "Accept"], decline: ["Decline the proposal?", "It is dropped, with all votes.", "Decline"] };
      if (!(await isSure(...texts[verb]))) return;
      const told = await call("POST", `/api/cycles/${this.cycle}/versions/${this.number}/${verb}`, {});
      const left = read(told.reply).words[2];
      tell({ accepted: `Version ${this.number} is accepted: ${left} more to accept.`, executed: "Accepted by all: it is carried out.", declined: "Declined." }[told.kind]);
    });
  }
}
