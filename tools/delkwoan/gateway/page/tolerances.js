// A member's tolerances, as this browser noted them.

import { amountField, button, field, form, make, tell } from "/page/elements.js";
import { call } from "/page/calls.js";
import { blame } from "/page/faults.js";
import { grouped } from "/page/replies.js";
import { save } from "/page/notes.js";
import { Table } from "/page/table.js";

const COLUMNS = [["other", "Other member"], ["product", "Product"], ["side", "Side"], ["floor", "Floor", true], ["ceiling", "Ceiling", true], ["position", "Set at", true]];

export class Tolerances {
  constructor({ name, notes, act }) {
    Object.assign(this, { name, notes, act });
    const empty = "This browser has noted none.";
    this.table = new Table({ label: "My tolerances", columns: COLUMNS, key: "position", empty });
    const load = field("Load notes", { type: "file", accept: "text/plain,.txt" });
    load.input.addEventListener("change", () => this.load(load.input));
    this.element = make("div", {}, make("p", {}, "Of each pair of yours: what its amount may fall to, and what it may grow to. What is not set is from 0 on without a most."),
      this.entry(), this.table.element,
      make("p", { class: "soft" }, "The service has no line that lists your tolerances. So this browser notes those that you set here, and your trades at the freeze, for your own test of a proposal. The operator can read each tolerance. A counterparty sees one if it is the bound that counts in a proposal."),
      make("div", { class: "line" }, make("p", {}, button("Save notes", () => save(`${name}-notes.txt`, notes.text()))), load.element,
        make("p", {}, button("Forget notes", () => this.forget()))));
  }

  entry() {
    const other = field("Other member", { list: "members", required: true });
    const product = field("Product", { list: "products", required: true });
    const side = field("Side", {}, [["out", "out: I am the seller"], ["in", "in: I am the buyer"]]);
    const floor = amountField("Floor", { value: "0", required: true });
    const ceiling = amountField("Ceiling, or none");
    const fields = { other, product, side, floor, ceiling };
    return form("A tolerance", Object.values(fields), "Set", (empty) => this.set(Object.values(fields).map((it) => it.value()), fields, empty));
  }

  /** Sets a tolerance, after which the fields are emptied. */
  set(words, fields, empty) {
    const [other, product, side, floor, ceiling] = words;
    return this.act(async () => {
      try {
        const path = [other, product, side].map(encodeURIComponent).join("/");
        const { reply } = await call("PUT", `/api/tolerances/${path}`, { floor, ceiling: ceiling || null });
        this.notes.addTolerance(reply.split(" ")[1], [other, product, side, floor, ceiling || "-"]);
        tell(`It is set. ${side === "out" ? "Your amount owed to" : "What you are owed by"} ${other} in ${product} may fall to ${grouped(floor)}, and may grow to ${ceiling ? grouped(ceiling) : "any amount"}. It counts from the next version of a proposal on.`);
        empty();
      } catch (problem) {
        blame(problem, fields, ["TOL", ...words], ["", "other", "product", "side", "floor", "ceiling"]);
      }
    });
  }

  load(input) {
    return this.act(async () => {
      this.notes.load(await input.files[0].text());
      tell("The notes are loaded.");
    });
  }

  forget() {
    this.notes.forget();
    this.update();
    tell("The notes are forgotten.");
  }

  update() {
    this.table.update(this.notes.settings().map((it) => ({ ...it, ceiling: it.ceiling === "-" ? "none" : it.ceiling })));
  }
}
