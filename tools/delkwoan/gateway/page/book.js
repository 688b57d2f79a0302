// A member's trades.

import { amountField, button, field, form, isSure, make, tell, warn } from "/page/elements.js";
import { call } from "/page/calls.js";
import { blame } from "/page/faults.js";
import { settle } from "/page/looking.js";
import { grouped, read } from "/page/replies.js";
import { Table } from "/page/table.js";

const COLUMNS = [
  ["trade", "Trade", true], ["seller", "Seller"], ["buyer", "Buyer"], ["product", "Product"],
  ["amount", "Amount", true], ["day", "Day"], ["state", "State"], ["held", "Held"],
];
const NOT_PARTY = 7;
const TERMS = ["seller", "buyer", "product", "amount", "day"];

/** A trade in words. */
const termsText = ({ seller, buyer, product, amount, day }) => `${seller} owes ${buyer} ${grouped(amount)} of ${product}, ${day}.`;

export class Book {
  constructor({ name, notes, roster, act }) {
    Object.assign(this, { name, notes, roster, act });
    this.rows = [];
    const common = { key: "trade", columns: COLUMNS, actions: (row) => this.actions(row) };
    const terms = COLUMNS.slice(0, 6);
    this.alleged = new Table({ ...common, columns: terms, label: "Trades to affirm", empty: "No trade waits for your word." });
    this.whose = make("p", { class: "soft" });
    this.trades = new Table({ ...common, label: "My trades", empty: "No trades yet.", choice: ["state", "State", ["live", "alleged", "ended"]] });
    this.nets = make("dl", { class: "cards" });
    this.none = make("p", { class: "soft" }, "No positions yet.");
    this.element = make("div", {}, make("h2", {}, "To affirm"), this.whose, this.alleged.element, make("h2", {}, "A new trade"), this.entry(),
      make("h2", {}, "My positions"), this.none, this.nets, make("h2", {}, "My trades"), this.trades.element);
  }

  entry() {
    const side = field("I am the", {}, [["seller", "seller, who owes"], ["buyer", "buyer"]]);
    const other = field("Other party", { list: "members", required: true });
    const product = field("Product", { list: "products", required: true });
    const amount = amountField("Amount", { required: true });
    const day = field("Day", { type: "date", required: true });
    day.input.defaultValue = new Date().toISOString().slice(0, 10);
    return form("A new trade", [side, other, product, amount, day], "Allege", (empty) => {
      const isSeller = side.value() === "seller";
      const [seller, buyer] = isSeller ? [this.name, other.value()] : [other.value(), this.name];
      const terms = { seller, buyer, product: product.value(), amount: amount.value(), day: day.value() };
      return this.allege(terms, { other, [isSeller ? "buyer" : "seller"]: other, product, amount, day }, empty);
    });
  }

  /** Whether a trade is to be alleged though one with the same terms is there. */
  isWanted(terms) {
    const twin = this.rows.find((row) => row.state !== "ended" && TERMS.every((it) => row[it] === terms[it]));
    return !twin || isSure("The same trade once more?", `Trade ${twin.trade} has the same terms, and is ${twin.state}: ${termsText(twin)}`, "Allege another");
  }

  /** Alleges a trade, after which the fields are emptied. */
  allege(terms, fields, empty) {
    return this.act(async () => {
      if (!(await this.isWanted(terms))) return;
      try {
        const { fields: { trade } } = await call("POST", "/api/trades", terms);
        this.notes.addOwn(String(trade));
        tell(`Trade ${trade} is alleged: ${termsText(terms)} ${terms.seller === this.name ? terms.buyer : terms.seller} has to affirm it.`);
        empty();
      } catch (problem) {
        blame(problem, fields, ["TRADE", ...TERMS.map((it) => terms[it])], ["", ...TERMS]);
      }
    });
  }

  actions(row) {
    const does = (verb, text) => button(text, () => this.does(verb, row), { "data-key": `${verb} ${row.trade}`, "aria-label": `${text} trade ${row.trade}` });
    if (row.state === "ended") return [];
    if (row.state === "alleged") return [this.isOwn(row) ? null : does("affirm", "Affirm"), does("end", this.isOwn(row) ? "Withdraw" : "Reject")];
    return [does("hold", "Hold"), row.held === "held" ? does("free", "Free") : null, does("end", "End")];
  }

  isOwn(row) {
    return this.notes.own.includes(row.trade);
  }

  does(verb, row) {
    return this.act(async () => {
      if (verb === "end" && !(await isSure(`End trade ${row.trade}?`, termsText(row), "End it"))) return;
      try {
        const { reply, kind } = await call("POST", `/api/trades/${row.trade}/${verb}`, {});
        const [trade] = read(reply).words;
        tell(kind === "ending" ? `Trade ${trade} ends once the other party asks for it, too.` : `Trade ${trade} is ${kind}.`);
      } catch (problem) {
        if (verb !== "affirm" || problem.content?.number !== NOT_PARTY) throw problem;
        this.notes.addOwn(row.trade);
        warn(`You alleged trade ${row.trade}: the other party has to affirm it.`);
      }
    });
  }

  /** Shows the trades; while somebody looks at a row of them, none moves. */
  update(trades) {
    const alleged = trades.filter((row) => row.state === "alleged" && !this.isOwn(row));
    this.rows = trades;
    settle("book", () => this.draw(trades, alleged), () => {
      this.trades.mark(trades);
      this.alleged.mark(alleged);
    });
  }

  draw(trades, alleged) {
    this.trades.update(trades);
    this.alleged.update(alleged);
    this.whose.textContent = this.whoseText(trades.filter((row) => row.state === "alleged").length - alleged.length, alleged.length);
    this.positions(trades);
  }

  /** Of which alleged trades it is known who has to affirm them. */
  whoseText(own, others) {
    const waits = own ? `${own === 1 ? "1 trade" : `${own} trades`} alleged in this browser ${own === 1 ? "waits" : "wait"} for the other party, under My trades.` : "";
    if (!others) return waits;
    return `${waits} Of those below this page does not know who alleged them: the other party, or you, by another program or browser. To affirm one's own is refused, and does no harm.`;
  }

  positions(trades) {
    const nets = new Map();
    for (const { product, seller, amount, state } of trades) {
      const [out, into] = nets.get(product) || [0n, 0n];
      const value = state === "live" ? BigInt(amount) : 0n;
      nets.set(product, seller === this.name ? [out + value, into] : [out, into + value]);
    }
    this.none.hidden = nets.size > 0;
    this.nets.replaceChildren(...[...nets].sort().map(([product, sums]) => this.card(product, ...sums)));
  }

  /** A position, in words: who sold more than it bought owes, and is short. */
  card(product, out, into) {
    const currency = this.roster.currencies[product] ? ` ${this.roster.currencies[product]}` : "";
    const net = out - into;
    const text = net === 0n ? "Nothing either way: flat" : net > 0n ? `You owe ${grouped(net)}${currency}: short` : `You are owed ${grouped(-net)}${currency}: long`;
    return make("div", { class: "card" }, make("dt", {}, product), make("dd", {}, make("b", {}, text), `as the seller you owe ${grouped(out)}, as the buyer you are owed ${grouped(into)}`));
  }
}
