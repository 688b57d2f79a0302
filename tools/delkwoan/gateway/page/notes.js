// What a member notes for its own test of a proposal: its tolerances with their positions, and its trades at the freeze.
// No line lists a member's tolerances; so they are kept here, in the browser's storage, by the member's name.

const SIDES = ["out", "in"];

export class Notes {
  constructor(name) {
    this.place = `delkwoan.notes.${name}`;
    this.read();
  }

  read() {
    let kept = null;
    try {
      kept = JSON.parse(localStorage.getItem(this.place));
    } catch {
      // nothing that was kept can be read
    }
    const { tolerances = [], trades = [], cycle = "0", own = [] } = kept || {};
    Object.assign(this, { tolerances, trades, cycle, own });
  }

  keep() {
    const { tolerances, trades, cycle, own } = this;
    try {
      localStorage.setItem(this.place, JSON.stringify({ tolerances, trades, cycle, own }));
    } catch {
      // the notes last until the page is left
    }
  }

  addTolerance(position, words) {
    this.read();
    this.tolerances.push([position, "TOL", ...words].join(" "));
    this.keep();
  }

  /** A trade that this member alleged, which the other has to affirm. */
  addOwn(trade) {
    this.read();
    if (!this.own.includes(trade)) this.own.push(trade);
    this.keep();
  }

  /** Takes the trades down at the first look after a cycle's freeze. */
  freeze(cycle, lines) {
    this.read();
    if (this.cycle === cycle) return;
    this.cycle = cycle;
    this.trades = lines;
    this.keep();
  }

  forget() {
    localStorage.removeItem(this.place);
    this.read();
  }

  /** The notes as tools/check_mine reads them. */
  text() {
    return [...this.tolerances, ...this.trades].map((line) => `${line}\n`).join("");
  }

  load(text) {
    const lines = text.split("\n").filter((line) => line);
    this.read();
    this.tolerances = lines.filter((line) => line.split(" ")[1] === "TOL");
    const trades = lines.filter((line) => line.startsWith("trade "));
    if (trades.length) this.trades = trades;
    this.keep();
  }

  /** The last setting of each other member, product and side. */
  settings() {
    const last = new Map();
    for (const line of this.tolerances) {
      const [position, , other, product, side, floor, ceiling] = line.split(" ");
      if (SIDES.includes(side)) last.set([other, product, side].join(" "), { position, other, product, side, floor, ceiling });
    }
    return [...last.values()];
  }
}

/** Has the browser save a text as a file. */
export function save(name, text) {
  const link = document.createElement("a");
  link.href = URL.createObjectURL(new Blob([text], { type: "text/plain" }));
  link.download = name;
  link.click();
  setTimeout(() => URL.revokeObjectURL(link.href), 1000);
}
