// A table that is sorted by its headings, filtered by a text and a choice, and shown page by page.

import { button, field, make, tell } from "/page/elements.js";
import { hasJustMoved, keepStill } from "/page/looking.js";
import { compare, grouped } from "/page/replies.js";

const PAGE = 100;

/** `columns` are [name, heading, isNumber]; `choice` is [name, label, values]; `actions` gives a row's buttons, and then rows keep still. */
export class Table {
  constructor({ label, columns, key, empty, choice = null, actions = null, filters = true }) {
    Object.assign(this, { label, columns, key, empty, choice, actions });
    this.rows = [];
    this.drawn = new Map();
    this.by = columns[0][0];
    this.isDown = false;
    this.page = 0;
    this.controls(filters);
    this.count = make("p", { class: "soft", "aria-live": "polite" });
    this.since = make("p", { class: "soft since", "aria-live": "polite" });
    this.heads = columns.map(([name, heading, isNumber]) => this.heading(name, heading, isNumber));
    this.body = make("tbody");
    const more = actions ? [make("th", { scope: "col" }, "What to do")] : [];
    const head = make("thead", {}, make("tr", {}, this.heads, more));
    const table = make("table", {}, make("caption", { class: "unseen" }, label), head, this.body);
    this.wide = make("div", { class: "wide", tabindex: "0", role: "region", "aria-label": label }, table);
    this.element = make("div", {}, this.line, this.count, this.wide, actions && this.since, this.pages);
    if (actions) {
      keepStill(this.wide);
      this.body.addEventListener("click", (event) => this.guard(event), true);
    }
    this.fill();
  }

  /** What is looked for, and the way through the pages. */
  controls(filters) {
    const anew = () => {
      this.page = 0;
      this.fill();
    };
    this.text = field("Filter", { type: "search", input: anew });
    this.only = this.choice && field(this.choice[1], { change: anew }, [["", "all"], ...this.choice[2].map((it) => [it, it])]);
    const line = make("div", { class: "line", role: "search", "aria-label": `Filter of ${this.label}` }, this.text.element, this.only && this.only.element);
    this.line = filters ? line : null;
    const turn = (by) => (event) => {
      this.page += by;
      this.fill();
      const [other] = this.turns.filter((it) => it !== event.currentTarget);
      if (event.currentTarget.disabled) other.focus();
    };
    this.turns = [button("Previous", turn(-1), { "aria-label": `Previous page of ${this.label}` }), button("Next", turn(1), { "aria-label": `Next page of ${this.label}` })];
    this.pages = make("p", { class: "buttons" }, this.turns);
  }

  heading(name, heading, isNumber) {
    const sort = () => {
      this.isDown = this.by === name && !this.isDown;
      this.by = name;
      this.fill();
    };
    return make("th", { scope: "col", class: isNumber ? "number" : null, "data-name": name }, button(heading, sort, { class: "sort" }));
  }

  update(rows) {
    this.rows = rows;
    this.fill();
  }

  /** Takes rows in without moving any: those that are others now can't be pressed until they are drawn anew. */
  mark(rows) {
    const now = new Map(rows.map((row) => [row[this.key], row]));
    const known = new Set(this.rows.map((row) => row[this.key]));
    let changed = 0;
    for (const [key, { element, text }] of this.drawn) {
      const isOther = !now.has(key) || this.textOf(now.get(key)) !== text;
      changed += Number(isOther);
      element.classList.toggle("past", isOther);
      for (const it of element.querySelectorAll("button")) it.setAttribute("aria-disabled", String(isOther));
    }
    const more = rows.filter((row) => !known.has(row[this.key])).length;
    const words = [changed && `${changed} changed`, more && `${more} came`].filter((it) => it);
    this.since.textContent = words.length ? `${words.join(", ")} meanwhile: drawn anew once you leave the table.` : "";
  }

  /** Keeps back a press on what is no more, or on a row that may not be the one that was aimed at. */
  guard(event) {
    const pressed = event.target.closest("button");
    if (!pressed) return;
    const isPast = pressed.getAttribute("aria-disabled") === "true";
    if (!isPast && !(event.detail > 0 && hasJustMoved())) return;
    event.stopPropagation();
    event.preventDefault();
    tell(isPast ? `Nothing is sent: ${pressed.closest("tr").dataset.row} has changed meanwhile.` : "Nothing is sent: the rows have just moved. Look, and press again.");
  }

  wanted() {
    const text = this.text.input.value.trim().toLowerCase();
    const only = this.only ? this.only.input.value : "";
    const found = this.rows.filter((row) => (!only || row[this.choice[0]] === only)
      && this.columns.some(([name]) => String(row[name]).toLowerCase().includes(text)));
    const sign = this.isDown ? -1 : 1;
    return found.sort((one, other) => sign * compare(one[this.by], other[this.by]) || compare(one[this.key], other[this.key]));
  }

  fill() {
    const focus = document.activeElement && this.body.contains(document.activeElement) ? document.activeElement.dataset.key : null;
    const found = this.wanted();
    for (const it of [this.line, this.wide]) if (it) it.hidden = this.rows.length === 0;
    for (const head of this.heads) {
      const isSorted = head.dataset.name === this.by;
      head.setAttribute("aria-sort", isSorted ? (this.isDown ? "descending" : "ascending") : "none");
    }
    this.since.textContent = "";
    const shown = this.paged(found);
    this.drawn = new Map(shown.map((row) => [row[this.key], { text: this.textOf(row), element: this.row(row) }]));
    this.body.replaceChildren(...[...this.drawn.values()].map((it) => it.element));
    if (focus) {
      const again = [...this.body.querySelectorAll("[data-key]")].find((it) => it.dataset.key === focus);
      if (again) again.focus();
    }
  }

  /** The rows of the page that is shown. */
  paged(found) {
    const last = Math.max(Math.ceil(found.length / PAGE) - 1, 0);
    this.page = Math.min(Math.max(this.page, 0), last);
    const first = this.page * PAGE;
    const shown = found.slice(first, first + PAGE);
    this.pages.hidden = last === 0;
    this.turns[0].disabled = this.page === 0;
    this.turns[1].disabled = this.page === last;
    const part = last ? `, ${first + 1} to ${first + shown.length} shown` : "";
    this.count.textContent = this.rows.length ? `${found.length} of ${this.rows.length}${part}` : this.empty;
    return shown;
  }

  /** All that a row shows and lets do. */
  textOf(row) {
    const acts = this.actions ? this.actions(row).filter((it) => it).map((it) => it.dataset.key) : [];
    return JSON.stringify([...this.columns.map(([name]) => row[name]), ...acts]);
  }

  row(row) {
    const cells = this.columns.map(([name, heading, isNumber]) => {
      const text = isNumber ? grouped(row[name]) : row[name];
      return make("td", { class: isNumber ? "number" : null, "data-label": heading }, text);
    });
    return make("tr", { "data-row": `${this.columns[0][1]} ${row[this.columns[0][0]]}` }, cells, this.actions ? [make("td", { class: "acts" }, this.actions(row))] : []);
  }
}
