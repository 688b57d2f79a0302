// The roster without keys: the gateway's, or a file of the member's own.

import { make } from "/page/elements.js";
import { call } from "/page/calls.js";

export class Roster {
  constructor() {
    this.text = null;
    this.isOwn = false;
    this.members = [];
    this.products = [];
    this.currencies = {};
    this.lists = [make("datalist", { id: "members" }), make("datalist", { id: "products" })];
    document.body.append(...this.lists);
  }

  async ask() {
    try {
      const { roster, currencies } = await call("GET", "/api/roster");
      this.take(roster);
      this.currencies = currencies;
    } catch (problem) {
      if (problem.status !== 404) throw problem;
    }
  }

  take(text, isOwn = false) {
    const rows = text.split("\n").slice(1).map((line) => line.trim().split(",")).filter((row) => row.length === 3);
    this.text = text;
    this.isOwn = isOwn;
    this.members = rows.filter(([, role]) => role === "dealer" || role === "customer").map(([name]) => name);
    this.products = rows.filter(([, role]) => role === "product").map(([name]) => name);
    const names = [this.members, this.products];
    this.lists.forEach((list, at) => list.replaceChildren(...names[at].map((value) => make("option", { value }))));
  }

  drop() {
    for (const list of this.lists) list.remove();
  }
}
