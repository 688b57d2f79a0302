// A member's trades: asked for once, and then for those that have changed.

import { call } from "/page/calls.js";
import { tradeOf } from "/page/replies.js";

export class Trades {
  constructor() {
    this.since = null;
    this.kept = new Map();
  }

  async ask() {
    const { position, since, lines } = await call("GET", `/api/book${this.since === null ? "" : `?since=${this.since}`}`);
    if (since === null) this.kept.clear();
    for (const line of lines) this.kept.set(line.split(" ")[1], line);
    this.since = position;
  }

  /** The lines of a STATEMENT, in the order of the trades' numbers. */
  lines() {
    return [...this.kept.values()];
  }

  rows() {
    return this.lines().map(tradeOf);
  }
}
