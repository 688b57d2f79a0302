// The page: who is signed in, its parts, and what is asked anew when the history moves.

import { by, make, show, tell, warn } from "/page/elements.js";
import { call, onOver, signIn, signOut } from "/page/calls.js";
import { follow } from "/page/follow.js";
import { forgetRows } from "/page/looking.js";
import { Book } from "/page/book.js";
import { Market, Operation } from "/page/operator.js";
import { Notes } from "/page/notes.js";
import { Proposal } from "/page/proposal.js";
import { Roster } from "/page/roster.js";
import { Tolerances } from "/page/tolerances.js";
import { Trades } from "/page/trades.js";

const OPEN = ["frozen", "solving", "proposed"];
const LOOK = 5000;
const PHASES = {
  frozen: "trades are frozen", solving: "a version has begun",
  proposed: "a proposal waits for votes", broken: "broken by the end of a frozen trade: it is to be cancelled",
};

const ENDED = { executed: "was carried out", cancelled: "was cancelled", nothing: "touched nobody, and ended so" };

let desk = null;

/** Does what was asked for; what goes wrong is told. Then the page is brought up to date. */
async function act(does) {
  try {
    await does();
  } catch (problem) {
    warn(problem.message);
  }
  await refresh();
}

function memberParts(common) {
  const [book, tolerances, proposal] = [new Book(common), new Tolerances(common), new Proposal(common)];
  const trades = new Trades();
  const empty = make("p", {}, "Nothing is proposed. A proposal comes here by itself.");
  const update = async (stands) => {
    await trades.ask();
    if (OPEN.includes(stands.phase)) common.notes.freeze(stands.cycle, trades.lines());
    common.notes.read();
    book.update(trades.rows());
    tolerances.update();
    const isProposed = stands.phase === "proposed";
    empty.hidden = isProposed;
    proposal.element.hidden = !isProposed;
    if (isProposed) await proposal.update(stands.cycle, stands.version);
  };
  return { parts: [["book", "Book", [book.element]], ["tolerances", "Tolerances", [tolerances.element]], ["proposal", "Proposal", [empty, proposal.element]]], update };
}

function operatorParts(common) {
  const [market, operation] = [new Market(common), new Operation(common)];
  const update = async (stands) => {
    await market.update();
    await operation.update(stands);
  };
  return { parts: [["market", "Market", [market.element]], ["cycle", "Cycle", [operation.element]]], update };
}

/** Where the last cycle stands, with its numbers as texts. */
async function stand() {
  const { fields } = await call("GET", "/api/cycle");
  const { cycle, phase, version, trade, ended } = fields;
  const more = `${version === undefined ? "" : `, version ${version}`}${trade === undefined ? "" : `, trade ${trade}`}`;
  const last = cycle ? `No cycle is open. ${ENDED[ended] ? `Cycle ${cycle} ${ENDED[ended]}.` : `The last was ${cycle}; how it ended did not come through this gateway.`}` : "No cycle is open.";
  by("stands").textContent = phase === "none" ? last : `Cycle ${cycle}: ${PHASES[phase] || phase}${more}.`;
  return { cycle: String(cycle), phase, version: version === undefined ? "" : String(version) };
}

/** Asks anew for what is shown: one round at a time, and once more where the history moved meanwhile. */
async function refresh() {
  if (!desk) return;
  if (desk.running) {
    desk.isBehind = true;
    return desk.running;
  }
  const mine = desk;
  const round = async () => {
    do {
      mine.isBehind = false;
      try {
        await mine.update(await stand());
      } catch (problem) {
        if (desk === mine) warn(problem.message);
      }
    } while (mine.isBehind && desk === mine);
    mine.running = null;
  };
  mine.running = round();
  return mine.running;
}

function part() {
  if (!desk) return;
  const wanted = location.hash.slice(1);
  const names = desk.parts.map(([id]) => id);
  const now = names.includes(wanted) ? wanted : names[0];
  for (const id of names) {
    show(`part-${id}`, id === now);
    by(`to-${id}`).setAttribute("aria-current", id === now ? "page" : "false");
  }
}

function built(parts) {
  by("parts").replaceChildren(...parts.map(([id, title, content]) => make("section", { id: `part-${id}`, "aria-labelledby": `title-${id}` },
    make("h1", { id: `title-${id}`, tabindex: "-1" }, title), content)));
  by("nav").replaceChildren(...parts.map(([id, title]) => make("a", { id: `to-${id}`, href: `#${id}` }, title)));
}

function isIn(name, role) {
  show("sign-in", !name);
  for (const id of ["nav", "who", "sign-out", "stands"]) show(id, Boolean(name));
  by("who").textContent = name ? `${name}, ${role}` : "";
  document.title = name ? `${name} · Delkwoan` : "Delkwoan";
}

function moved(position) {
  if (position === null) return warn("The service does not answer.");
  if (by("wrong").textContent === "The service does not answer.") warn("");
  return refresh();
}

async function begin({ name, role, idle }) {
  const roster = new Roster();
  await roster.ask();
  const common = { name, roster, act, notes: role === "member" ? new Notes(name) : null };
  desk = { roster, idle: idle * 1000, used: Date.now(), ...(role === "member" ? memberParts(common) : operatorParts(common)) };
  built(desk.parts);
  isIn(name, role);
  part();
  const mine = desk;
  await refresh();
  if (desk !== mine) return;
  desk.end = follow(moved, () => over("The session is over: sign in again."));
  by(`title-${desk.parts[0][0]}`).focus();
}

function over(text) {
  if (!desk) return;
  const { end, roster } = desk;
  desk = null;
  if (end) end();
  forgetRows();
  roster.drop();
  by("parts").replaceChildren();
  isIn("");
  tell(text);
  by("name").focus();
}

async function enter(event) {
  event.preventDefault();
  const [name, key] = [by("name").value.trim(), by("key").value];
  by("key").value = "";
  try {
    const told = await signIn(name, key);
    tell("");
    await begin(told);
  } catch (problem) {
    warn(problem.message);
  }
}

async function leave(text) {
  await signOut().catch(() => {});
  over(text);
}

function used() {
  if (desk) desk.used = Date.now();
}

by("sign-in-form").addEventListener("submit", enter);
by("sign-out").addEventListener("click", () => leave("Signed out."));
onOver(() => over("The session is over: sign in again."));
addEventListener("hashchange", () => {
  part();
  tell("");
  const shown = desk && by(`title-${location.hash.slice(1)}`);
  if (shown) shown.focus();
});
for (const kind of ["pointerdown", "keydown"]) addEventListener(kind, used);
by("said").addEventListener("click", () => tell(""));
addEventListener("keydown", (event) => {
  if (event.key === "Escape") tell("");
});
setInterval(() => {
  if (desk && Date.now() - desk.used > desk.idle) leave("Signed out: nothing was done for a long while.");
}, LOOK);
