// Who presses a button hits the row that was aimed at: while somebody looks at rows that act, nothing on the page moves.
//
// One looks while the pointer is over such rows, while it is down anywhere, and while the keyboard's focus is in them. What changes
// meanwhile is drawn a moment after one has looked away. A row that moved by itself just before it was pressed does not count as aimed at.

const AWAY = 300;
const JUST = 700;

const regions = [];
let isDown = false;
let movedAt = -JUST;
let timer = null;
const waiting = new Map();

const hasFocus = (region) => region.contains(document.activeElement) && document.activeElement.matches(":focus-visible");

export const isLooking = () => isDown || (!document.hidden && regions.some((it) => it.matches(":hover") || hasFocus(it)));

/** Whether rows have moved by themselves so short a time ago that whoever presses one may have aimed at another. */
export const hasJustMoved = () => performance.now() - movedAt < JUST;

const topOf = (row) => Math.round(row.getBoundingClientRect().top);

const rows = () => regions.flatMap((it) => [...it.querySelectorAll("tr[data-row]")]);

const nameOf = (row) => `${row.closest("[aria-label]").getAttribute("aria-label")} ${row.dataset.row}`;

function drawn(draw) {
  const before = new Map(rows().map((row) => [nameOf(row), topOf(row)]));
  draw();
  const hasMoved = rows().some((row) => before.has(nameOf(row)) && before.get(nameOf(row)) !== topOf(row));
  if (hasMoved) movedAt = performance.now();
}

/** Draws what has come, or marks it and draws it once nobody looks; of one name only the last. */
export function settle(name, draw, mark) {
  waiting.delete(name);
  if (!isLooking()) return drawn(draw);
  mark();
  waiting.set(name, draw);
}

function flush() {
  timer = null;
  if (isLooking()) return;
  const draws = [...waiting.values()];
  waiting.clear();
  if (draws.length) drawn(() => draws.forEach((draw) => draw()));
}

function looksAway() {
  clearTimeout(timer);
  timer = waiting.size ? setTimeout(flush, AWAY) : null;
}

/** From now on the rows of this element keep still while one looks at them. */
export function keepStill(region) {
  regions.push(region);
}

/** The rows of whoever was signed in are looked at no more. */
export function forgetRows() {
  regions.length = 0;
  waiting.clear();
}

for (const kind of ["pointerdown", "pointerup", "pointercancel", "pointerover", "pointerout"]) {
  addEventListener(kind, (event) => {
    isDown = kind !== "pointercancel" && event.buttons !== 0;
    looksAway();
  }, true);
}
for (const kind of ["focusin", "focusout", "blur", "scroll"]) {
  addEventListener(kind, () => {
    if (kind === "blur") isDown = false;
    looksAway();
  }, true);
}
document.addEventListener("visibilitychange", looksAway);
