// Elements of the page. Texts go in as texts, never as markup.

import { amountOf } from "/page/amounts.js";
import { grouped } from "/page/replies.js";

const PICTURE = "http://www.w3.org/2000/svg";

function filled(element, attributes, children) {
  for (const [name, value] of Object.entries(attributes)) {
    if (typeof value === "function") element.addEventListener(name, value);
    else if (value === true) element.setAttribute(name, "");
    else if (value !== false && value !== null) element.setAttribute(name, String(value));
  }
  element.append(...children.flat().filter((child) => child !== null && child !== undefined));
  return element;
}

export const make = (name, attributes = {}, ...children) => filled(document.createElement(name), attributes, children);

export const draw = (name, attributes = {}, ...children) => filled(document.createElementNS(PICTURE, name), attributes, children);

export const by = (id) => document.getElementById(id);

export function show(id, isShown) {
  by(id).hidden = !isShown;
}

let count = 0;

/** A labelled field: an input, or a choice if there are options. What is wrong with it stands below it. */
export function field(label, attributes = {}, options = null) {
  const id = `field-${++count}`;
  const common = { id, "aria-describedby": `${id}-fault` };
  const input = options === null
    ? make("input", { ...common, spellcheck: "false", autocomplete: "off", ...attributes })
    : make("select", { ...common, ...attributes }, options.map(([value, text]) => make("option", { value }, text)));
  const name = make("label", { for: id }, label);
  const wrong = make("span", { id: `${id}-fault`, class: "fault" });
  const fault = (text) => {
    wrong.textContent = text;
    input.setAttribute("aria-invalid", String(text !== ""));
  };
  input.addEventListener("input", () => fault(""));
  return { input, label: name, fault, value: () => input.value.trim(), element: make("p", {}, name, input, wrong) };
}

/** A field for an amount, which shows in full what it is read as. */
export function amountField(label, attributes = {}) {
  const it = field(label, { inputmode: "text", ...attributes });
  const full = make("output", { for: it.input.id, class: "soft" });
  const read = () => amountOf(it.input.value);
  const show = () => {
    const isPlain = /^\d{0,3}$/.test(it.input.value.trim());
    full.textContent = isPlain || read() === null ? "" : `= ${grouped(read())}`;
  };
  it.input.addEventListener("input", show);
  it.element.append(full);
  const check = () => (it.input.value.trim() && read() === null ? "This is no whole number, as 25000000, 25,000,000 or 25m." : "");
  return { ...it, value: () => read() || "", check, clear: show };
}

export const button = (text, click, attributes = {}) => make("button", { type: "button", click, ...attributes }, text);

/** Whether the fields of a form can be sent. Those that can't say why, and the first of them is gone to. */
function areFilled(fields) {
  const wrong = fields.filter((it) => {
    const isMissing = it.input.required && !it.input.value.trim();
    const text = isMissing ? "This is missing." : it.check ? it.check() : "";
    it.fault(text);
    return text !== "";
  });
  if (wrong.length) {
    warn(wrong.map((it) => `${it.label.textContent}: ${it.input.nextSibling.textContent}`).join(" "));
    wrong[0].input.focus();
  }
  return wrong.length === 0;
}

/** A form whose fields stand side by side. `send` is called in place of the browser's own sending, one at a time, with what empties them. */
export function form(label, fields, text, send) {
  let isBusy = false;
  const empty = () => {
    element.reset();
    for (const it of fields) if (it.clear) it.clear();
  };
  const sent = async (event) => {
    event.preventDefault();
    if (isBusy || !areFilled(fields)) return;
    isBusy = true;
    try {
      await send(empty);
    } finally {
      isBusy = false;
    }
  };
  const element = make("form", { method: "post", class: "line", novalidate: true, "aria-label": label, submit: sent }, fields.map((it) => it.element), make("p", {}, make("button", {}, text)));
  return element;
}

/** What was done, or what was wrong, in words for everybody. */
export function tell(text) {
  by("wrong").textContent = "";
  by("told").textContent = text;
}

export function warn(text) {
  by("told").textContent = "";
  by("wrong").textContent = text;
}

/** Asks whether something is to be done. */
export function isSure(title, text, yes) {
  const dialog = by("sure");
  by("sure-title").textContent = title;
  by("sure-text").textContent = text;
  by("sure-yes").textContent = yes;
  return new Promise((resolve) => {
    const close = (value) => () => dialog.close(value);
    by("sure-yes").onclick = close("yes");
    by("sure-no").onclick = close("no");
    dialog.onclose = () => resolve(dialog.returnValue === "yes");
    dialog.returnValue = "no";
    dialog.showModal();
    by("sure-no").focus();
  });
}
