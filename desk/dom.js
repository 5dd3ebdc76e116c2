// How the desk makes what is seen. Each text goes in as a text: nothing here, or elsewhere in the desk, reads markup.

const present = (children) =>
  children.flat(Infinity).filter((child) => child !== null && child !== undefined && child !== false);

// An element with attributes, listeners (`onclick` and so on), and children that are elements or texts.
export function el(tag, given = {}, ...children) {
  const made = document.createElement(tag);
  for (const [name, value] of Object.entries(given)) {
    if (value === undefined || value === null || value === false) continue;
    if (name.startsWith("on")) made.addEventListener(name.slice(2), value);
    else made.setAttribute(name, value === true ? "" : value);
  }
  made.append(...present(children));
  return made;
}

const SVG = "http://www.w3.org/2000/svg";

export function svg(tag, given = {}, ...children) {
  const made = document.createElementNS(SVG, tag);
  for (const [name, value] of Object.entries(given)) made.setAttribute(name, value);
  made.append(...children);
  return made;
}

export function replace(place, ...children) {
  place.replaceChildren(...present(children));
}

// A module did not come.
export class Lacking extends Error {}

// A module that comes when it is wanted.
export async function part(file) {
  try {
    return await import(file);
  } catch (fault) {
    throw new Lacking(`${file}: ${fault.message}`);
  }
}

// Characters that turn the direction of a line round, end it, or are not seen: the register takes them in a purpose.
const SORTS = "\\p{Cc}\\p{Cf}\\p{Zl}\\p{Zp}\\p{Co}\\p{Cn}\\p{Cs}";
const SPACES = "\\u00a0\\u1680\\u2000-\\u200a\\u202f\\u205f\\u3000\\u115f\\u1160\\u3164\\uffa0";
const UNSEEN = new RegExp(`^[${SORTS}${SPACES}]$`, "u");
const PARTS = new RegExp(`([${SORTS}${SPACES}])`, "u");

const codeOf = (letter) => `U+${letter.codePointAt(0).toString(16).toUpperCase().padStart(4, "0")}`;

// A text of somebody's own, which cannot disturb the line that it stands in: its direction is its own, and each
// character that is not seen is shown by its code.
export function shown(text, given = {}) {
  const parts = text.split(PARTS).filter((part) => part !== "");
  return el("bdi", {class: "text", ...given}, parts.map((part) =>
    UNSEEN.test(part) ? el("span", {class: "code"}, codeOf(part)) : part));
}

// A name, which stands whole on its line where there is room for it.
export const name = (text) => shown(text, {class: "text name"});

// A text where no element can stand, as in an option or a label.
export function plain(text) {
  return text.split(PARTS).map((part) => (UNSEEN.test(part) ? `[${codeOf(part)}]` : part)).join("");
}

let places = 0;
export const freshId = (word) => `${word}-${++places}`;

// A label with its field, and a line beside it that tells more.
export function field(label, input, ...more) {
  input.id ||= freshId("field");
  return el("div", {class: "field"}, el("label", {for: input.id}, label), input, ...more);
}

// A choice of one of these, which begins with the chosen one, or the first.
export function select(options, given = {}, chosen = undefined) {
  return el("select", given, options.map(([value, text]) => el("option", {value, selected: value === chosen}, text)));
}

// ---- what is heard

const QUIET = 1000;
let saying = 0;

// Says a text to whoever does not see the page: in a while, so that not each letter that is typed is told, and nothing
// where that is told already. What was to be said before it is not said any more.
export function announce(text, milliseconds = QUIET) {
  clearTimeout(saying);
  saying = setTimeout(() => {
    const place = document.getElementById("heard");
    if (place.textContent !== text) place.textContent = text;
  }, milliseconds);
}

export function hush() {
  clearTimeout(saying);
  document.getElementById("heard").textContent = "";
}

// ---- what was typed stays

function isTyped(field) {
  if (field.tagName !== "SELECT") return field.value !== field.defaultValue;
  const begun = [...field.options].findIndex((option) => option.defaultSelected);
  return field.selectedIndex !== Math.max(begun, 0);
}

// What was typed into the forms of commands of a place, and which of these are open. A form that is as it began is not
// among them, so that it begins with what stands by then.
export function formsIn(place) {
  return [...place.querySelectorAll("form.command")].map((form) => {
    const fields = [...form.elements].filter(({name}) => name);
    return {
      kind: form.dataset.kind,
      isOpen: form.closest("details")?.open,
      values: fields.some(isTyped) ? fields.map(({name, value}) => [name, value]) : [],
    };
  });
}

// Puts it back into the forms that are there again, but for the kind that was sent.
export function fillForms(place, before, sent = null) {
  for (const {kind, isOpen, values} of before) {
    const form = place.querySelector(`form.command[data-kind='${kind}']`);
    if (!form || isOpen === false || kind === sent) continue;
    if (isOpen) form.closest("details").open = true;
    // What is done with a date is put back behind the date, which sets it.
    values.sort(([one], [other]) => one.endsWith("-edit") - other.endsWith("-edit"));
    for (const [name, value] of values) {
      const input = form.elements[name];
      if (!input) continue;
      input.value = value;
      input.dispatchEvent(new Event("input", {bubbles: true}));
    }
  }
}

// Shows a place anew: what was typed into its forms stays, and the focus in them.
export function keepingForms(place, show, sent = null) {
  const before = formsIn(place), at = document.activeElement, form = at?.closest("form.command");
  show();
  fillForms(place, before, sent);
  if (!form || form.isConnected || form.dataset.kind === sent) return;
  place.querySelector(`form.command[data-kind='${form.dataset.kind}'] [name='${at.name}']`)?.focus();
}

// A table with these heads and rows of cells, shown as cards where the page is narrow. It keeps its roles then, which
// a style would take from it. `sorts` says of a head that the rows go by it: "ascending" or "descending".
export function cards(heads, rows, given, caption, sorts = {}) {
  const cell = (content, place) =>
    el("td", {role: "cell", "data-head": heads[place], class: content === "" ? "empty" : null}, content);
  return el("table", {role: "table", ...given, class: "cards"},
    caption ? el("caption", {}, caption) : null,
    el("thead", {role: "rowgroup"},
      el("tr", {role: "row"}, heads.map((head) =>
        el("th", {scope: "col", role: "columnheader", "aria-sort": sorts[head]}, head)))),
    el("tbody", {role: "rowgroup"}, rows.map((cells) => el("tr", {role: "row"}, cells.map(cell)))));
}

// ---- lists by parts

// What is put in whole before it is printed, and put back after it, by its place.
const whole = new WeakMap();

function printed(does) {
  for (const place of document.querySelectorAll(".results")) whole.get(place)?.[does]();
}

globalThis.addEventListener?.("beforeprint", () => printed("put"));
globalThis.addEventListener?.("afterprint", () => printed("back"));

// What a list shows at first, and more of it at each press of its button. The focus goes to the first row that came.
// Where there are more rows than these, `grow` adds some, and tells whether there may be more still. Printed, all that
// are there stand there.
export function byParts(rows, size, show, place, grow = null) {
  let most = size, isWhole = !grow;
  const look = (first) => {
    const rest = rows.length - most;
    whole.set(place, rest > 0 && {put: () => replace(place, show(rows)), back: look});
    const more = async () => {
      const before = most;
      most += size;
      while (!isWhole && rows.length <= most) isWhole = !await grow();
      look(before);
    };
    replace(place, show(rows.slice(0, most)), rest > 0
      ? el("button", {type: "button", class: "more", onclick: more}, `Show ${Math.min(rest, size)} more`) : null);
    if (first === undefined) return;
    const row = place.querySelectorAll("tbody tr")[first];
    const goal = row?.querySelector("a, input:not(:disabled)") ?? row;
    goal?.setAttribute("tabindex", goal === row ? "-1" : "0");
    goal?.focus();
  };
  look();
}
