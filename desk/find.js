// Keys that are found, and what waits for the reader.
import {announce, byParts, cards, el, field, freshId, name, part, replace, select, shown} from "./dom.js";
import {SORTS, allNames, dueWithin, isComing, keyAt, known, list, matching, waiting} from "./list.js";
import {now} from "./register.js";
import {PERIODS, STATES, isOverdue} from "./rules.js";
import {away, counted, state, utcText} from "./words.js";

export const SHOWN = 50;
// Within so many days a key is due, for the page of that name.
export const DUE_DAYS = 30;

// ---- rows of keys

const HEADS = ["Key", "State", "Owner", "Type", "Protect Stop", "Approvals", "Purpose"];
// By which each is sorted.
const BY = Object.keys(SORTS);

function row(number, at) {
  const key = keyAt(number, at);
  const stop = key.protect_stop === null ? "" : el("span", {class: "moment"},
    el("time", {}, utcText(key.protect_stop)), " ",
    el("span", {class: "away"}, `(${away(key.protect_stop, at)})`));
  const approvals = key.custodians.length ? `${key.approvals.length} of ${key.need}` : "";
  return [el("a", {href: `#key/${number}`}, String(number)), state(key.state, isOverdue(key, at)), name(key.owner),
    key.type, stop, approvals, shown(key.purpose)];
}

export const keyTable = (numbers, at, caption, sorts) =>
  el("div", {class: "wide"}, cards(HEADS, numbers.map((number) => row(number, at)), {}, caption, sorts));

// ---- finding

const nameInput = () => el("input", {type: "text", list: "owners", autocomplete: "off", spellcheck: "false"});
const checkbox = () => el("input", {type: "checkbox", id: freshId("field")});

// Those that are checked have no value, but `mine`, `waits` and `down`.
const CHECKED = ["mine", "waits", "down"];

function filterFields() {
  return {
    text: el("input", {type: "search", autocomplete: "off", spellcheck: "false"}),
    owner: nameInput(),
    custodian: nameInput(),
    type: select([["", "any"], ...Object.keys(PERIODS).map((type) => [type, type])]),
    state: select([["", "any"], ...STATES.map((word) => [word, word])]),
    days: el("input", {type: "number", min: 0, max: 36500, step: 1, inputmode: "numeric"}),
    sort: select([["", "as it comes"], ...HEADS.map((head, at) => [BY[at], head])]),
    mine: checkbox(),
    waits: checkbox(),
    down: checkbox(),
  };
}

const DAYS = /^\d{1,5}$/;
const isDays = (text) => DAYS.test(text) && Number(text) <= 36500;

// The filter of a page's address, as `#find?state=Active`.
function filterOf(given, me) {
  const value = (member) => given.get(member) ?? "", days = value("days");
  return {
    text: value("text"),
    owner: value("owner"),
    custodian: value("custodian"),
    type: value("type"),
    state: value("state"),
    days: isDays(days) ? Number(days) : null,
    mine: value("mine") === "1" ? me : "",
    waits: value("waits") === "1",
    sort: BY.includes(value("sort")) ? value("sort") : "",
    isDown: value("down") === "1",
  };
}

function written(fields) {
  const given = new URLSearchParams();
  for (const [member, input] of Object.entries(fields)) {
    const value = !CHECKED.includes(member) ? input.value : input.checked ? "1" : "";
    if (value) given.set(member, value);
  }
  return given;
}

function lacking() {
  if (!list.isThere) {
    return isComing() ? "The list of keys is on its way: keys are asked for by their numbers meanwhile."
      : "The list of keys is not there: keys are asked for by their numbers alone.";
  }
  if (!list.hasKeys) {
    return `The register has ${list.count} keys, too many for the list: they are asked for by their numbers alone.`;
  }
  return "";
}

export const lackingNote = () => (lacking() ? el("p", {class: "note"}, lacking()) : null);

// A number of days that is none is said, and filters nothing.
function lookAtDays(input, hint) {
  const isWrong = input.validity.badInput || (input.value !== "" && !isDays(input.value));
  hint.textContent = isWrong ? "0 to 36500 days: it is left out" : "";
  if (isWrong) input.setAttribute("aria-invalid", "true");
  else input.removeAttribute("aria-invalid");
}

// Gives keys that are found as a file, with the state that the page shows; how many a spreadsheet would run.
async function takeAway(numbers, at) {
  const {exportOf, isFormula} = await part("./csv.js");
  const keys = numbers.map((number) => keyAt(number, at));
  const href = URL.createObjectURL(new Blob([exportOf(keys)], {type: "text/csv"}));
  el("a", {download: "keys.csv", href}).click();
  setTimeout(() => URL.revokeObjectURL(href), 60000);
  return keys.filter(({purpose}) => isFormula(purpose)).length;
}

const FORMULAS = "so that a spreadsheet takes it for a formula: open the file with each column as text";

// What is found, as a file.
function fileButton(numbers, at) {
  const hint = el("span", {class: "hint", role: "status"});
  const take = async () => {
    const count = await takeAway(numbers, at);
    replace(hint, count ? ` The purpose of ${counted(count, "key")} begins with = + - or @, ${FORMULAS}.` : "");
  };
  const words = `Take ${counted(numbers.length, "key")} as CSV`;
  return numbers.length ? [el("button", {type: "button", onclick: take}, words), hint] : null;
}

// A press at a head of the table sorts by its column; at that by which it is sorted, the other way round.
function sortAt({target}, {sort, down}) {
  const column = [...target.closest("tr")?.children ?? []].indexOf(target);
  if (target.tagName !== "TH" || column < 0) return;
  down.checked = sort.value === BY[column] && !down.checked;
  sort.value = BY[column];
  sort.dispatchEvent(new Event("change", {bubbles: true}));
}

export function findPage(place, given, desk) {
  const fields = filterFields(), results = el("div", {class: "results sorted"}), file = el("p", {class: "buttons"});
  const count = el("p", {class: "count"}), hint = el("span", {class: "hint", id: freshId("hint")});
  fields.days.setAttribute("aria-describedby", hint.id);
  const look = (event) => {
    const at = now(), filter = written(fields), asked = filterOf(filter, desk.me), numbers = matching(asked, at);
    const sorts = {[HEADS[BY.indexOf(asked.sort)]]: asked.isDown ? "descending" : "ascending"};
    lookAtDays(fields.days, hint);
    history.replaceState(history.state, "", `#find${filter.size ? `?${filter}` : ""}`);
    replace(count, `${numbers.length} of ${counted(known(), "key")}`
      + (list.hasKeys ? "" : " that this page was told of: the others are not looked through"));
    if (event) announce([hint.textContent, count.textContent].filter(Boolean).join("; "));
    replace(file, fileButton(numbers, at));
    byParts(numbers, SHOWN, (some) => (some.length ? keyTable(some, at, "Keys found", sorts) : null), results);
  };
  for (const [member, input] of Object.entries(fields)) {
    if (CHECKED.includes(member)) input.checked = given.get(member) === "1";
    else input.value = given.get(member) ?? "";
  }
  const go = (event) => {
    event.preventDefault();
    const number = fields.text.value.trim();
    if (/^\d+$/.test(number)) location.hash = `#key/${number}`;
  };
  const check = (input, label) => el("div", {class: "field check"}, input, el("label", {for: input.id}, label));
  const names = [...allNames()].sort().slice(0, 2000);
  results.addEventListener("click", (event) => sortAt(event, fields));
  replace(place, el("h1", {}, "Find keys"), lackingNote(),
    el("form", {class: "find", role: "search", oninput: look, onchange: look, onsubmit: go},
      field("Number, owner, type or purpose", fields.text,
        el("button", {type: "submit"}, "Show the key of this number")),
      field("Owner, or a part", fields.owner,
        el("datalist", {id: "owners"}, names.map((value) => el("option", {value})))),
      field("Custodian, or a part", fields.custodian), field("Type", fields.type), field("State now", fields.state),
      field("Due within days", fields.days, hint), field("Sorted by", fields.sort),
      check(fields.down, "The last first"), check(fields.mine, "Mine alone"),
      check(fields.waits, "Waits for approvals")),
    count, file, results);
  look();
}

// ---- what waits

const WAITS = [
  ["begun", "A destruction was begun", "An approval stands, and yours lacks. Open a key to approve its destruction."],
  ["destroyable", "Yours to destroy", "Keys of yours that have the approvals they need. Open one to destroy it."],
  ["guarded", "You are a custodian", "Nobody approved a destruction yet."],
];

// The keys stay in their order until the page is opened anew: none moves under the hand of who is about to open one.
export function waitsPage(place, desk) {
  const at = now(), keys = waiting(desk.me, at), none = list.hasKeys ? "None." : "Not known: there is no list.";
  const parts = WAITS.map(([sort, head, hint]) => {
    const results = el("div", {class: "results"}), numbers = keys[sort];
    byParts(numbers, SHOWN, (some) =>
      (some.length ? keyTable(some, at, counted(numbers.length, "key")) : el("p", {}, none)), results);
    return el("section", {class: sort}, el("h2", {}, head), el("p", {class: "hint"}, hint), results);
  });
  replace(place, el("h1", {}, "What waits for you"), lackingNote(), el("div", {id: "newer", role: "status"}), parts);
}

// How much waits for a name, by the pages that tell it; nothing where there is no list.
export function countsFor(me) {
  if (!list.hasKeys) return {};
  const at = now(), {begun, destroyable} = waiting(me, at);
  return {
    waits: begun.length + destroyable.length,
    due: dueWithin(DUE_DAYS, at).filter((number) => keyAt(number, at).owner === me).length,
  };
}

// Says on a page that has room for it that a newer list is there.
export function tellNewer(place, show) {
  const newer = place.querySelector("#newer");
  if (newer) {
    replace(newer, el("p", {class: "note"}, "A newer list is there. ",
      el("button", {type: "button", onclick: show}, "Show it")));
  }
}
