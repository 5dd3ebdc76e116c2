// What a spreadsheet did to a table of keys: a row is found again among the keys where each of its fields is the key's,
// or is what a spreadsheet may have made of it. office/check_table.py tells the same by an export.
import {COLUMNS} from "./csv.js";
import {keyAt, last} from "./list.js";
import {now} from "./register.js";
import {SETTABLE} from "./rules.js";
import {momentText} from "./words.js";

const remembered = (make) => {
  const values = new Map();
  return (text) => {
    if (!values.has(text)) values.set(text, make(text));
    return values.get(text);
  };
};

// ---- numbers and dates

// The number that a spreadsheet takes a text for, with the 15 digits that it keeps, or null.
const numberOf = remembered((text) => {
  if (!/^[+-]?(\d+\.?\d*|\.\d+)([eE][+-]?\d{1,3})?$/.test(text)) return null;
  const value = Number(Number(text).toPrecision(15));
  return Number.isFinite(value) ? value : null;
});

const digitsOf = (value) => value.toExponential(14).replace(/e.*/, "").replace(/\D/g, "").replace(/0+$/, "").length;

// Whether the numbers agree to the digits that are left of the shorter one.
function isClose(one, other) {
  const digits = Math.max(Math.min(digitsOf(one), digitsOf(other)), 6);
  return one.toPrecision(digits) === other.toPrecision(digits);
}

// How spreadsheets write dates.
const PARTS = {
  Y: "(?<Y>\\d{4})",
  y: "(?<y>\\d{2})",
  m: "(?<m>\\d{1,2})",
  d: "(?<d>\\d{1,2})",
  b: "(?<b>[A-Za-z]{3})",
};
const CLOCK = "( \\d{1,2}:\\d{2}(:\\d{2})?( [AaPp][Mm])?)?";
const FORMS = ["Y-m-d", "Y/m/d", "d\\.m\\.Y", "d\\.m\\.y", "m/d/Y", "m/d/y", "d/m/Y", "d/m/y", "d-m-Y", "d-b", "b-d",
  "d-b-y", "d-b-Y", "d b Y", "m-d", "d-m"]
  .map((form) => new RegExp(`^${form.replace(/[Yymdb]/g, (part) => PARTS[part])}${CLOCK}$`));
const MONTHS = ["jan", "feb", "mar", "apr", "may", "jun", "jul", "aug", "sep", "oct", "nov", "dec"];

function dayOf({Y, y, m, d, b}) {
  const month = b ? MONTHS.indexOf(b.toLowerCase()) + 1 : Number(m), day = Number(d);
  // A day without a year is one of a leap year.
  const year = Number(Y ?? (y === undefined ? 2000 : Number(y) < 69 ? `20${y}` : `19${y}`));
  const made = new Date(Date.UTC(year, month - 1, day));
  return month >= 1 && made.getUTCMonth() === month - 1 && made.getUTCDate() === day ? `${month}-${day}` : null;
}

// Each day that a text may stand for, as month and day, in one form or another; the year may be gone.
const daysOf = remembered((text) => {
  const plain = text.replace(/[TZ]/g, " ").trim().split(/\s+/).join(" ");
  if (plain.length > 30 || !/\d/.test(plain)) return [];
  return FORMS.map((form) => form.exec(plain)).filter(Boolean).map(({groups}) => dayOf(groups)).filter(Boolean);
});

// ---- other bytes and marks

const HIGHER = /[^\x00-\x7f]/gu;

// What a text becomes where its UTF-8 is read as another code, or written in one that lacks its letters.
function otherBytes(text) {
  const bytes = new TextEncoder().encode(text);
  const read = ["windows-1252", "macintosh"].map((code) => new TextDecoder(code).decode(bytes));
  const lacking = (most) => text.replace(HIGHER, (letter) => (letter.codePointAt(0) > most ? "?" : letter));
  return [...read, String.fromCharCode(...bytes), lacking(0x7f), lacking(0xff), text.replace(HIGHER, "\ufffd")];
}

const MARKS = {"“": '"', "”": '"', "„": '"', "‘": "'", "’": "'", "–": "-", "—": "-", "…": "..."};
const plainMarks = (text) => text.replace(/[“”„‘’–—…]/g, (mark) => MARKS[mark]).trim();

const FORMULA = "taken for a formula, and this is its result";

function numberTold(was, here) {
  if (was.startsWith("+") && !here.startsWith("+")) return "taken for a number: its plus is lost";
  if (/^[+-]?0\d/.test(was) && !/^[+-]?0\d/.test(here)) return "taken for a number: a leading zero is lost";
  return "taken for a number, and written in another form";
}

// How a spreadsheet made the one text of the other; an empty text where it is no way that is known here.
function became(was, here) {
  if ("=+-@".includes(was[0] ?? " ") && numberOf(was) === null) return FORMULA;
  const one = numberOf(was), other = numberOf(here);
  if (one !== null && other !== null && isClose(one, other)) return numberTold(was, here);
  if (was.search(HIGHER) >= 0 && otherBytes(was).includes(here)) {
    return "its bytes were read or written in another code than UTF-8";
  }
  if (was.toUpperCase() === here.toUpperCase() && ["TRUE", "FALSE"].includes(was.toUpperCase())) {
    return "taken for a truth value";
  }
  if (plainMarks(was) === plainMarks(here) && was !== here) return "its marks or spaces were put right";
  if (/\d/.test(was) && daysOf(was).some((day) => daysOf(here).includes(day))) {
    return "taken for a date, and shown in another form";
  }
  return "";
}

// ---- the key that a row came from

// So many keys that share a field with a row are compared with it.
const MOST_LIKE = 50;

const formsOf = (text) => {
  const number = numberOf(text);
  return number === null ? [text] : [text, Number(number.toPrecision(6))];
};

function fieldsOf(number) {
  const key = keyAt(number, now());
  const textOf = (name) => (!SETTABLE.includes(name) ? key[name] : key[name] === null ? "" : momentText(key[name]));
  return key && COLUMNS.map(textOf);
}

// The keys that the page knows, by each of their fields.
function indexOf() {
  const byField = new Map(), keys = [null];
  for (let number = 1; number <= last(); number++) {
    const fields = fieldsOf(number);
    keys.push(fields ?? null);
    fields?.slice(1).forEach((text, place) => {
      for (const form of text === "" ? [] : formsOf(text)) {
        const name = `${place} ${typeof form} ${form}`, there = byField.get(name);
        if (!there) byField.set(name, [number]);
        else if (there.length <= MOST_LIKE) there.push(number);
      }
    });
  }
  return {keys, byField};
}

// The keys that a row may have come from: that at its own place, and those that share most fields with it.
function likely(row, place, {keys, byField}) {
  const shared = new Map();
  row.slice(1).forEach((text, column) => {
    for (const form of text === "" ? [] : formsOf(text)) {
      const numbers = byField.get(`${column} ${typeof form} ${form}`) ?? [];
      if (numbers.length <= MOST_LIKE) for (const number of numbers) shared.set(number, (shared.get(number) ?? 0) + 1);
    }
  });
  shared.delete(place + 1);
  const others = [...shared].sort(([, one], [, other]) => other - one).slice(0, MOST_LIKE).map(([number]) => number);
  return [...(keys[place + 1] ? [place + 1] : []), ...others].filter((number) => keys[number]);
}

// Whether the first of two ranks comes before the second.
function isBefore(one, other) {
  const turn = one.findIndex((part, place) => part !== other[place]);
  return turn >= 0 && one[turn] < other[turn];
}

// What a spreadsheet did to the rows: of each {number, ways: [[column, how]], fields} where a key is known that it came
// from. `isAsIs` says of which rows nothing changed.
export function changes(rows, isAsIs) {
  const index = indexOf(), taken = new Set();
  return rows.map((row, place) => {
    if (isAsIs[place] || row.length !== COLUMNS.length) return null;
    let best = null;
    for (const number of likely(row, place, index)) {
      const fields = index.keys[number], differs = row.map((_, column) => column).filter((column) =>
        row[column] !== fields[column]);
      // A formula may have become anything, and a key that was found for another row is a worse one.
      const least = [0, Number(taken.has(number)), differs.length, Number(number !== place + 1)];
      if (differs.length === 0 || differs.length >= COLUMNS.length - 1) continue;
      if (best && !isBefore(least, best.rank)) continue;
      const ways = differs.map((column) => [column, became(fields[column], row[column])]);
      if (!ways.every(([, how]) => how)) continue;
      const rank = [ways.filter(([, how]) => how === FORMULA).length, ...least.slice(1)];
      if (!best || isBefore(rank, best.rank)) best = {rank, number, ways, fields};
    }
    if (!best) return null;
    taken.add(best.number);
    return best;
  });
}

// ---- a field of which no key is known

// A date as the register writes it.
export const WHOLE = /^\d{4}-\d\d-\d\dT\d\d:\d\d:\d\dZ$/;
const ERROR = /^(#(NAME\?|REF!|VALUE!|DIV\/0!|N\/A|NUM!|NULL!)|Err:\d{3})$/;

// What a spreadsheet seems to have done to a field, or an empty text.
export function seems(column, text) {
  if (ERROR.test(text)) return "what a spreadsheet writes in the place of a formula without a result";
  if (/^#+$/.test(text)) return "what a spreadsheet shows where a column is too narrow";
  if (SETTABLE.includes(column)) {
    if (WHOLE.test(text)) return "";
    if (/^\d{5}(\.\d+)?$/.test(text)) return "the number that a spreadsheet keeps for a date";
    return daysOf(text).length ? "a date that a spreadsheet shows in another form" : "";
  }
  if (/^\d(\.\d+)?E[+-]?\d+$/.test(text)) return "a number as a spreadsheet shows it, of which digits may be lost";
  return /\ufffd|Ã[\u0080-\u00bf]|â€/.test(text) ? "a text whose bytes were read in another code than UTF-8" : "";
}
