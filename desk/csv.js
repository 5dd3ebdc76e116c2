// Tables of keys as files of CSV: how they are read, and written.
import {plain} from "./dom.js";
import {SETTABLE} from "./rules.js";
import {momentText} from "./words.js";

export const COLUMNS = ["type", "owner", "activation", "protect_stop", "deactivation", "purpose"];
// A column behind the others, which a table has that was given back.
const REASON = "reason";

// The records of a text by RFC 4180, with their fields; blank lines are none. A quote that is not closed ends with the
// text.
export function records(text, separator = ",") {
  const all = [], size = text.length;
  const endsField = (letter) => letter === separator || letter === "\n" || letter === "\r";
  let place = 0;
  while (place < size) {
    const record = [];
    for (let isMore = true; isMore;) {
      let cell = "";
      if (text[place] === '"') {
        for (place++; place < size; place++) {
          if (text[place] !== '"') cell += text[place];
          else if (text[place + 1] === '"') cell += text[place++];
          else break;
        }
        place++;
      }
      const first = place;
      while (place < size && !endsField(text[place])) place++;
      record.push(cell + text.slice(first, place));
      isMore = text[place] === separator;
      place++;
      if (text[place - 1] === "\r" && text[place] === "\n") place++;
    }
    if (record.length > 1 || record[0] !== "") all.push(record);
  }
  return all;
}

const quoted = (cell) => (/[",\r\n]/.test(cell) ? `"${cell.replaceAll('"', '""')}"` : cell);

// A table that is given back: rows as they came, each with the reason why it is not registered.
export function csvOf(rows, reasons) {
  const lines = rows.map((row, place) =>
    [...row, ...Array(Math.max(0, COLUMNS.length - row.length)).fill(""), reasons[place]]);
  return [[...COLUMNS, REASON], ...lines].map((row) => row.map(quoted).join(",")).join("\n") + "\n";
}

// The columns of an export, of which these are dates.
const DATED = ["initial", "destroyed", "compromised", "occurrence"];
const EXPORTED = ["number", "type", "owner", ...SETTABLE, "state", ...DATED, "purpose"];
const DATES = new Set([...SETTABLE, ...DATED]);

// Keys as `keyreg export` writes them.
export function exportOf(keys) {
  const text = (key, name) => (!DATES.has(name) ? String(key[name]) : key[name] === null ? "" : momentText(key[name]));
  const rows = keys.map((key) => EXPORTED.map((name) => quoted(text(key, name))));
  return [EXPORTED, ...rows].map((row) => row.join(",")).join("\n") + "\n";
}

// Whether a spreadsheet that opens a text without asking takes it for a formula.
export const isFormula = (text) => /^[=+@-]/.test(text);

// The rows of a file's bytes, or why it is no table. Spreadsheets write a byte order mark before it, and some a
// semicolon in the place of the comma; both are read.
export function tableOf(bytes) {
  let text;
  try {
    text = new TextDecoder("utf-8", {fatal: true}).decode(bytes);
  } catch {
    return {fault: "It is no UTF-8, but UTF-16, Latin-1 or another code: save it as UTF-8."};
  }
  const isOf = (record, columns) => record.join("\n") === columns.join("\n");
  for (const separator of [",", ";"]) {
    const [head, ...rows] = records(text, separator);
    if (head && isOf(head, COLUMNS)) return {rows};
    if (head && isOf(head, [...COLUMNS, REASON])) {
      return {rows: rows.map((row) => (row.length > COLUMNS.length ? row.slice(0, -1) : row))};
    }
  }
  const [head] = records(text);
  const header = plain((head ?? []).join(",")).slice(0, 200);
  return {fault: `Its header row is ${header || "empty"}, and it should be ${COLUMNS.join(",")}`};
}
