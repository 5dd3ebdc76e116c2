// What the tests share: a register's list as office/list.py makes it, and a window's store.
import {readFileSync} from "node:fs";
import {predecessorOf} from "../rules.js";
import {momentOf} from "../words.js";

export const cases = (name) => JSON.parse(readFileSync(new URL(name, import.meta.url), "utf-8"));

// The rows of made.json, which are a key already or are none, each with the key and the moment.
export function madeCases() {
  const {moment, key, rows, ended, endedRows} = cases("made.json");
  return [...rows.map((row) => ({moment, key, ...row})), ...endedRows.map((row) => ({moment, key: ended, ...row}))];
}

const DATES = ["initial", "activation", "protect_stop", "deactivation", "destroyed", "compromised", "occurrence"];
const TYPES = ["data-encryption", "authentication", "key-wrapping", "private-signature", "private-authentication",
  "private-transport", "master"];

// A list of keys, whose dates are texts or moments.
export function listOf(keys, {made = 1_780_000_000, periods = {}} = {}) {
  const names = [...new Set(keys.flatMap(({owner, custodians = []}) => [owner, ...custodians]))];
  const placeOf = (name) => names.indexOf(name), column = (cell) => keys.map(cell);
  const dateOf = (date) => (typeof date === "string" && date !== "" ? momentOf(date) : date || null);
  return {
    form: 2,
    made,
    latest: made - 60,
    count: keys.length,
    periods,
    names,
    types: TYPES,
    history: null,
    keys: {
      type: column(({type}) => TYPES.indexOf(type)),
      owner: column(({owner}) => placeOf(owner)),
      purpose: column(({purpose}) => purpose),
      ...Object.fromEntries(DATES.map((name) => [name, column((key) => dateOf(key[name]))])),
      need: column(({need = 2}) => need),
      custodians: column(({custodians = []}) => custodians.map(placeOf)),
      approvals: column(({approvals = []}) => approvals.map(placeOf)),
      replaces: keys.map(({purpose}, place) => predecessorOf({number: place + 1, purpose})),
    },
  };
}

// A window's store with room for so many letters.
export class Store {
  constructor(room = Infinity) {
    Object.defineProperty(this, "room", {value: room, writable: true, enumerable: false});
  }

  getItem(name) {
    return Object.hasOwn(this, name) ? this[name] : null;
  }

  setItem(name, text) {
    const others = Object.keys(this).filter((other) => other !== name);
    const size = others.reduce((sum, other) => sum + this[other].length, 0) + String(text).length;
    if (size > this.room) throw new Error("QuotaExceededError");
    this[name] = String(text);
  }

  removeItem(name) {
    delete this[name];
  }
}
