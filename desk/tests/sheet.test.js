// What the desk tells of rows that a spreadsheet changed: of each what was made of which field, and of which key.
import assert from "node:assert/strict";
import {beforeEach, test} from "node:test";
import {COLUMNS} from "../csv.js";
import {take} from "../list.js";
import {judgedRows} from "../rows.js";
import {Store, cases, listOf} from "./shared.js";

const {changed, alone} = cases("sheets.json");
const KEY = {type: "master", owner: "ann", activation: "", protect_stop: "", deactivation: "", purpose: "root",
  initial: 1_769_904_000};
const rowOf = (key) => COLUMNS.map((name) => key[name]);

beforeEach(() => {
  globalThis.sessionStorage = new Store();
});

test("each field that a spreadsheet was seen to change is told, the last key first", () => {
  const keys = changed.map(([column, was], place) =>
    ({...KEY, owner: `team${place}`, purpose: `disks ${place}`, [column]: was}));
  take(listOf(keys));
  const rows = keys.map((key, place) => rowOf({...key, [changed[place][0]]: changed[place][2]}));
  const judged = judgedRows(rows.reverse(), "ann").reverse();
  for (const [place, [column, was, , how]] of changed.entries()) {
    const {sort, words} = judged[place];
    assert.equal(sort, "changed");
    for (const part of [`of key ${place + 1} ${column} was `, how]) assert.ok(words.includes(part), `${was}: ${words}`);
  }
});

for (const [column, text, how] of alone) {
  test(`what a field tells by itself: ${text}`, () => {
    take(listOf([]));
    const [{words}] = judgedRows([rowOf({...KEY, [column]: text})], "ann");
    for (const part of [`${column} is ${text}`, how]) assert.ok(words.includes(part), words);
  });
}
