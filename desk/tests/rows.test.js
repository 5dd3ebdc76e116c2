// How a table is read, and its rows are judged.
import assert from "node:assert/strict";
import {beforeEach, test} from "node:test";
import {csvOf, exportOf, isFormula, records, tableOf} from "../csv.js";
import {learnRegistered, take} from "../list.js";
import {judgedRows} from "../rows.js";
import {Store, listOf, madeCases} from "./shared.js";

const HEAD = "type,owner,activation,protect_stop,deactivation,purpose";
const bytes = (text) => new TextEncoder().encode(text);
const sorts = (rows, caller = "ann") => judgedRows(rows, caller).map(({sort}) => sort);

beforeEach(() => {
  globalThis.sessionStorage = new Store();
  take(listOf([]));
});

test("fields in quotes, blank lines and each line end", () => {
  assert.deepEqual(records('a,"b ""c"", d"\r\n\n"x\ny",z\r'), [["a", 'b "c", d'], ["x\ny", "z"]]);
  assert.deepEqual(records("a;b", ";"), [["a", "b"]]);
});

test("both tables of a spreadsheet are read", () => {
  const rows = [["master", "ann", "", "", "", "root"]];
  for (const text of [`${HEAD}\nmaster,ann,,,,root\n`, `\ufeff${HEAD}\r\nmaster,ann,,,,root\r\n`,
    `\ufeff${HEAD}\nmaster,ann,,,,root\n`.replaceAll(",", ";")]) {
    assert.deepEqual(tableOf(bytes(text)), {rows});
  }
});

test("what is no table is told", () => {
  assert.match(tableOf(new Uint8Array([255, 254, 65, 0])).fault, /no UTF-8/);
  assert.match(tableOf(bytes("a,b\n")).fault, /header row is a,b/);
  assert.match(tableOf(bytes("")).fault, /empty/);
});

test("keys that are given away are rows of an export", () => {
  // As in the worked rows of docs/SPECIFICATION.md.
  const key = {number: 1, type: "data-encryption", owner: "bob", activation: 0, protect_stop: 63072000,
    deactivation: 157766400, state: "Active", initial: 100, destroyed: null, compromised: null, occurrence: null,
    purpose: 'disks, "payroll"'};
  assert.equal(exportOf([key]), "number,type,owner,activation,protect_stop,deactivation,state,initial,destroyed,"
    + "compromised,occurrence,purpose\n1,data-encryption,bob,1970-01-01T00:00:00Z,1972-01-01T00:00:00Z,"
    + '1975-01-01T00:00:00Z,Active,1970-01-01T00:01:40Z,,,,"disks, ""payroll"""\n');
  assert.deepEqual(["=1", "+1", "-1", "@a", "a=1", " =1", "1"].map(isFormula),
    [true, true, true, true, false, false, false]);
});

test("what is given back has its reasons, and is a table again", () => {
  const rows = [["master", "ann", "", "", "", 'a "root", old'], ["master", "ann", "x"]];
  const text = csvOf(rows, ["refused: DateOrder", "of another form"]);
  assert.equal(text, `${HEAD},reason\nmaster,ann,,,,"a ""root"", old",refused: DateOrder\n`
    + "master,ann,x,,,,of another form\n");
  assert.deepEqual(tableOf(bytes(text)).rows, [rows[0], [...rows[1], "", "", ""]]);
});

for (const {case: name, row, made, key} of madeCases()) {
  test(`a row of a table that is a key already: ${name}`, () => {
    take(listOf([key]));
    assert.equal(sorts([row])[0] === "twice", made);
  });
}

test("a row is a key already right after it was registered, also behind the list", () => {
  const row = ["master", "ann", "2026-02-01T00:00:00Z", "", "", "root"];
  assert.deepEqual(sorts([row]), ["good"]);
  const dates = {activation: 1769904000, protect_stop: 1801440000, deactivation: 1801440000};
  const words = {type: "master", owner: "ann", purpose: "root", initial: 1769904000};
  const key = {...words, ...dates, custodians: [], approvals: [], need: 2};
  learnRegistered({...key, number: 1}, "ann");
  assert.deepEqual(sorts([row]), ["twice"]);
});

test("a row that stands twice in a table is named", () => {
  const row = ["master", "ann", "2026-02-01T00:00:00Z", "", "", "spare"];
  const whole = ["master", "ann", "2026-02-01T00:00:00Z", "2027-02-01T00:00:00Z", "2027-02-01T00:00:00Z", "spare"];
  const judged = judgedRows([row, ["master", "ann", "", "", "", "spare"], row, whole], "ann");
  assert.deepEqual(judged.map(({sort}) => sort), ["good", "good", "repeated", "repeated"]);
  assert.match(judged[2].words, /row 1 again/);
});

test("a wrong row says what is wrong in which field", () => {
  const [judged] = judgedRows([["Master", "a b", "2026-02-01", "", "", "ü".repeat(150)]], "ann");
  assert.equal(judged.sort, "wrong");
  for (const words of [/type is Master/, /owner is a b: a space/, /activation is 2026-02-01/, /300 of 200 bytes/]) {
    assert.match(judged.words, words);
  }
});

test("a table of 20,000 rows is judged beside 20,000 keys within seconds", () => {
  const rows = Array.from({length: 20_000}, (_, place) => ["master", "ann", "", "", "", `root ${place % 10}`]);
  const keys = rows.map(([type, owner, , , , purpose]) => ({type, owner, purpose, initial: 1_770_000_000}));
  take(listOf(keys));
  const begun = performance.now(), small = judgedRows(rows.slice(0, 2000), "ann");
  const first = performance.now() - begun, all = judgedRows(rows, "ann");
  const second = performance.now() - begun - first;
  assert.ok([...small, ...all].every(({sort}) => sort === "twice"));
  assert.ok(second < 40 * first + 1000, `2,000 rows took ${first} ms, 20,000 took ${second}`);
});
