// The request numbers of a table's rows. Those of numbers.json are by coreutils' sha256sum.
import assert from "node:assert/strict";
import {createHash} from "node:crypto";
import {test} from "node:test";
import {digest, rowNumber, tableNumbers} from "../numbers.js";
import {commandOf} from "../rows.js";
import {cases} from "./shared.js";

const row = (purpose, owner = "ann") => commandOf(["master", owner, "", "", "", purpose]);

test("a digest is that of SHA-256, for each length about the ends of blocks", () => {
  for (let length = 0; length < 200; length++) {
    const text = "ü".repeat(length % 3) + "x".repeat(length);
    const words = digest(text).map((word) => word.toString(16).padStart(8, "0")).join("");
    assert.equal(words, createHash("sha256").update(text).digest("hex"), `of ${length} letters`);
  }
});

for (const {caller, time, row: fields, number} of cases("numbers.json")) {
  test(`the number of ${caller.slice(0, 12)}'s row ${fields[5].slice(0, 12)}, for time ${time}`, () => {
    assert.equal(rowNumber(caller, time, commandOf(fields)), number);
  });
}

test("two rows of a table never share a number, and a number is one of tables", () => {
  const rows = Array.from({length: 3000}, (_, place) => row(`root ${place % 1000}`, `team${place % 3}`));
  const numbers = tableNumbers(rows, "ann");
  assert.equal(new Set(numbers).size, rows.length);
  assert.ok(numbers.every((number) => number >= 2 ** 52 && number <= Number.MAX_SAFE_INTEGER));
  assert.deepEqual(tableNumbers([null, row("a"), null], "ann"), [null, rowNumber("ann", 1, row("a")), null]);
});

test("a row keeps its number where others are corrected, put before it or taken out", () => {
  const rows = Array.from({length: 1000}, (_, place) => row(`root ${place}`)), numbers = tableNumbers(rows, "ann");
  const corrected = [...rows.slice(0, 499), row("root of vault 2"), ...rows.slice(500)];
  const others = tableNumbers(corrected, "ann");
  assert.deepEqual(others.flatMap((number, place) => (number === numbers[place] ? [] : [place])), [499]);
  assert.ok(!numbers.includes(others[499]));
  assert.deepEqual(tableNumbers([row("new"), ...rows], "ann").slice(1), numbers);
  assert.deepEqual(tableNumbers(rows.slice(9), "ann"), numbers.slice(9));
  assert.ok(tableNumbers(rows, "bob").every((number) => !numbers.includes(number)));
});
