// What the desk says of commands and refusals: none lacks its words.
import assert from "node:assert/strict";
import {test} from "node:test";
import {COMMANDS, REFUSALS, STATES} from "../rules.js";
import {WORDS, refusalText} from "../words.js";

for (const [row, {states, members}] of Object.entries(COMMANDS)) {
  test(`the words of ${row}`, () => {
    const {title, did, wrongState} = WORDS[row] ?? {};
    assert.ok(title, `${row} has no title in WORDS`);
    // A key's page has what its requests did, of which one made it.
    if (members?.key || row === "register") assert.ok(did, `${row} has no did in WORDS`);
    if (states && states.length < STATES.length) assert.ok(wrongState, `${row} has no wrongState in WORDS`);
  });
}

test("words are those of commands", () => {
  assert.deepEqual(Object.keys(WORDS).filter((row) => !COMMANDS[row]), []);
});

for (const [number, name] of Object.entries(REFUSALS)) {
  test(`the text of ${name}`, () => {
    const answer = {refused: Number(number), state: "Destroyed", latest: 9, limit: 9, have: 0, need: 2};
    assert.ok(refusalText(answer, {kind: "activate", key: 1}), `${number} has no text in refusalText`);
  });
}
