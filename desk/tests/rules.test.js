// What the desk decides of one key, by cases that were worked out by hand from docs/SPECIFICATION.md.
import assert from "node:assert/strict";
import {test} from "node:test";
import {
  MOST_BYTES, bytesOf, isOverdue, judged, mayHaveMade, predecessorOf, purposeOfNext, spansOf,
} from "../rules.js";
import {momentOf, textFault} from "../words.js";
import {cases, madeCases} from "./shared.js";

for (const {case: name, key, spans} of cases("spans.json")) {
  test(`a line: ${name}`, () => {
    assert.deepEqual(spansOf(key).map(([kind, from, to]) => [kind, from, to === Infinity ? null : to]), spans);
  });
}

const dateOf = (text) => (text === "" ? null : momentOf(text));
const keyOf = ([type, owner, activation, stop, end, purpose]) =>
  ({type, owner, purpose, activation: dateOf(activation), protect_stop: dateOf(stop), deactivation: dateOf(end)});
const fields = ({type, owner, activation, protect_stop: stop, deactivation: end, purpose}) =>
  [type, owner, activation, stop, end, purpose];

for (const {case: name, row, made, key, moment} of madeCases()) {
  test(`a row that is a key already: ${name}`, () => {
    assert.equal(mayHaveMade(keyOf(row), keyOf(fields(key)), momentOf(moment)), made);
  });
}

for (const {number, purpose, replaces} of cases("replaces.json")) {
  test(`the key that key ${number} replaces: ${purpose}`, () => {
    assert.equal(predecessorOf({number, purpose}), replaces);
  });
}

test("the next key's purpose names the key, and no key before it", () => {
  for (const purpose of ["disks", "disks (replaces key 12)"]) {
    const next = purposeOfNext({number: 40, purpose});
    assert.equal(next, "disks (replaces key 40)");
    assert.equal(predecessorOf({number: 41, purpose: next}), 40);
  }
  assert.equal(bytesOf(purposeOfNext({number: 7, purpose: "ü".repeat(92)})), MOST_BYTES + 1);
});

test("a key is overdue from its Protect Stop Date on, while it is Active", () => {
  const key = {activation: 10, protect_stop: 50, deactivation: 80, destroyed: null, compromised: null};
  const at = (moment, more = {}) => isOverdue({...key, ...more}, moment);
  assert.deepEqual([at(49), at(50), at(79), at(80)], [false, true, true, false]);
  assert.equal(at(60, {compromised: 55}), false);
  assert.equal(at(60, {destroyed: 55}), false);
  assert.equal(at(5), false);
});

test("what is wrong with a text is named: which letter, or how many", () => {
  const named = [
    ["owner", "a b", /^a space is none/],
    ["owner", "Müller", /^ü is none/],
    ["owner", "a\u202eb", /^\[U\+202E\] is none/],
    ["name", "x".repeat(70), /^70 of 64 letters$/],
    ["purpose", "ü".repeat(150), /^300 of 200 bytes$/],
    ["purpose", "a\tb", /^the control character \[U\+0009\]$/],
    ["purpose", " a", /beginning/],
    ["purpose", "a ", /end/],
    ["purpose", "a\ud800", /half/],
  ];
  for (const [member, text, words] of named) assert.match(textFault(member, text), words);
  for (const [member, text] of [["owner", "a.b_c-d@e9"], ["owner", "x".repeat(64)], ["purpose", "ü".repeat(100)]]) {
    assert.equal(textFault(member, text), "");
  }
});

const GOOD = {kind: "register", type: "master", owner: "bob", activation: null, protect_stop: null, deactivation: null,
  purpose: "x"};
const LAST = 253402300799;
// Bodies that are no command, each for one member, and what is just within the ranges.
const WRONG = [
  ...Object.entries({type: ["master2", "toString"], owner: ["", "a b", "x".repeat(65), "ü", "bob\n"],
    activation: [-1, LAST + 1, 1.5, "keep", "1"],
    purpose: ["", " x", "x ", "ü".repeat(101), "a\tb", "a\x7f", "a\n"]})
    .flatMap(([member, values]) => values.map((value) => ({...GOOD, [member]: value}))),
  {kind: "set-quorum", key: 1, need: 1}, {kind: "set-quorum", key: 1, need: 6}, {kind: "activate", key: 0},
  {kind: "activate", key: 4294967296}, {kind: "nothing"}, {kind: "revoke", key: 1, reason: 1, occurrence: 5},
  {kind: "revoke", key: 1, reason: 8, occurrence: null},
  {kind: "set-period", type: "master", originator: 0, recipient: 0},
  {kind: "set-period", type: "master", originator: 1, recipient: 1201},
];
const RIGHT = [{owner: "x".repeat(64)}, {activation: LAST, protect_stop: LAST, deactivation: LAST},
  {purpose: "ü".repeat(100)}, {purpose: "a\u2028b"}, {purpose: "\u00a0x"}, {purpose: "\u202ex"}]
  .map((change) => ({...GOOD, ...change}));

for (const [place, command] of [...WRONG, ...RIGHT].entries()) {
  test(`a body ${place < WRONG.length ? "of another form" : "within the ranges"}: ${JSON.stringify(command)}`, () => {
    const {refused} = judged(command, {caller: "ann", moment: 9, latest: 0, key: null, periods: {}, count: 0});
    assert.equal(refused === 1, place < WRONG.length);
  });
}
