// The requests of a next key, in their order.
import assert from "node:assert/strict";
import {beforeEach, test} from "node:test";
import {learnRegistered, replacementsOf, take} from "../list.js";
import {stepsOf} from "../next.js";
import {textOf} from "../rules.js";
import {Store, listOf} from "./shared.js";

const OLD = {number: 7, type: "master", owner: "ann", purpose: "root (replaces key 3)", protect_stop: 5000,
  custodians: ["bob", "cat"], need: 3};
const REGISTER = "register master ann 5000 - - root (replaces key 7)";
const told = (old, next) => stepsOf(old, next).map(({isDone, command}) =>
  `${isDone ? "done" : "to do"}: ${textOf({...command, key: command.key ?? 0})}`);

beforeEach(() => {
  globalThis.sessionStorage = new Store();
});

test("a next key begins at the Protect Stop, with the custodians and the need as they stand", () => {
  assert.deepEqual(told(OLD), [`to do: ${REGISTER}`, "to do: add-custodian 0 bob", "to do: add-custodian 0 cat",
    "to do: set-quorum 0 3"]);
  assert.deepEqual(told({...OLD, custodians: [], need: 2, protect_stop: null}),
    ["to do: register master ann - - - root (replaces key 7)"]);
});

test("what the register has is done, in whatever order", () => {
  const next = {number: 9, custodians: ["cat"], need: 2};
  assert.deepEqual(told(OLD, next), [`done: ${REGISTER}`, "to do: add-custodian 9 bob", "done: add-custodian 9 cat",
    "to do: set-quorum 9 3"]);
  assert.deepEqual(told({...OLD, need: 2}, {...next, need: 4}).at(-1), "to do: set-quorum 9 2");
});

test("the keys that replace a key are found in the list and behind it", () => {
  const key = {type: "master", owner: "ann", initial: 5};
  take(listOf([{...key, purpose: "root"}, {...key, purpose: "root (replaces key 1)"}, {...key, purpose: "other"}]));
  assert.deepEqual(replacementsOf(1), [2]);
  learnRegistered({...key, number: 4, purpose: "root (replaces key 1)", custodians: [], approvals: []});
  assert.deepEqual(replacementsOf(1), [2, 4]);
  assert.deepEqual(replacementsOf(3), []);
});
