// The history of a key: which files have it, and what each request changed, by docs/SPECIFICATION.md.
import assert from "node:assert/strict";
import {readFileSync} from "node:fs";
import {beforeEach, test} from "node:test";
import {entriesOf, placesOf} from "../history.js";
import {learnRequest, requestOf, sentBefore, sentSince, take} from "../list.js";
import {commandOfText, textOf, wrongMembers} from "../rules.js";
import {utcText} from "../words.js";
import {Store, listOf} from "./shared.js";

const DAY = 86400;

beforeEach(() => {
  globalThis.sessionStorage = new Store();
});

test("a command is read from its text, and written as it stood", () => {
  const lines = readFileSync(new URL("../../samples/every_command.txt", import.meta.url), "utf-8").split("\n");
  const texts = lines.filter(Boolean).map((line) => line.split(" ").slice(3).join(" "));
  assert.ok(texts.length > 15);
  for (const text of texts) {
    assert.equal(textOf(commandOfText(text)), text);
    assert.deepEqual(wrongMembers(commandOfText(text)), [], text);
  }
  const command = {kind: "register", type: "master", owner: "-", activation: 0, protect_stop: null, deactivation: null,
    purpose: "=  two spaces - ="};
  assert.deepEqual(commandOfText(textOf(command)), command);
  assert.deepEqual(commandOfText("set 7 = - 5"),
    {kind: "set", key: 7, activation: "keep", protect_stop: null, deactivation: 5});
  assert.equal(textOf({kind: "assign", key: 7, owner: "keep"}), "assign 7 keep");
});

test("the files of a key are those that may have it, also where it goes over several", () => {
  const of = (firsts, one) => [...placesOf(firsts, one)];
  assert.deepEqual(of([1, 40, 90], 50), [1]);
  assert.deepEqual(of([1, 40, 40, 40, 90], 40), [3, 2, 1, 0]);
  assert.deepEqual(of([1, 40, 40, 90], 41), [2]);
  assert.deepEqual(of([5], 5), [0]);
  assert.deepEqual(of([5], 4), []);
  assert.deepEqual(of([], 4), []);
  assert.deepEqual(of(["ann", "bob", "bob"], "bob"), [2, 1, 0]);
});

// The entries of a history of such lines, each with the moment and what changed.
function told(lines, {set = [], at = 400 * DAY} = {}) {
  const requests = lines.map((line, place) => {
    const [moment, caller, number, ...words] = line.split(" ");
    return {place: place + 1, key: 1, caller, number: Number(number), moment: Number(moment), text: words.join(" ")};
  });
  return entriesOf(requests, set, at).map(({moment, what, changes}) => [moment, what, changes?.map((change) =>
    change.replace(/UTC, .*?( \(by|$)/, "UTC$1"))]);
}

test("what each request changed, and what came by its dates", () => {
  const stop = 20 * DAY, end = 30 * DAY, dates = [`Protect Stop: ${utcText(stop)}`, `Deactivation: ${utcText(end)}`];
  assert.deepEqual(told([
    `100 ann 1 register data-encryption bob ${DAY} ${stop} ${end} payroll`,
    "101 bob 1 add-custodian 1 cat",
    "102 bob 2 set-quorum 1 3",
    `${31 * DAY} cat 1 approve 1`,
    `${32 * DAY} bob 3 remove-custodian 1 cat`,
    `${33 * DAY} eve 9 revoke 1 2 500`,
  ]), [
    [100, "registered", [`Activation: ${utcText(DAY)}`, ...dates, "State: Pre-Active"]],
    [101, "added the custodian cat", ["Custodians: cat (it was none)"]],
    [102, "set the approvals needed to 3", ["Approvals needed: 3 (it was 2)"]],
    [DAY, "reached its Activation", ["State: Active"]],
    [stop, "reached its Protect Stop", ["It protects no new data"]],
    [end, "reached its Deactivation", ["State: Deactivated"]],
    [31 * DAY, "approved the destruction", ["Approvals: cat (it was none)"]],
    [32 * DAY, "removed the custodian cat", ["Custodians: none (it was cat)", "Approvals: none (it was cat)"]],
    [33 * DAY, `revoked: Key Compromise, compromised ${utcText(500)}`, ["State: Compromised"]],
  ]);
});

test("a default is that of the period that stood then", () => {
  const line = "100 ann 2 register master bob 0 - - x", year = 365 * DAY, month = 31 * DAY;
  const stopOf = (set) => told([line], {set, at: 200})[0][2][1];
  const byPeriod = (moment) => `Protect Stop: ${utcText(moment)} (by the period of the type)`;
  assert.equal(stopOf([]), byPeriod(year));
  assert.equal(stopOf([[0, "master", 1, 0]]), byPeriod(month));
  assert.equal(stopOf([[1, "master", 1, 0]]), byPeriod(year));
});

test("of requests that do not begin with a registration no change is known", () => {
  assert.deepEqual(told(["100 bob 1 activate 1"]), [[100, "activated", undefined]]);
});

test("what this window sent is apart by the list that may have it", (context) => {
  let clock = 1_780_000_000;
  context.mock.method(Date, "now", () => clock * 1000);
  const sent = (number) => learnRequest(requestOf({number, key: 0, moment: clock, state: null},
    {kind: "set-period", type: "master", originator: 6, recipient: 0}, "office"));
  const numbers = () => [sentBefore(), sentSince()].map((some) => some.map(({number}) => number));
  sent(1);
  clock += 100;
  sent(2);
  take(listOf([], {made: clock - 50}));
  assert.deepEqual(numbers(), [[1], [2]]);
  take(listOf([], {made: clock + 50}));
  assert.deepEqual(numbers(), [[1, 2], []]);
  // One that is sent again stands once.
  clock += 100;
  sent(1);
  assert.deepEqual(numbers(), [[2], [1]]);
  assert.equal(sentSince()[0].text, "set-period master 6 0");
});
