// What the desk knows of keys by a list and by what it learnt since, and what is found.
import assert from "node:assert/strict";
import {beforeEach, test} from "node:test";
import {
  dueWithin, judgement, keyAt, known, latest, learnKey, learnMoment, learnRegistered, matching, partsOf, registeredKeys,
  requestsOf, take, waiting,
} from "../list.js";
import {Store, listOf} from "./shared.js";

const NOW = 1_780_000_000, DAY = 86400;
const KEY = {type: "master", owner: "Ann.Meyer", purpose: "root", initial: NOW - 900 * DAY};
const ALL = {text: "", owner: "", custodian: "", mine: "", type: "", state: "", days: null, waits: false, sort: "",
  isDown: false};
const found = (filter) => matching({...ALL, ...filter}, NOW);

beforeEach(() => {
  globalThis.sessionStorage = new Store();
});

test("an owner is found by a part of the name, in whatever case", () => {
  take(listOf([KEY, {...KEY, owner: "bob"}, {...KEY, owner: "joanna"}]));
  assert.deepEqual(found({owner: "ANN"}), [1, 3]);
  assert.deepEqual(found({owner: "ann.meyer"}), [1]);
  assert.deepEqual(found({owner: "zoe"}), []);
});

test("all keys are found where nothing is asked, also where others are not known", () => {
  take(listOf([KEY, KEY]));
  learnKey({key: {...KEY, number: 9, custodians: [], approvals: [], need: 2}, usage: {}, at: NOW});
  assert.deepEqual(found({}), [1, 2, 9]);
  assert.equal(known(), 3);
  take(listOf([KEY, KEY], {made: NOW + 60}));
  assert.equal(known(), 2);
});

test("what a name owns and guards is the list's, and over it what was learnt since", () => {
  take(listOf([{...KEY, owner: "ann", custodians: ["bob"]}, {...KEY, owner: "bob"}, {...KEY, owner: "ann"}]));
  assert.deepEqual(partsOf("ann"), {owns: [1, 3], guards: []});
  assert.deepEqual(partsOf("bob"), {owns: [2], guards: [1]});
  assert.deepEqual(partsOf("an"), {owns: [], guards: []});
  learnKey({key: {...KEY, number: 1, owner: "bob", custodians: ["zoe"], approvals: [], need: 2}, usage: {}, at: NOW});
  assert.deepEqual([partsOf("ann").owns, partsOf("bob"), partsOf("zoe").guards], [[3], {owns: [1, 2], guards: []}, [1]]);
});

test("due are Active keys, by their Protect Stop Dates", () => {
  const active = {activation: NOW - 9 * DAY, deactivation: NOW + 99 * DAY};
  take(listOf([{...KEY, ...active, protect_stop: NOW + 30 * DAY}, {...KEY, ...active, protect_stop: NOW + 30 * DAY + 1},
    {...KEY, ...active, protect_stop: NOW - DAY}, {...KEY, ...active, protect_stop: NOW - DAY, deactivation: NOW - 1},
    {...KEY, activation: NOW + 1, protect_stop: NOW + DAY}], {made: NOW + 60}));
  assert.deepEqual(dueWithin(30, NOW), [3, 1]);
});

test("the latest moment falls where a register was set right", (context) => {
  const begun = Math.floor(Date.now() / 1000), later = 4_070_908_800;
  let clock = begun;
  context.mock.method(Date, "now", () => clock * 1000);
  const given = (moment) => take({...listOf([KEY], {made: clock}), latest: moment});
  const at = (second, moment) => {
    clock = second;
    learnMoment(moment);
    return latest();
  };
  given(begun - 400);
  // A kept answer has the moment of the first time.
  assert.equal(at(begun + 5, begun - 5000), begun - 400);
  assert.equal(at(begun + 6, later), later);
  assert.equal(at(begun + 7, begun - 5000), later);
  clock = begun + 60;
  given(begun + 50);
  assert.equal(latest(), begun + 50);
  assert.equal(at(begun + 61, later), later);
  assert.equal(at(begun + 62, begun + 62), begun + 62);
  // A list that was made while the clock stood there, and what the page learnt by that clock.
  clock = later;
  given(later);
  learnKey({key: {...KEY, number: 1, owner: "zed", custodians: [], approvals: [], need: 2}, usage: {}, at: later});
  assert.equal(at(begun + 63, begun + 63), begun + 63);
  clock = begun + 120;
  given(begun + 110);
  assert.equal(latest(), begun + 110);
  assert.equal(keyAt(1, clock).owner, "Ann.Meyer");
});

test("a register that is ahead by less than a minute is foretold as one that is not", () => {
  const now = Math.floor(Date.now() / 1000), foretold = (seconds) => {
    take({...listOf([KEY], {made: now - 1}), latest: now + seconds});
    return judgement({kind: "advance"}, {caller: "ann"}).refused;
  };
  assert.deepEqual([-9, 30, 90].map(foretold), [undefined, undefined, 3]);
});

test("what is due comes in order of the Protect Stop Dates", () => {
  const dated = (days) => ({...KEY, activation: NOW - 400 * DAY, protect_stop: NOW + days * DAY,
    deactivation: NOW + 400 * DAY});
  take(listOf([dated(50), dated(-5), dated(90), KEY]));
  assert.deepEqual(found({days: 60}), [2, 1]);
});

test("keys are found by a custodian, or as somebody's own", () => {
  take(listOf([{...KEY, custodians: ["bob", "Cat"]}, {...KEY, owner: "bob"}, {...KEY, custodians: ["cathy"]}]));
  assert.deepEqual(found({custodian: "cat"}), [1, 3]);
  assert.deepEqual(found({custodian: "bob"}), [1]);
  assert.deepEqual(found({mine: "bob"}), [2]);
  assert.deepEqual(found({mine: "bo"}), []);
});

test("keys are sorted by each column, and those that lack it come last", () => {
  const dated = (activation, stop) => ({...KEY, activation, protect_stop: stop, deactivation: NOW + 9 * DAY});
  take(listOf([
    {...dated(NOW - DAY, NOW + 5 * DAY), owner: "bob", purpose: "Zebra"},
    {...KEY, owner: "Ann", type: "authentication", purpose: "apple"},
    {...dated(NOW + DAY, NOW + 2 * DAY), owner: "ann", custodians: ["x", "y"], approvals: ["x"], purpose: "=b"},
    {...KEY, owner: "cat", custodians: ["x"], purpose: "Apple"},
  ]));
  const by = {number: [1, 2, 3, 4], state: [2, 3, 4, 1], owner: [2, 3, 1, 4], type: [2, 1, 3, 4],
    protect_stop: [3, 1, 2, 4], approvals: [4, 3, 1, 2], purpose: [3, 2, 4, 1]};
  const down = {number: [4, 3, 2, 1], state: [1, 2, 3, 4], owner: [4, 1, 2, 3], type: [1, 3, 4, 2],
    protect_stop: [1, 3, 2, 4], approvals: [3, 4, 1, 2], purpose: [1, 2, 4, 3]};
  for (const [sort, numbers] of Object.entries(by)) {
    assert.deepEqual(found({sort}), numbers, sort);
    assert.deepEqual(found({sort, isDown: true}), down[sort], `${sort}, the last first`);
  }
});

test("a destruction that was begun comes apart from keys that one guards", () => {
  const custodians = ["bob", "cat"];
  take(listOf([
    {...KEY, custodians},
    {...KEY, custodians, approvals: ["cat"]},
    {...KEY, custodians, approvals: ["bob"]},
    {...KEY, owner: "bob", custodians: ["Ann.Meyer", "cat"], approvals: ["Ann.Meyer", "cat"]},
    {...KEY, custodians, destroyed: NOW - DAY, approvals: ["cat"]},
  ]));
  assert.deepEqual(waiting("bob", NOW), {begun: [2], guarded: [1], destroyable: [4]});
});

test("a key that a row registered is known until the list has it", () => {
  take(listOf([KEY]));
  const key = {...KEY, number: 2, activation: null, protect_stop: null, deactivation: null, destroyed: null,
    compromised: null, custodians: [], approvals: [], need: 2};
  learnRegistered(key, "ann");
  assert.equal(keyAt(2, NOW).state, "Pre-Active");
  assert.deepEqual(requestsOf(2), [{caller: "ann", number: undefined, key: 2, moment: KEY.initial, state: undefined,
    text: "register master Ann.Meyer - - - root"}]);
  assert.deepEqual(found({}), [1, 2]);
  take(listOf([KEY, {...KEY, owner: "bob"}], {made: NOW + 60}));
  assert.equal(keyAt(2, NOW).owner, "bob");
  assert.deepEqual(registeredKeys(), []);
});

test("100,000 keys are taken and searched in little more than ten times what a tenth takes", () => {
  const seconds = (count) => {
    const keys = Array.from({length: count}, (_, place) => ({...KEY, owner: `team-${place % 200}`,
      purpose: `disks ${place}, hall ${place % 97}`, custodians: ["bob", `officer-${place % 30}`], approvals: ["bob"],
      ...(place % 2 && {activation: NOW, protect_stop: NOW + (place % 2000) * DAY, deactivation: NOW + 2400 * DAY})}));
    const given = listOf(keys), begun = performance.now();
    take(given);
    const numbers = [{}, {text: "hall 9"}, {owner: "team-7"}, {days: 100}, {state: "Active"}, {waits: true}].map(found);
    assert.ok(numbers.every((some) => some.length > 0) && waiting("officer-6", NOW).begun.length > 0);
    return (performance.now() - begun) / 1000;
  };
  const [, few, all] = [10_000, 10_000, 100_000].map(seconds);
  assert.ok(all < 40 * few + 1, `10,000 keys took ${few} s, 100,000 took ${all}`);
});
