// How requests are sent and kept: each acts once, for its own user, and a table's answers are kept beside it.
import assert from "node:assert/strict";
import {webcrypto} from "node:crypto";
import {beforeEach, test} from "node:test";
import {judgedRows} from "../rows.js";
import {Store} from "./shared.js";

// Node 18 has it by another name.
globalThis.crypto ??= webcrypto;

// A module of its own for each test: who reads the page is said once.
let turn = 0;
const fresh = (name) => import(`../${name}?${turn}`);

let sent, answers;
function answered(status, body = "") {
  return new Response(body, {status});
}

beforeEach(() => {
  turn += 1;
  sent = [];
  answers = [];
  globalThis.location = {origin: "http://keyreg.example"};
  globalThis.sessionStorage = new Store();
  globalThis.fetch = async (address, how) => {
    if (address.endsWith("/me")) return answered(200, "ann");
    sent.push({user: how.headers["Desk-User"], number: how.headers["Request-Number"], path: new URL(address).pathname});
    return answers.shift()();
  };
});

const OK = () => answered(200, '{"key":0,"moment":100,"state":null}');

test("a request says for whom it is, and is kept until its answer came", async () => {
  const {whoAmI, send, kept} = await fresh("register.js");
  await whoAmI();
  answers = [OK];
  const answer = send({kind: "advance"}, 7);
  assert.deepEqual(kept().map(({number, caller}) => [number, caller]), [[7, "ann"]]);
  assert.equal((await answer).accepted, true);
  assert.deepEqual(kept(), []);
  assert.deepEqual(sent, [{user: "ann", number: "7", path: "/requests"}]);
});

test("where the browser sends as another user, the request stays and nothing more is sent", async () => {
  const {whoAmI, send, kept, events, keyOf, AnotherUser} = await fresh("register.js");
  await whoAmI();
  let others = 0;
  events.addEventListener("other", () => others++);
  answers = [() => answered(412)];
  await assert.rejects(send({kind: "advance"}, 7), AnotherUser);
  assert.equal(others, 1);
  assert.deepEqual(kept().map(({number}) => number), [7]);
  assert.throws(() => send({kind: "advance"}, 8), AnotherUser);
  await assert.rejects(keyOf(1), AnotherUser);
  assert.equal(sent.length, 1);
});

test("the name is asked again, and another one stops the page", async () => {
  const {whoAmI, events, AnotherUser} = await fresh("register.js");
  await whoAmI();
  let others = 0;
  events.addEventListener("other", () => others++);
  globalThis.fetch = async () => answered(200, "office");
  await assert.rejects(whoAmI(), AnotherUser);
  assert.equal(others, 1);
});

test("what waits of another user is not sent", async () => {
  sessionStorage.setItem("keyreg.kept", JSON.stringify([
    {number: 7, caller: "zed", body: '{"kind":"advance"}'}, {number: 8, caller: "ann", body: '{"kind":"advance"}'}]));
  const {whoAmI, resumed, kept} = await fresh("register.js");
  await whoAmI();
  answers = [OK];
  for await (const {answer} of resumed()) assert.equal(answer.number, 8);
  assert.deepEqual(sent.map(({user, number}) => [user, number]), [["ann", "8"]]);
  assert.deepEqual(kept().map(({number}) => number), [7]);
});

test("what waits of another user cannot be given up, though it has the same number", async () => {
  sessionStorage.setItem("keyreg.kept", JSON.stringify([
    {number: 7, caller: "zed", body: '{"kind":"advance"}'}, {number: 7, caller: "ann", body: '{"kind":"advance"}'}]));
  const {whoAmI, giveUp, kept} = await fresh("register.js");
  await whoAmI();
  giveUp(7);
  giveUp(7);
  assert.deepEqual(kept().map(({number, caller}) => [number, caller]), [[7, "zed"]]);
});

test("a 401 is told, and the request waits for a sign-in", async () => {
  const {whoAmI, send, kept, events, isSignedOut, sendNow} = await fresh("register.js");
  await whoAmI();
  const told = [];
  events.addEventListener("signed", () => told.push(isSignedOut()));
  answers = [() => answered(401), OK];
  const answer = send({kind: "advance"}, 7);
  await new Promise((go) => setTimeout(go, 1500));
  assert.equal(sent.length, 1);
  assert.match(kept()[0].cause, /401.*did not reach the register/);
  sendNow();
  assert.equal((await answer).accepted, true);
  assert.deepEqual(told, [true, false]);
});

test("a register that is ahead of the clock by seconds is waited for, and one that is years ahead is not", async () => {
  const {whoAmI, send, now} = await fresh("register.js");
  await whoAmI();
  const behind = (latest) => () => answered(409, JSON.stringify({refused: 3, name: "MomentBehind", latest}));
  answers = [behind(now() + 1), OK];
  assert.equal((await send({kind: "advance"}, 7)).accepted, true);
  assert.deepEqual(sent.map(({number}) => number), ["7", "7"]);
  answers = [behind(4_070_908_800)];
  assert.equal((await send({kind: "advance"}, 8)).refused, 3);
});

test("the last key is found, whatever is known of it", async () => {
  const {whoAmI, lastKey} = await fresh("register.js");
  await whoAmI();
  for (const last of [0, 1, 2, 3, 66, 1000]) {
    globalThis.fetch = async (address) => {
      const number = Number(address.split("/").pop());
      return number <= last ? answered(200, JSON.stringify({number})) : answered(404, '{"refused":4}');
    };
    for (const from of [0, 1, 60].filter((number) => number <= last)) assert.equal(await lastKey(from), last);
  }
});

test("drawn numbers are below those of tables, and ascend", async () => {
  const {whoAmI, send} = await fresh("register.js");
  await whoAmI();
  answers = [OK, OK];
  for (let turn = 0; turn < 2; turn++) await send({kind: "advance"});
  const [one, other] = sent.map(({number}) => Number(number));
  assert.ok(one < other && other < 2 ** 52);
});

test("a full store is said, and nothing is sent without its number", async () => {
  const {whoAmI, send, StoreFull} = await fresh("register.js");
  await whoAmI();
  sessionStorage.setItem("other", "x".repeat(100));
  sessionStorage.room = 110;
  assert.throws(() => send({kind: "advance"}), StoreFull);
  assert.deepEqual(sent, []);
});

test("a table is kept packed, with its answers, and comes back after a reload", async () => {
  const {takeIn, restore, current, putAway, tableAnswer} = await import("../taken.js");
  const rows = Array.from({length: 20_000}, (_, place) =>
    ["master", "ann", "2026-02-01T00:00:00Z", "", "", `root of the vault ${place} in site B, second floor`]);
  const table = await takeIn("keys.csv", rows, "ann");
  const size = () => Object.values(sessionStorage).reduce((sum, text) => sum + text.length, 0);
  assert.ok(table.isKept && size() < 1_500_000, `it takes ${size()} letters`);
  table.markByHand(3, false);
  table.before = 7;
  table.keepMarks();
  const [first, second, third, , fifth] = table.numbers;
  table.note({accepted: true, number: first, key: 8, moment: 1_770_000_000, state: "Active"});
  table.note({accepted: false, number: second, refused: 20, name: "Full"});
  // A key that was there before the first row was sent is that of an earlier sending.
  table.note({accepted: true, number: fifth, key: 7, moment: 1_760_000_000, state: "Active"});
  assert.deepEqual(judgedRows(rows.slice(0, 2), "ann").map(({sort}) => sort), ["twice", "good"]);
  await restore("bob");
  assert.equal(current(), table);
  await restore("ann");
  assert.notEqual(current(), table);
  assert.deepEqual(current().counts, {wanted: 19_999, answered: 3, accepted: 1, there: 1, refused: 1});
  assert.deepEqual([current().next(0), current().isSent[3], current().isHalfSent], [2, false, true]);
  assert.match(current().reason(1), /^refused: Full/);
  assert.equal(current().givenBack().count, 19_998);
  assert.equal(tableAnswer({accepted: true, number: third, key: 9, moment: 1_770_000_000}, {kind: "register"}), true);
  assert.equal(tableAnswer({accepted: true, number: 999, key: 2}, {kind: "register"}), false);
  await putAway();
  assert.equal(current(), null);
  assert.ok(!Object.keys(sessionStorage).some((name) => name.startsWith("keyreg.table")));
});

test("a table of one user outlives that of another in the same window", async () => {
  const {takeIn, restore, current, putAway} = await import("../taken.js");
  const rows = [["master", "ann", "", "", "", "root"]];
  (await takeIn("hers.csv", rows, "ann")).before = 0;
  current().keepMarks();
  await takeIn("his.csv", rows, "bob");
  await putAway();
  await restore("ann");
  assert.deepEqual([current().name, current().before, current().isHalfSent], ["hers.csv", 0, true]);
  await putAway();
});

test("a table that is too large for the store is not kept, and leaves room for requests", async () => {
  const {takeIn, putAway} = await import("../taken.js");
  sessionStorage.room = 120_000;
  const rows = Array.from({length: 20_000}, (_, place) => ["master", "ann", "", "", "", `${Math.sin(place)}`]);
  assert.equal((await takeIn("keys.csv", rows, "ann")).isKept, false);
  assert.equal(sessionStorage.getItem("keyreg.table:ann"), null);
  // A table for which there is room, and hardly any beside it.
  sessionStorage.room = Infinity;
  assert.equal((await takeIn("keys.csv", rows, "ann")).isKept, true);
  sessionStorage.room = sessionStorage.getItem("keyreg.table:ann").length + 50_000;
  assert.equal((await takeIn("keys.csv", rows, "ann")).isKept, false);
  await putAway();
});
