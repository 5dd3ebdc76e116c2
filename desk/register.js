// What goes between the desk and the register: keys that are asked for, and requests, each of which acts once.
//
// A request's number is drawn once. It is kept with its body until the register's answer came, and sent again under
// that number after a broken connection, a 500 or a 503, also after a reload of the page. Each says for which user it
// is: a browser has one password for all its pages, and where that is another user's by now, nothing acts. What is kept
// of another user waits for that one.
import {firstAnswer} from "./begin.js";
import {LEAST_OF_TABLES, NEAR} from "./rules.js";

const KEPT = "keyreg.kept", DRAWN = "keyreg.drawn";
// Seconds between two sendings of one request; the last one stays.
const PAUSES = [1, 2, 4, 8, 15, 30];
const PATIENCE = 60000;
const OTHER_USER = 412, NO_USER = 401;
// So many keys are asked for at once.
const AT_ONCE = 6;

// Tells whoever listens: `kept` when what waits for an answer changed, `other` when this browser sends as another user
// than the page shows, `signed` when its password is taken no more, or is again.
export const events = new EventTarget();

// ---- the clock of the register's machine

let ahead = 0;

function look(response) {
  const date = Date.parse(response.headers.get("Date") ?? "");
  if (Number.isFinite(date)) ahead = Math.abs(date - Date.now()) < 1500 ? 0 : date - Date.now();
}

export const now = () => Math.floor((Date.now() + ahead) / 1000);

// ---- what is asked

export class Unanswered extends Error {}
// The browser sends as another user. Nothing is sent any more.
export class AnotherUser extends Error {}
// The browser's store for this window is full, so that a request's number cannot be kept.
export class StoreFull extends Error {}

// The user whom the page shows, whether the browser sends as another one by now, and whether nginx takes no password of
// it, so that nothing reaches the register; and the name that nginx-keyreg.conf gives the register, if any.
let reader = null, isOther = false, isOut = false, given = "";

export const isSignedOut = () => isOut;

// What tells this register from others of its machine.
export const registerName = () => given || location.host;

// A field of an answer's head, whose bytes a browser gives as letters.
function headText(response, name) {
  const bytes = Uint8Array.from(response.headers.get(name) ?? "", (letter) => letter.charCodeAt(0));
  return new TextDecoder().decode(bytes);
}

function lookAtStatus(status) {
  if (isOut === (status === NO_USER)) return;
  isOut = !isOut;
  events.dispatchEvent(new Event("signed"));
  if (!isOut) wake();
}

function leave() {
  if (!isOther) {
    isOther = true;
    events.dispatchEvent(new Event("other"));
  }
  throw new AnotherUser();
}

async function asked(path, how = {}) {
  const usual = {
    cache: "no-store",
    credentials: "same-origin",
    redirect: "error",
    signal: AbortSignal.timeout(PATIENCE),
  };
  try {
    const response = await (firstAnswer(path) ?? fetch(location.origin + path, {...usual, ...how}));
    look(response);
    lookAtStatus(response.status);
    given = headText(response, "Register-Name") || given;
    return {status: response.status, text: await response.text()};
  } catch (fault) {
    throw new Unanswered(fault.message);
  }
}

const unanswered = (status) => new Unanswered(`status ${status}`);

// The same of the register's own paths, for a user.
async function askedFor(user, path, how = {}) {
  if (isOther) throw new AnotherUser();
  const answer = await asked(path, {...how, headers: {...how.headers, "Desk-User": user}});
  return answer.status === OTHER_USER ? leave() : answer;
}

function valueOf(text) {
  try {
    const value = JSON.parse(text);
    return value !== null && typeof value === "object" ? value : {};
  } catch {
    return {};
  }
}

// The name of the user as whom the browser sends. The first one is the reader of the page.
export async function whoAmI() {
  const {status, text} = await asked("/me");
  if (status !== 200) throw unanswered(status);
  const name = text.trim();
  reader ??= name;
  return name === reader ? name : leave();
}

// A key with its usage as the register tells them, and the clock's second before they were asked for; null where there
// is none.
export async function keyOf(number) {
  const at = now();
  const [key, usage] = await Promise.all([keyAlone(number), askedFor(reader, `/keys/${number}/usage`)]);
  if (!key) return null;
  if (usage.status !== 200) throw unanswered(usage.status);
  return {key, usage: valueOf(usage.text), at};
}

// A key as the register tells it; null where there is none.
async function keyAlone(number) {
  const {status, text} = await askedFor(reader, `/keys/${number}`), value = valueOf(text);
  if (status === 404 && value.refused === 4) return null;
  if (status !== 200 || value.number !== number) throw unanswered(status);
  return value;
}

// The number of the last key, which is none below `from`: the step is doubled up to one that is none, and halved back.
export async function lastKey(from) {
  let number = from, step = 1;
  while (await keyAlone(number + step)) {
    number += step;
    step *= 2;
  }
  for (step /= 2; step >= 1; step /= 2) if (await keyAlone(number + step)) number += step;
  return number;
}

// The keys of these numbers, as the register tells them.
export async function* keysFrom(first, last) {
  for (let number = first; number <= last; number += AT_ONCE) {
    const count = Math.min(AT_ONCE, last - number + 1);
    const keys = await Promise.all(Array.from({length: count}, (_, place) => keyAlone(number + place)));
    yield* keys.filter(Boolean);
  }
}

// A file of the history beside the list; null where it is not there any more.
export async function historyFile(path) {
  const {status, text} = await asked(`/history/${path}`, {cache: "no-cache"});
  if (status === 404) return null;
  if (status !== 200) throw unanswered(status);
  return valueOf(text);
}

// A signal for what is waited for: it comes where `wait` was not called for long.
function patience() {
  const control = new AbortController();
  let timer;
  const end = () => clearTimeout(timer);
  const wait = () => {
    end();
    timer = setTimeout(() => control.abort(), PATIENCE);
  };
  wait();
  return {signal: control.signal, wait, end};
}

// The list, or null where it did not change since it was asked for last. It is given up where no part of it comes for
// long, however long the whole takes.
let tag = null;
export async function listed() {
  const {signal, wait, end} = patience();
  const late = new Promise((_, give) => signal.addEventListener("abort", () => give(new Unanswered("late"))));
  const how = {cache: "no-cache", credentials: "same-origin", redirect: "error", signal};
  try {
    const given = firstAnswer("/list.json") ?? fetch(`${location.origin}/list.json`, how);
    const response = await Promise.race([given, late]);
    look(response);
    if (!response.ok) throw unanswered(response.status);
    const mark = response.headers.get("ETag") ?? response.headers.get("Last-Modified");
    if (mark && mark === tag) return null;
    const parts = new TransformStream({transform: (part, to) => (wait(), to.enqueue(part))});
    const list = await new Response(response.body.pipeThrough(parts, {signal})).json();
    if (list.form !== 2) throw new Unanswered("the list is of another form");
    tag = mark;
    return list;
  } finally {
    end();
  }
}

// ---- what is sent

function read(place, otherwise) {
  try {
    return JSON.parse(sessionStorage.getItem(place)) ?? otherwise;
  } catch {
    return otherwise;
  }
}

function write(place, value) {
  try {
    sessionStorage.setItem(place, JSON.stringify(value));
  } catch (fault) {
    throw new StoreFull(fault.message);
  }
}

// The requests that wait for an answer, in the order in which they were made.
export const kept = () => read(KEPT, []);

function keep(entries) {
  write(KEPT, entries);
  events.dispatchEvent(new Event("kept"));
}

// A number that is drawn now: milliseconds and three digits more. It stays below those of tables until the year 2112.
function drawn() {
  const digits = crypto.getRandomValues(new Uint32Array(1))[0] % 1000;
  const number = Math.max(Date.now() * 1000 + digits, Number(read(DRAWN, 0)) + 1);
  if (number >= LEAST_OF_TABLES) throw new Error("the machine's clock is wrong");
  write(DRAWN, number);
  return number;
}

// The register's answer to a request, or null where what came tells nothing of it.
function answerOf({status, text}, number) {
  const value = valueOf(text);
  if (status === 200 && Number.isInteger(value.key) && Number.isInteger(value.moment)) {
    return {accepted: true, number, key: value.key, state: value.state, moment: value.moment};
  }
  const isRefusal = [400, 404, 409].includes(status) && Number.isInteger(value.refused);
  return isRefusal ? {accepted: false, number, ...value} : null;
}

let wake = () => {};
export const sendNow = () => wake();

// Waits, without end where that is Infinity, or until somebody presses.
function pause(seconds) {
  return new Promise((go) => {
    const timer = seconds < Infinity ? setTimeout(go, seconds * 1000) : 0;
    wake = () => {
      clearTimeout(timer);
      go();
    };
  });
}

const isOf = ({number, caller}) => (other) => other.number === number && other.caller === caller;

// Why a request waits. Where there is no room for that, it waits all the same.
function noted(entry, cause) {
  const isIt = isOf(entry);
  try {
    keep(kept().map((one) => (isIt(one) ? {...one, cause, times: (one.times ?? 0) + 1} : one)));
  } catch (fault) {
    if (!(fault instanceof StoreFull)) throw fault;
  }
}

// Sends a request once. Gives its answer, or for how many seconds to wait before it is sent again: none where the usual
// pause is meant. A register that is ahead of the clock by less than a minute refuses what it takes soon.
async function once(entry) {
  const {number, caller, body} = entry;
  try {
    const headers = {"Content-Type": "application/json", "Request-Number": String(number)};
    const told = await askedFor(caller, "/requests", {method: "POST", body, headers});
    const answer = answerOf(told, number);
    if (answer?.refused === 3 && answer.latest - now() <= NEAR) {
      const seconds = Math.max(1, answer.latest - now());
      noted(entry, `the register is ${seconds} s ahead of its machine's clock`);
      return {seconds};
    }
    if (answer) return {answer};
    if (told.status !== NO_USER) {
      noted(entry, `it was answered with status ${told.status}, which does not tell whether it acted`);
      return {};
    }
    noted(entry, "the password is not taken any more (401), so that it did not reach the register");
    return {seconds: Infinity};
  } catch (fault) {
    if (!(fault instanceof Unanswered)) throw fault;
    noted(entry, "the connection broke before an answer came");
    return {};
  }
}

// Sends a kept request until its answer comes, or until it is given up. Where the browser sends as another user, it
// stays and waits for its own.
async function deliver(entry) {
  const isIt = isOf(entry);
  for (let turn = 0; ; turn++) {
    const {answer, seconds} = await once(entry);
    if (answer) {
      keep(kept().filter((other) => !isIt(other)));
      return answer;
    }
    await pause(seconds ?? PAUSES[Math.min(turn, PAUSES.length - 1)]);
    if (!kept().some(isIt)) return null;
  }
}

// Sends a command as the reader, under a number that is drawn now or follows from a table's row.
export function send(command, number = drawn()) {
  if (isOther) throw new AnotherUser();
  const entry = {number, caller: reader, body: JSON.stringify(command)};
  keep([...kept(), entry]);
  return deliver(entry);
}

// Sends again what waits since before a reload; of another caller nothing is sent.
export async function* resumed() {
  for (const entry of kept()) {
    if (entry.caller !== reader) continue;
    const answer = await deliver(entry);
    if (answer) yield {answer, command: JSON.parse(entry.body)};
  }
}

// Gives a request of the reader up.
export function giveUp(number) {
  const isIt = isOf({number, caller: reader});
  keep(kept().filter((entry) => !isIt(entry)));
  wake();
}
