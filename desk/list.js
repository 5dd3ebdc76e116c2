// The keys that the desk knows: those of the list, and over them what it learnt from the register since the list was
// made.
import {listed, now} from "./register.js";
import {DAY, NEAR, PERIODS, STATES, isLong, judged, mayHaveMade, predecessorOf, stateAt, textOf} from "./rules.js";

const LEARNT = "keyreg.learnt";
const DATES = ["activation", "protect_stop", "deactivation", "destroyed", "compromised", "occurrence"];
const COLUMNS = ["type", "owner", "purpose", "initial", ...DATES, "need", "custodians", "approvals", "replaces"];
const noColumns = () => Object.fromEntries(COLUMNS.map((name) => [name, []]));

function stored(part, otherwise) {
  try {
    return JSON.parse(sessionStorage.getItem(`${LEARNT}.${part}`)) ?? otherwise;
  } catch {
    return otherwise;
  }
}

// `made` and `latest` are of the list; 0 where there is none. `history` is the folder of its history, or null.
export const list = {made: 0, latest: 0, count: 0, isThere: false, hasKeys: false, periods: {}, history: null};
// What the register told since: of each key {key, usage, at}; of each type whose period was set {months, at}; its
// latest moment, {moment, at}. And the last requests of this window that were accepted, the oldest first, as
// `requestOf` gives them, with `at`.
const learnt = {
  keys: stored("keys", {}),
  periods: stored("periods", {}),
  sent: stored("sent", []),
  last: stored("last", {moment: 0, at: 0}),
};
const MOST_SENT = 300;
// So many seconds a browser's clock may be beside that of the register's machine.
const CLOCKS = 5;
// The keys behind the list: of which a row of a table was accepted, as they were foretold, and those that were asked
// for since, {number: {key, caller}}, with a caller where it is known. The table is kept, and they follow from it after
// a reload.
let registered = new Map();
let columns = noColumns(), names = [], types = Object.keys(PERIODS);
// What is looked through for a text, in small letters, by key; and how many keys there are in it.
let hay = [], count = 0;

// What is too much to be kept over a reload is still known until then.
function save(part) {
  try {
    sessionStorage.setItem(`${LEARNT}.${part}`, JSON.stringify(learnt[part]));
  } catch {
    sessionStorage.removeItem(`${LEARNT}.${part}`);
  }
}

function putHay({number, owner, type, purpose}) {
  if (hay[number - 1] === undefined) count++;
  hay[number - 1] = `${number} ${owner} ${type} ${purpose}`.toLowerCase();
}

// ---- what the register told

// What is of a moment that is still to come was learnt while a clock was wrong.
const isPast = (at) => at <= now() + NEAR;

// The register's latest moment: what it told since the list was made, or the list's. It falls where a register was set
// right.
export function latest() {
  const {moment, at} = learnt.last;
  return at > 0 && isPast(at) && (at >= list.made || !isPast(list.made)) ? moment : list.latest;
}

// Learns the moment of an answer. A lower one than was known counts where it is as of now: an answer that the register
// kept has that of the first time.
export function learnMoment(moment, isOfNow = moment >= now() - NEAR) {
  if (moment < latest() && !isOfNow) return;
  learnt.last = {moment, at: now()};
  save("last");
}

export function learnKey({key, usage, at}) {
  learnt.keys[key.number] = {key, usage, at};
  putHay(key);
  save("keys");
}

// A key behind the list, as that of a row that was accepted: the page does not ask for it.
export function learnRegistered(key, caller) {
  if (learnt.keys[key.number] || key.number <= columns.type.length) return;
  registered.set(key.number, {key, caller});
  putHay(key);
}

// Those keys that no list has yet.
export const registeredKeys = () => [...registered.values()];

export function learnPeriod(type, months, at) {
  learnt.periods[type] = {months, at};
  save("periods");
}

// An accepted request, as a row of the history has it.
export const requestOf = ({number, key, moment, state}, command, caller) =>
  ({caller, number, key, moment, state, text: textOf(command)});

export const isSame = (one) => (other) => other.number === one.number && other.caller === one.caller;

export function learnRequest(request) {
  const isIt = isSame(request);
  learnt.sent = [...learnt.sent.filter((one) => !isIt(one)), {...request, at: now()}].slice(-MOST_SENT);
  save("sent");
}

// The requests of this window that the list may not have, and those that it has, unless the register was set right.
const mayLack = ({at}) => at >= list.made - CLOCKS && isPast(at);
export const sentSince = () => learnt.sent.filter(mayLack);
export const sentBefore = () => learnt.sent.filter((one) => !mayLack(one));

// The periods that are set, as far as the page knows.
export function periods() {
  const set = {...list.periods};
  for (const [type, {months}] of Object.entries(learnt.periods)) set[type] = months;
  return set;
}

export const periodOf = (type) => periods()[type] ?? PERIODS[type];

// What the page can know of the register's answer to a command. A register that is ahead of the clock by less than a
// minute is waited for.
export function judgement(command, {caller, key}) {
  const at = now(), last = latest(), moment = last - at <= NEAR ? Math.max(at, last) : at;
  return judged(command, {caller, moment, latest: last, key, periods: periods(), count: list.count});
}

// ---- the list

// What the list has no later than the page learnt it goes over the list; the rest is the list's.
function forget(made) {
  const isLater = (at) => at >= made && isPast(at);
  for (const part of ["keys", "periods"]) {
    for (const [name, {at}] of Object.entries(learnt[part])) if (!isLater(at)) delete learnt[part][name];
    save(part);
  }
  registered = new Map([...registered].filter(([number, {key}]) =>
    number > columns.type.length && isLater(key.initial)));
}

// Takes a list in, as office/list.py makes it.
export function take(made) {
  list.isThere = true;
  list.hasKeys = made.keys !== null;
  for (const name of ["made", "latest", "count", "periods", "history"]) list[name] = made[name];
  ({names, types} = made);
  columns = made.keys ?? noColumns();
  const lower = names.map((name) => name.toLowerCase());
  hay = columns.type.map((type, place) =>
    `${place + 1} ${lower[columns.owner[place]]} ${types[type]} ${columns.purpose[place].toLowerCase()}`);
  count = hay.length;
  forget(made.made);
  for (const {key} of [...registered.values(), ...Object.values(learnt.keys)]) putHay(key);
}

let coming = null;
export const isComing = () => coming !== null;

async function loaded() {
  try {
    const made = await listed();
    if (made) take(made);
    return made !== null;
  } finally {
    coming = null;
  }
}

// Takes in a newer list where there is one; tells whether there was. It is asked for once at a time.
export function load() {
  coming ??= loaded();
  return coming;
}

// ---- keys

const namesAt = (places) => places.map((place) => names[place]);

function listedKey(number) {
  const place = number - 1;
  if (place >= columns.type.length) return undefined;
  const key = {number, type: types[columns.type[place]], owner: names[columns.owner[place]]};
  for (const name of ["purpose", "initial", ...DATES, "need"]) key[name] = columns[name][place];
  key.custodians = namesAt(columns.custodians[place]);
  key.approvals = namesAt(columns.approvals[place]);
  return key;
}

const ownKey = (number) => learnt.keys[number]?.key ?? registered.get(number)?.key;

// A key as it is known here, with its state at a moment; undefined where it is not.
export function keyAt(number, moment) {
  const key = ownKey(number) ?? listedKey(number);
  return key && {...key, state: stateAt(key, moment)};
}

// What the register told of a key since the list was made, if anything.
export const learntOf = (number) => learnt.keys[number];

// The requests of a key that this window knows and the list may not have, the oldest first. Of a row of a table no
// number is known.
export function requestsOf(number) {
  const {key, caller} = registered.get(number) ?? {}, command = {kind: "register", ...key};
  return [...(caller ? [requestOf({key: number, moment: key.initial, state: key.state}, command, caller)] : []),
    ...sentSince().filter((one) => one.key === number)];
}

// The keys that replace a key, by the ends of their purposes.
export function replacementsOf(number) {
  const listed = columns.replaces.flatMap((before, place) => (before === number ? [place + 1] : []));
  const own = [...Object.values(learnt.keys), ...registered.values()].map(({key}) => key);
  const others = own.filter((key) => predecessorOf(key) === number).map((key) => key.number);
  return [...new Set([...listed, ...others])].sort((one, other) => one - other);
}

// How many keys are known, and the greatest of their numbers.
export const known = () => count;
export const last = () => hay.length;

// Each name that the register has, as far as the page knows: of owners, custodians and callers.
export function allNames() {
  const all = new Set(names);
  const others = [...Object.values(learnt.keys), ...registered.values()];
  for (const {key, caller} of others) {
    for (const name of [key.owner, ...key.custodians, ...(caller ? [caller] : [])]) all.add(name);
  }
  return all;
}

// ---- search

// A row of the columns as `stateAt` takes it, without the rest of the key: a search looks at each.
function datesAt(place) {
  return {
    activation: columns.activation[place],
    deactivation: columns.deactivation[place],
    protect_stop: columns.protect_stop[place],
    destroyed: columns.destroyed[place],
    compromised: columns.compromised[place],
  };
}

const AT_REST = ["Pre-Active", "Deactivated", "Compromised"];

function isDue(key, days, moment) {
  if (stateAt(key, moment) !== "Active") return false;
  return key.protect_stop <= moment + days * DAY || isLong(key, periodOf(key.type));
}

const waits = (key, moment) =>
  key.custodians.length > 0 && key.approvals.length < key.need && AT_REST.includes(stateAt(key, moment));

// Whether a filter lets a key through. An owner and a custodian are looked for in whatever case, and by a part of the
// name; `mine` is the name of an owner.
function suits(key, filter, moment) {
  const isNamed = (part) => (name) => name.toLowerCase().includes(part.toLowerCase());
  return (!filter.type || key.type === filter.type)
    && (!filter.owner || isNamed(filter.owner)(key.owner))
    && (!filter.custodian || key.custodians.some(isNamed(filter.custodian)))
    && (!filter.mine || key.owner === filter.mine)
    && (!filter.state || stateAt(key, moment) === filter.state)
    && (filter.days === null || isDue(key, filter.days, moment))
    && (!filter.waits || waits(key, moment));
}

// Whether a listed key can suit by its columns alone: most are told apart without the whole key.
function columnsSuit(filter, moment) {
  const {type, owner, custodian, mine, state, days} = filter, set = periods();
  const typeAt = types.indexOf(type), mineAt = names.indexOf(mine);
  const placesOf = (part) =>
    new Set(names.flatMap((name, at) => (name.toLowerCase().includes(part.toLowerCase()) ? [at] : [])));
  const owners = placesOf(owner), keepers = placesOf(custodian);
  return (place) => {
    if (type && columns.type[place] !== typeAt) return false;
    if (owner && !owners.has(columns.owner[place])) return false;
    if (mine && columns.owner[place] !== mineAt) return false;
    if (custodian && !columns.custodians[place].some((at) => keepers.has(at))) return false;
    if (filter.waits && columns.custodians[place].length === 0) return false;
    if (!state && days === null) return true;
    const dates = datesAt(place), now = stateAt(dates, moment);
    if (state && now !== state) return false;
    // Dates go past a period only where the office set it.
    return days === null
      || (now === "Active" && (dates.protect_stop <= moment + days * DAY || types[columns.type[place]] in set));
  };
}

// The numbers of the keys that a filter lets through, in its order; where it has none, in that of their Protect Stop
// Dates if days are asked for, or of their numbers. Words are looked for in the number, the owner, the type and the
// purpose.
export function matching(filter, moment) {
  const words = filter.text.toLowerCase().split(/\s+/).filter(Boolean), numbers = [];
  const isPlain = filter.days === null
    && ["type", "owner", "custodian", "mine", "state", "waits"].every((member) => !filter[member]);
  const mayBe = isPlain ? () => true : columnsSuit(filter, moment);
  hay.forEach((text, place) => {
    if (!words.every((word) => text.includes(word))) return;
    const own = ownKey(place + 1);
    if (isPlain || ((own || mayBe(place)) && suits(own ?? listedKey(place + 1), filter, moment))) {
      numbers.push(place + 1);
    }
  });
  const sort = filter.sort || (filter.days === null ? "number" : "protect_stop");
  return sort === "number" && !filter.isDown ? numbers : sorted(numbers, sort, filter.isDown, moment);
}

// The numbers of the keys that are due within so many days, in order of their Protect Stop Dates.
export const dueWithin = (days, moment) =>
  matching({text: "", owner: "", custodian: "", mine: "", type: "", state: "", days, waits: false}, moment);

// By what keys are sorted. One that lacks it comes last.
export const SORTS = {
  number: ({number}) => number,
  state: (key, moment) => STATES.indexOf(stateAt(key, moment)),
  owner: ({owner}) => owner.toLowerCase(),
  type: ({type}) => type,
  protect_stop: (key) => key.protect_stop,
  approvals: ({custodians, approvals}) => (custodians.length ? approvals.length : null),
  purpose: ({purpose}) => purpose.toLowerCase(),
};

function sorted(numbers, sort, isDown, moment) {
  const of = SORTS[sort], turn = isDown ? -1 : 1;
  const pairs = numbers.map((number) => ({number, value: of(ownKey(number) ?? listedKey(number), moment)}));
  pairs.sort(({value: one, number}, {value: other, number: next}) => {
    if (one === other) return number - next;
    if (one === null || other === null) return one === null ? 1 : -1;
    return one < other ? -turn : turn;
  });
  return pairs.map(({number}) => number);
}

// The keys that wait for somebody: those of whose destruction an approval stands and the caller's lacks, those that the
// caller guards with no approval yet, and those that the caller may destroy.
export function waiting(caller, moment) {
  const me = names.indexOf(caller), begun = [], guarded = [], destroyable = [];
  hay.forEach((_, place) => {
    const own = ownKey(place + 1);
    if (!own && !columns.custodians[place].includes(me) && columns.owner[place] !== me) return;
    const key = own ?? listedKey(place + 1);
    if (!AT_REST.includes(stateAt(key, moment))) return;
    if (key.custodians.includes(caller) && !key.approvals.includes(caller)) {
      (key.approvals.length ? begun : guarded).push(key.number);
    }
    if (key.owner === caller && key.approvals.length >= key.need) destroyable.push(key.number);
  });
  const approvals = new Map(begun.map((number) => [number, keyAt(number, moment).approvals.length]));
  begun.sort((one, other) => approvals.get(other) - approvals.get(one) || one - other);
  return {begun, guarded, destroyable};
}

// What a name has a part in: the keys that it owns, and those of which it is a custodian.
export function partsOf(name) {
  const at = names.indexOf(name), owns = [], guards = [];
  hay.forEach((_, place) => {
    const own = ownKey(place + 1);
    if (own ? own.owner === name : columns.owner[place] === at) owns.push(place + 1);
    if (own ? own.custodians.includes(name) : columns.custodians[place].includes(at)) guards.push(place + 1);
  });
  return {owns, guards};
}

// ---- the keys that a row may have made

const wordsOf = ({type, owner, purpose}) => `${type}\n${owner}\n${purpose}`;

// Of the keys that share their words with one of some registrations, those that each may have made.
export class Made {
  constructor(registrations, moment) {
    this.moment = moment;
    this.keys = new Map(registrations.map((row) => [wordsOf(row), new Map()]));
    for (let number = 1; number <= last(); number++) {
      const words = this.keys.size && (ownKey(number) ?? this.listedWords(number));
      if (words && this.keys.has(wordsOf(words))) this.add(keyAt(number, moment));
    }
  }

  // The words of a listed key, without the rest.
  listedWords(number) {
    const place = number - 1;
    return place < columns.type.length
      && {type: types[columns.type[place]], owner: names[columns.owner[place]], purpose: columns.purpose[place]};
  }

  // A key stands under each of its dates, so that a row with one date of many is not looked for among all.
  add(key) {
    const places = this.keys.get(wordsOf(key));
    for (const date of ["any", ...new Set([key.activation, key.protect_stop, key.deactivation])]) {
      if (!places.has(date)) places.set(date, []);
      places.get(date).push(key);
    }
  }

  // The number of a key that the registration may have made already, or 0.
  of(row) {
    const date = row.activation ?? row.protect_stop ?? row.deactivation ?? "any";
    const keys = this.keys.get(wordsOf(row))?.get(date) ?? [];
    return keys.find((key) => mayHaveMade(row, key, this.moment))?.number ?? 0;
  }
}

