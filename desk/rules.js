// The rules that the desk knows: the tables of docs/SPECIFICATION.md, and how a request is judged by them.
//
// checks/desk/rules.py holds the tables to those of the document, and each judgement to the register's. The register is
// right where the two differ: the page only says beforehand what it can know, and shows what the register said.
//
// A key is an object as `GET /keys/<key>` gives it, and a command one as a POST takes it. A moment is a number of
// seconds since 1970, a date a moment or null.

export const LAST_MOMENT = 253402300799;
export const GREATEST_NUMBER = 9007199254740991;
// From here to the greatest go the requests of tables, and below it all others.
export const LEAST_OF_TABLES = 2 ** 52;
export const MOST_CUSTODIANS = 16;
export const MOST_KEYS = 1000000;
const LEAST_NEED = 2;
export const OFFICE = "office";
export const DAY = 86400;
// By so many seconds a register may be ahead of its machine's clock and is waited for.
export const NEAR = 60;

// Months of originator use, and of recipient use after, where the office has set none.
export const PERIODS = {
  "data-encryption": [24, 36],
  "authentication": [24, 36],
  "key-wrapping": [24, 36],
  "private-signature": [36, 0],
  "private-authentication": [24, 0],
  "private-transport": [24, 0],
  "master": [12, 0],
};

export const STATES = ["Pre-Active", "Active", "Deactivated", "Compromised", "Destroyed", "Destroyed-Compromised"];
const [PRE_ACTIVE, ACTIVE, DEACTIVATED, COMPROMISED, DESTROYED, DESTROYED_COMPROMISED] = STATES;
const NOT_DESTROYED = [PRE_ACTIVE, ACTIVE, DEACTIVATED, COMPROMISED];
const AT_REST = [PRE_ACTIVE, DEACTIVATED, COMPROMISED];

const DATES = {activation: "date", protect_stop: "date", deactivation: "date"};
const EDITS = {activation: "edit", protect_stop: "edit", deactivation: "edit"};

// Who may give a command; of a key in which states, null where it names none; its members beside its kind, each with
// what its value is. A key's page has them in this order. A revocation for a compromise is no kind of its own, and goes
// by its own row for who and states.
export const COMMANDS = {
  "register": {who: "anybody", states: null, members: {type: "type", owner: "name", ...DATES, purpose: "purpose"}},
  "activate": {who: "owner", states: [PRE_ACTIVE], members: {key: "key"}},
  "set": {who: "owner", states: [PRE_ACTIVE, ACTIVE], members: {key: "key", ...EDITS}},
  "approve": {who: "custodian", states: AT_REST, members: {key: "key"}},
  "withdraw": {who: "custodian", states: NOT_DESTROYED, members: {key: "key"}},
  "destroy": {who: "owner", states: AT_REST, members: {key: "key"}},
  "revoke": {who: "owner", states: [ACTIVE], members: {key: "key", reason: "reason", occurrence: "date"}},
  "revoke for compromise": {who: "anybody", states: [PRE_ACTIVE, ACTIVE, DEACTIVATED, DESTROYED]},
  "add-custodian": {who: "owner", states: STATES, members: {key: "key", name: "name"}},
  "remove-custodian": {who: "owner", states: NOT_DESTROYED, members: {key: "key", name: "name"}},
  "set-quorum": {who: "owner", states: STATES, members: {key: "key", need: "need"}},
  "assign": {who: "owner", states: STATES, members: {key: "key", owner: "name"}},
  "set-period": {
    who: "office",
    states: null,
    members: {type: "type", originator: "originator", recipient: "recipient"},
  },
  "advance": {who: "anybody", states: null, members: {}},
};

export const RANGES = {
  key: [1, 4294967295],
  date: [0, LAST_MOMENT],
  need: [2, 5],
  reason: [1, 7],
  originator: [1, 1200],
  recipient: [0, 1200],
};

// The dates that a registration gives.
export const SETTABLE = ["activation", "protect_stop", "deactivation"];

export const REASONS = {
  1: "Unspecified", 2: "Key Compromise", 3: "CA Compromise", 4: "Affiliation Changed", 5: "Superseded",
  6: "Cessation of Operation", 7: "Privilege Withdrawn",
};
export const COMPROMISES = [2, 3];

export const REFUSALS = {
  1: "BadLine", 2: "RequestReused", 3: "MomentBehind", 4: "UnknownKey", 5: "NotOwner", 6: "NotCustodian",
  7: "WrongState", 8: "DateFrozen", 9: "DateOrder", 10: "PeriodTooLong", 11: "DateRange", 12: "AlreadyCustodian",
  13: "NoSuchCustodian", 14: "TooManyCustodians", 15: "OwnerCustodian", 16: "AlreadyApproved", 17: "NoApproval",
  18: "ApprovalsMissing", 19: "OccurrenceLater", 20: "Full", 21: "NotOffice",
};

// ---- the form of a command

export const MOST_LETTERS = 64;
export const MOST_BYTES = 200;
export const NO_NAME = /[^A-Za-z0-9._@-]/u;
export const CONTROL = /[\u0000-\u001f\u007f]/;
export const HALF = /[\ud800-\udfff]/u;

export const bytesOf = (text) => new TextEncoder().encode(text).length;

const isName = (text) =>
  typeof text === "string" && text.length >= 1 && text.length <= MOST_LETTERS && !NO_NAME.test(text);

function isPurpose(text) {
  if (typeof text !== "string" || CONTROL.test(text) || text.startsWith(" ") || text.endsWith(" ")) return false;
  return text !== "" && bytesOf(text) <= MOST_BYTES && !HALF.test(text);
}

const isWithin = (value, [least, most]) => Number.isInteger(value) && value >= least && value <= most;

function isOf(what, value) {
  if (what === "type") return Object.hasOwn(PERIODS, value);
  if (what === "name") return isName(value);
  if (what === "purpose") return isPurpose(value);
  if (what === "edit" && value === "keep") return true;
  if (what === "edit" || what === "date") return value === null || isWithin(value, RANGES.date);
  return isWithin(value, RANGES[what]);
}

// The members of a command that have no value of theirs.
export function wrongMembers(command) {
  const members = COMMANDS[command.kind]?.members;
  if (!members) return ["kind"];
  const wrong = Object.entries(members).filter(([name, what]) => !isOf(what, command[name])).map(([name]) => name);
  if (command.kind === "revoke" && command.occurrence !== null && !COMPROMISES.includes(command.reason)) {
    wrong.push("occurrence");
  }
  return wrong;
}

// ---- the text of a command, as a request line and the register have it

export function textOf(command) {
  const words = Object.entries(COMMANDS[command.kind].members).map(([name, what]) => {
    const value = command[name] ?? null;
    return value === null ? "-" : what === "edit" && value === "keep" ? "=" : String(value);
  });
  return [command.kind, ...words].join(" ");
}

export function commandOfText(text) {
  const [kind, ...words] = text.split(" "), members = Object.entries(COMMANDS[kind]?.members ?? {});
  const value = (what, place) => {
    if (what === "purpose") return words.slice(place).join(" ");
    if (what === "type" || what === "name") return words[place];
    return words[place] === "-" ? null : words[place] === "=" ? "keep" : Number(words[place]);
  };
  return {kind, ...Object.fromEntries(members.map(([name, what], place) => [name, value(what, place)]))};
}

// ---- moments, periods and states

// The same day so many months later, or that month's last; null past the range of moments.
function plusMonths(moment, months) {
  const day = new Date(moment * 1000);
  const month = day.getUTCFullYear() * 12 + day.getUTCMonth() + months;
  const year = Math.floor(month / 12);
  if (year > 9999) return null;
  const last = new Date(Date.UTC(year, month % 12 + 1, 0)).getUTCDate();
  const date = Math.min(day.getUTCDate(), last);
  return Date.UTC(year, month % 12, date, day.getUTCHours(), day.getUTCMinutes(), day.getUTCSeconds()) / 1000;
}

function refusal(number, told = {}) {
  return {refused: number, name: REFUSALS[number], ...told};
}

const isSet = (date) => date !== null && date !== undefined;

// The dates after Fill, or after Trim, by a usage period; or their refusal.
function fitted(activation, stop, end, [originator, recipient], isTrimmed) {
  const limit = isSet(activation) ? plusMonths(activation, originator) : null;
  let isPast = false;
  if (isSet(activation) && !isSet(stop)) {
    const isEndFirst = isSet(end) && (limit === null || end < limit);
    stop = isEndFirst ? end : limit;
    isPast = !isEndFirst && limit === null;
  }
  if (isTrimmed && limit !== null && isSet(stop)) stop = Math.min(stop, limit);
  const last = isSet(stop) ? plusMonths(stop, recipient) : null;
  if (isSet(activation) && !isSet(end) && isSet(stop)) {
    end = last;
    isPast = isPast || last === null;
  }
  if (isTrimmed && last !== null && isSet(end)) end = Math.min(end, last);
  const given = [activation, stop, end].filter(isSet);
  if (given.some((date, place) => place > 0 && given[place - 1] > date)) return refusal(9);
  if (!isTrimmed && limit !== null && isSet(stop) && stop > limit) return refusal(10, {limit});
  if (!isTrimmed && last !== null && isSet(end) && end > last) return refusal(10, {limit: last});
  if (isPast) return refusal(11);
  return {activation, protect_stop: stop, deactivation: end};
}

// The state that a key's dates give at a moment.
export function stateAt(key, moment) {
  if (isSet(key.destroyed)) return isSet(key.compromised) ? DESTROYED_COMPROMISED : DESTROYED;
  if (isSet(key.compromised)) return COMPROMISED;
  if (!isSet(key.activation) || key.activation > moment) return PRE_ACTIVE;
  return isSet(key.deactivation) && key.deactivation <= moment ? DEACTIVATED : ACTIVE;
}

export function usageAt(key, moment) {
  const state = stateAt(key, moment);
  const process = {[ACTIVE]: "yes", [DEACTIVATED]: "special", [COMPROMISED]: "special"}[state] ?? "no";
  return {process, protect: state === ACTIVE && isSet(key.protect_stop) && key.protect_stop > moment};
}

// Whether an Active key's Protect Stop Date is reached: it is due for rotation.
export function isOverdue(key, moment) {
  return stateAt(key, moment) === ACTIVE && isSet(key.protect_stop) && key.protect_stop <= moment;
}

// The spans of a key's line: where it waits for its Activation, where it may protect data, and where it may only
// process what is protected. A compromise ends the second, a destruction the line. A span that ends with no date ends
// at Infinity. office/timeline.py draws by the same rule.
export function spansOf(key) {
  const [begin, stop, end, destroyed, compromised] =
    ["activation", "protect_stop", "deactivation", "destroyed", "compromised"]
      .map((name) => (isSet(key[name]) ? key[name] : Infinity));
  const last = Math.min(end, destroyed);
  const turn = Math.min(Math.max(begin, Math.min(stop, compromised)), last);
  const spans = [["wait", key.initial, Math.min(begin, destroyed, compromised)]];
  if (begin < Infinity) spans.push(["protect", begin, turn], ["process", turn, last]);
  return spans.filter(([, from, to]) => from < to);
}

// The end of a purpose that names the key which its key replaces. office/register_rules.py has the same rule.
const REPLACES = / \(replaces key ([1-9]\d{0,6})\)$/;

// The number of the key that a key replaces, which came before it; null where its purpose names none.
export function predecessorOf({number, purpose}) {
  const named = Number(REPLACES.exec(purpose)?.[1]);
  return named < number ? named : null;
}

// The purpose of the key that replaces a key.
export const purposeOfNext = ({number, purpose}) => `${purpose.replace(REPLACES, "")} (replaces key ${number})`;

// Whether a registration with these fields may have made the key: type, owner, purpose and each date that is given are
// the key's, and a date that is left out may be any. Where no date is given, the key is in use still: one that ended
// may be followed by another of its name. office/check_table.py goes by the same rule.
export function mayHaveMade(row, key, moment) {
  if (row.type !== key.type || row.owner !== key.owner || row.purpose !== key.purpose) return false;
  const given = SETTABLE.filter((name) => isSet(row[name]));
  if (given.length === 0) return [PRE_ACTIVE, ACTIVE].includes(stateAt(key, moment));
  return given.every((name) => row[name] === key[name]);
}

// Whether a key's dates go past a period, as where the office set a shorter one after them.
export function isLong(key, [originator, recipient]) {
  const isPast = (first, last, months) => {
    const limit = isSet(first) ? plusMonths(first, months) : null;
    return limit !== null && isSet(last) && last > limit;
  };
  return isPast(key.activation, key.protect_stop, originator) || isPast(key.protect_stop, key.deactivation, recipient);
}

// ---- the judgement

// By which row a command goes.
export function rowOf({kind, reason}) {
  return kind === "revoke" && COMPROMISES.includes(reason) ? "revoke for compromise" : kind;
}

// Why a caller may not give a command of this rule now, whatever else it says; null where the rule lets it.
export function barred(rule, caller, key, moment) {
  if (rule.who === "office" && caller !== OFFICE) return refusal(21);
  if (rule.who === "owner" && caller !== key.owner) return refusal(5);
  if (rule.who === "custodian" && !key.custodians.includes(caller)) return refusal(6);
  if (rule.states && !rule.states.includes(stateAt(key, moment))) return refusal(7, {state: stateAt(key, moment)});
  return null;
}

function dated(key, command, period, moment) {
  if (command.kind === "activate") return fitted(moment, key.protect_stop, key.deactivation, period, true);
  const isFrozen = command.activation !== "keep" && stateAt(key, moment) !== PRE_ACTIVE;
  const isReached = command.protect_stop !== "keep" && isSet(key.protect_stop) && key.protect_stop <= moment;
  if (isFrozen || isReached) return refusal(8);
  const after = (name) => (command[name] === "keep" ? key[name] : command[name]);
  return fitted(after("activation"), after("protect_stop"), after("deactivation"), period, false);
}

function revoked(key, command, moment) {
  if (!COMPROMISES.includes(command.reason)) {
    return {deactivation: moment, protect_stop: Math.min(key.protect_stop, moment)};
  }
  if (isSet(command.occurrence) && command.occurrence > moment) return refusal(19);
  const approvals = isSet(key.destroyed) ? key.approvals : [];
  return {compromised: moment, occurrence: command.occurrence ?? key.initial, approvals};
}

function guarded(key, {kind, name, owner, need}, caller) {
  const without = (names, one) => names.filter((other) => other !== one);
  if (kind === "assign") return key.custodians.includes(owner) ? refusal(15) : {owner};
  if (kind === "add-custodian") {
    if (key.custodians.includes(name)) return refusal(12);
    if (key.custodians.length >= MOST_CUSTODIANS) return refusal(14);
    return name === key.owner ? refusal(15) : {custodians: [...key.custodians, name].sort()};
  }
  if (kind === "remove-custodian") {
    if (!key.custodians.includes(name)) return refusal(13);
    return {custodians: without(key.custodians, name), approvals: without(key.approvals, name)};
  }
  const stands = key.approvals.includes(caller);
  if (kind === "approve") return stands ? refusal(16) : {approvals: [...key.approvals, caller].sort()};
  if (kind === "withdraw") return stands ? {approvals: without(key.approvals, caller)} : refusal(17);
  return {need};
}

function changed(key, command, caller, moment, period) {
  if (command.kind === "activate" || command.kind === "set") return dated(key, command, period, moment);
  if (command.kind === "revoke") return revoked(key, command, moment);
  if (command.kind !== "destroy") return guarded(key, command, caller);
  const have = key.approvals.length;
  return have < key.need ? refusal(18, {have, need: key.need}) : {destroyed: moment};
}

// The judgement of a command: a refusal, or the key as it is afterwards (null of a command about none). `key` is the
// key that the command names: undefined where it is not known, null where it is known that there is none. Where the
// page cannot know, the judgement is undefined.
export function judged(command, {caller, moment, latest, key, periods, count}) {
  if (wrongMembers(command).length) return refusal(1);
  if (isSet(latest) && moment < latest) return refusal(3, {latest});
  const rule = COMMANDS[rowOf(command)];
  if (command.kind === "advance") return {key: null};
  if (command.kind === "set-period") return barred(rule, caller, null, moment) ?? {key: null};
  const period = periods && (periods[command.type ?? key?.type] ?? PERIODS[command.type ?? key?.type]);
  if (command.kind === "register") {
    if (!period) return undefined;
    const dates = fitted(command.activation, command.protect_stop, command.deactivation, period, false);
    if (dates.refused) return dates;
    if (count >= MOST_KEYS) return refusal(20);
    const after = {type: command.type, owner: command.owner, purpose: command.purpose, initial: moment, ...dates,
      destroyed: null, compromised: null, occurrence: null, custodians: [], approvals: [], need: LEAST_NEED};
    return {key: {...after, state: stateAt(after, moment)}};
  }
  if (key === undefined) return undefined;
  if (key === null) return refusal(4);
  const bar = barred(rule, caller, key, moment);
  if (bar) return bar;
  if (!period && (command.kind === "activate" || command.kind === "set")) return undefined;
  const change = changed(key, command, caller, moment, period);
  if (change.refused) return change;
  const after = {...key, ...change};
  return {key: {...after, state: stateAt(after, moment)}};
}
