// What the desk says: moments, commands and refusals in words.
import {el, plain} from "./dom.js";
import {CONTROL, DAY, HALF, MOST_BYTES, MOST_LETTERS, NO_NAME, RANGES, REASONS, bytesOf, rowOf} from "./rules.js";

// ---- moments

// The text of a moment, as the register writes it.
export function momentText(moment) {
  return new Date(moment * 1000).toISOString().replace(".000Z", "Z");
}

// The moment of a text without a zone, as a field for dates gives it. The field says UTC, and so it is taken: never as
// the reader's own time. null where it is none.
export function momentOf(text) {
  const parts = /^(\d{4})-(\d\d)-(\d\d)T(\d\d):(\d\d)(?::(\d\d))?(Z?)$/.exec(text);
  if (!parts) return null;
  const [year, month, day, hour, minute, second] = parts.slice(1, 7).map((digits) => Number(digits ?? 0));
  const moment = Date.UTC(year, month - 1, day, hour, minute, second) / 1000;
  const [least, most] = RANGES.date;
  if (!(moment >= least && moment <= most)) return null;
  return momentText(moment).startsWith(text.slice(0, 16)) ? moment : null;
}

export const utcText = (moment) => momentText(moment).replace("T", " ").replace("Z", " UTC");

const LOCAL = {
  year: "numeric",
  month: "short",
  day: "numeric",
  hour: "2-digit",
  minute: "2-digit",
  second: "2-digit",
  timeZoneName: "short",
};
let local;

export function localText(moment) {
  local ??= new Intl.DateTimeFormat(undefined, LOCAL);
  return local.format(new Date(moment * 1000));
}

// From so many seconds on, the size of a unit and its word.
const UNITS = [
  [366 * DAY, 365.25 * DAY, "year"],
  [61 * DAY, 30.44 * DAY, "month"],
  [2 * DAY, DAY, "day"],
  [7200, 3600, "hour"],
  [120, 60, "minute"],
  [0, 1, "second"],
];

export function away(moment, now) {
  const seconds = Math.abs(moment - now);
  const [, size, unit] = UNITS.find(([least]) => seconds >= least);
  const text = counted(Math.round(seconds / size), unit);
  return moment === now ? "now" : moment > now ? `in ${text}` : `${text} ago`;
}

// A moment in UTC and in the reader's own time.
export function moment(value, now) {
  if (value === null || value === undefined) return el("span", {class: "none"}, "not set");
  return el("span", {class: "moment"},
    el("time", {datetime: momentText(value)}, utcText(value)),
    el("span", {class: "local"}, ` ${localText(value)}`),
    now === undefined ? null : el("span", {class: "away"}, ` (${away(value, now)})`));
}

// ---- keys and commands

// A count with its word.
export const counted = (count, word) => `${count} ${word}${count === 1 ? "" : "s"}`;

const MARKS = {
  "Pre-Active": "◇",
  "Active": "●",
  "Deactivated": "◐",
  "Compromised": "▲",
  "Destroyed": "✕",
  "Destroyed-Compromised": "⊗",
};

// A state by its word, a mark and a pattern, so that no colour is needed; behind it whether the key is overdue.
export function state(word, isOverdue = false) {
  const made = el("span", {class: `state ${word.toLowerCase()}`},
    el("span", {"aria-hidden": "true"}, `${MARKS[word]} `), word);
  return isOverdue ? el("span", {}, made, " ", el("strong", {class: "overdue"}, "overdue")) : made;
}

// What the page says of each command: the title of its form and what that tells, what one that the register kept did,
// and why a key's state is none for it.
export const WORDS = {
  "register": {title: "Register a key", did: "registered"},
  "activate": {
    title: "Activate now",
    tells: "The key becomes Active at this moment. Its other dates are cut to the period of its type.",
    did: "activated",
    wrongState: "only a Pre-Active key is activated",
  },
  "set": {
    title: "Set dates",
    tells: "Each date is kept, cleared or set. "
      + "A cleared one follows from the type's period, where an Activation stands.",
    did: "set dates",
    wrongState: "dates are set of a Pre-Active or an Active key alone",
  },
  "approve": {
    title: "Approve the destruction",
    tells: "Your approval stands until you withdraw it. The owner destroys the key once enough stand.",
    did: "approved the destruction",
    wrongState: "a destruction is approved of a Pre-Active, Deactivated or Compromised key: revoke an Active one first",
  },
  "withdraw": {
    title: "Withdraw the approval",
    tells: "Your approval ends.",
    did: "withdrew the approval",
    wrongState: "no approval of a destroyed key ends",
  },
  "destroy": {
    title: "Destroy",
    tells: "The record says from then on that the key is destroyed. There is no way back.",
    did: "destroyed",
    wrongState: "a Pre-Active, a Deactivated or a Compromised key is destroyed: revoke an Active one first",
  },
  "revoke": {
    title: "Revoke",
    tells: "The key is Deactivated at once. After a compromise, which anybody may tell, it is Compromised for good.",
    did: "revoked",
    wrongState: "only an Active key is revoked, but for a compromise",
  },
  "revoke for compromise": {title: "Tell a compromise", wrongState: "it is compromised already"},
  "add-custodian": {
    title: "Add a custodian",
    tells: "A custodian may approve the destruction. The owner is none.",
    did: "added the custodian",
  },
  "remove-custodian": {
    title: "Remove a custodian",
    tells: "Its approval ends with it.",
    did: "removed the custodian",
    wrongState: "a destroyed key keeps its custodians",
  },
  "set-quorum": {
    title: "Set the approvals needed",
    tells: "How many custodians have to approve before the key is destroyed.",
    did: "set the approvals needed to",
  },
  "assign": {
    title: "Give to another owner",
    tells: "Another name owns the key from then on, and gives its commands.",
    did: "given to",
  },
  "set-period": {title: "Set the periods of a type"},
  "advance": {title: "Bring the register to now"},
};

const edited = (value) => (value === "keep" ? "kept" : value === null ? "cleared" : utcText(value));
const editsText = (command) => `Activation ${edited(command.activation)}, `
  + `Protect Stop ${edited(command.protect_stop)}, Deactivation ${edited(command.deactivation)}`;

// What a command says, in a line.
export function commandText(command) {
  const {kind, key} = command;
  const of = key === undefined ? "" : ` key ${key}`;
  if (kind === "register") {
    return `Register a key of type ${command.type} for ${plain(command.owner)}: ${plain(command.purpose)}`;
  }
  if (kind === "set") return `Set dates of${of}: ${editsText(command)}`;
  if (kind === "revoke") return `Revoke${of}: ${REASONS[command.reason]}`;
  if (kind === "assign") return `Give${of} to ${plain(command.owner)}`;
  if (kind === "add-custodian") return `Add ${plain(command.name)} as a custodian of${of}`;
  if (kind === "remove-custodian") return `Remove the custodian ${plain(command.name)} of${of}`;
  if (kind === "approve") return `Approve the destruction of${of}`;
  if (kind === "withdraw") return `Withdraw the approval of${of}`;
  if (kind === "set-quorum") return `${command.need} approvals needed for${of}`;
  if (kind === "set-period") {
    const {type, originator, recipient} = command;
    return `Periods of ${type}: ${originator} months of protecting, ${recipient} of processing after`;
  }
  return kind === "advance" ? WORDS.advance.title : `${WORDS[kind].title}:${of}`;
}

// What a request that the register kept did, in words.
export function didText({kind, ...command}) {
  const {did} = WORDS[kind];
  if (kind === "set") return `${did}: ${editsText(command)}`;
  if (kind === "revoke") {
    const when = command.occurrence === null ? "" : `, compromised ${utcText(command.occurrence)}`;
    return `${did}: ${REASONS[command.reason]}${when}`;
  }
  const given = kind === "register" ? null : command.owner ?? command.name ?? command.need;
  return given === undefined || given === null ? did : `${did} ${plain(String(given))}`;
}

// ---- values

function nameFault(text) {
  if (text.length > MOST_LETTERS) return `${text.length} of ${MOST_LETTERS} letters`;
  const letter = NO_NAME.exec(text)?.[0];
  if (letter === undefined) return "";
  return `${letter === " " ? "a space" : plain(letter)} is none of the ASCII letters, digits, and - _ . @ of a name`;
}

function purposeFault(text) {
  const size = bytesOf(text);
  if (size > MOST_BYTES) return `${size} of ${MOST_BYTES} bytes`;
  const control = CONTROL.exec(text)?.[0];
  if (control !== undefined) return `the control character ${plain(control)}`;
  if (HALF.test(text)) return "half of a character";
  return text.startsWith(" ") ? "a space at its beginning" : text.endsWith(" ") ? "a space at its end" : "";
}

// What is wrong with the text of a name or a purpose: which letter, or how many; an empty text where nothing is.
export function textFault(member, text) {
  return member === "purpose" ? purposeFault(text) : nameFault(text);
}

// ---- refusals

// What a refusal says, and what would be accepted.
export function refusalText(answer, command) {
  const {limit} = answer;
  const texts = {
    1: "The register takes the request for none: a field has a value that it cannot have.",
    2: "Under this request's number you have an accepted request with another command. This one did nothing.",
    3: `The register is at ${answer.latest === undefined ? "a later moment" : utcText(answer.latest)} already, after `
      + "the machine's clock. Wait until then, or tell whoever runs it that a clock was wrong.",
    4: `There is no key ${command.key}.`,
    5: "Only the owner of the key may do this, and you are not.",
    6: "Only a custodian of the key may do this, and you are not.",
    7: answer.state ? `The key is ${answer.state}, and ${WORDS[rowOf(command)].wrongState}.` : "",
    8: "The Activation of an Active key, and a Protect Stop that is reached, stay as they are: keep them.",
    9: "The dates have to be in order: Activation, Protect Stop, Deactivation.",
    10: `The usage period is longer than the type's: the latest moment that is accepted is `
      + `${limit === undefined ? "earlier" : `${utcText(limit)} (${localText(limit)})`}.`,
    11: "A date that follows by the type's period is past the year 9999: set it by hand.",
    12: "The name is a custodian of the key already.",
    13: "The name is no custodian of the key.",
    14: "The key has sixteen custodians, and no more may be added: remove one first.",
    15: "The owner of a key is none of its custodians: name another.",
    16: "Your approval stands already.",
    17: "You have no approval that stands.",
    18: `${answer.have} of ${answer.need} approvals stand: more custodians have to approve first.`,
    19: "The compromise occurred no later than now: take an earlier date.",
    20: "The register has 1,000,000 keys, and takes no more.",
    21: "Only the user office sets the periods of types.",
  };
  return texts[answer.refused] ?? "";
}
