// The table that is being taken in, and what was said to its rows. It is kept over a reload: packed, once, and each
// answer beside it, so that a long table neither fills the window's store nor takes longer with each row.
import {csvOf} from "./csv.js";
import {judgement, learnRegistered, list, registeredKeys} from "./list.js";
import {tableNumbers} from "./numbers.js";
import {commandOf, judgedRows} from "./rows.js";
import {refusalText} from "./words.js";

// Behind each of these stands whose table it is: what one user took in is no other's to throw away.
const TABLE = "keyreg.table", SENT = "keyreg.table.sent", ANSWERS = "keyreg.table.answers";
// The keys of tables that were put away, until a newer list has them.
const AWAY = "keyreg.registered";
// So many answers are kept together.
const PART = 200;
// Letters that have to have room in the store beside a table, for requests that wait.
const ROOM = 100_000;

// ---- what is kept

async function piped(bytes, stream) {
  return new Uint8Array(await new Response(new Blob([bytes]).stream().pipeThrough(stream)).arrayBuffer());
}

// A text in fewer letters, each of which is a byte.
async function packed(text) {
  const bytes = await piped(new TextEncoder().encode(text), new CompressionStream("gzip"));
  const parts = [];
  for (let place = 0; place < bytes.length; place += 8192) {
    parts.push(String.fromCharCode(...bytes.subarray(place, place + 8192)));
  }
  return parts.join("");
}

async function unpacked(text) {
  const bytes = Uint8Array.from(text, (letter) => letter.charCodeAt(0));
  return new TextDecoder().decode(await piped(bytes, new DecompressionStream("gzip")));
}

// Keeps a text under a name; tells whether there was room for it.
function keep(name, text) {
  try {
    sessionStorage.setItem(name, text);
    return true;
  } catch {
    return false;
  }
}

const storeOf = (name, caller) => `${name}:${caller}`;

function forgetAll(caller) {
  for (const name of Object.keys(sessionStorage)) {
    if (name.startsWith(TABLE) && name.endsWith(`:${caller}`)) sessionStorage.removeItem(name);
  }
}

// ---- a table

class Table {
  // `answers` has of each row what was said to it: {key, isNew} or {refused, reason}, or null where nothing was yet.
  // `before` is the last key before the first row was sent, or null where none was; `left` tells how many rows became
  // keys before it, and `listOf` by the list of which moment the rows are judged.
  constructor({name, rows, caller}) {
    const none = (value) => rows.map(() => value);
    Object.assign(this, {name, rows, caller, isKept: true, before: null, left: 0, answers: none(null)});
    Object.assign(this, {isSent: none(false), isByHand: none(false)});
    this.counts = {wanted: 0, answered: 0, accepted: 0, there: 0, refused: 0};
    this.judgeAnew();
  }

  // The numbers of the rows, and the rows of these.
  get numbers() {
    this.given ??= tableNumbers(this.judged.map(({isBarred}, place) =>
      (isBarred ? null : commandOf(this.rows[place]))), this.caller);
    return this.given;
  }

  rowOf(number) {
    this.places ??= new Map(this.numbers.map((one, place) => [one, place]));
    return this.places.get(number);
  }

  // A row is to be sent, or not.
  mark(place, isSent) {
    this.counts.wanted += Number(isSent) - Number(this.isSent[place]);
    this.isSent[place] = isSent;
  }

  // The same by the reader's hand, whatever is judged.
  markByHand(place, isSent) {
    this.mark(place, isSent);
    this.isByHand[place] = true;
  }

  mayBeMarked(place) {
    return this.before === null && !this.judged[place].isBarred;
  }

  // Judges the rows anew, by what the page knows since. Tells how many were to be sent before, and are keys by now.
  judgeAnew() {
    let left = 0;
    this.listOf = list.made;
    // A row that stands twice is that still, once the first of the two is a key.
    this.judged = judgedRows(this.rows, this.caller).map((judged, place) =>
      (this.judged?.[place].sort === "repeated" ? this.judged[place] : judged));
    this.judged.forEach(({sort}, place) => {
      if (this.answers[place] || this.isByHand[place]) return;
      left += Number(this.isSent[place] && sort === "twice");
      this.mark(place, sort === "good");
    });
    return left;
  }

  // The next row to be sent from a place on, or -1.
  next(from) {
    return this.rows.findIndex((_, place) => place >= from && this.isSent[place] && !this.answers[place]);
  }

  put(place, answer) {
    this.answers[place] = answer;
    this.counts.answered += 1;
    this.counts[!answer.key ? "refused" : answer.isNew ? "accepted" : "there"] += 1;
  }

  // Notes the register's answer to a row. Of one that was accepted the key is known from then on, without being asked
  // for. A key that was there before the first row is that of an earlier sending: the register kept the answer.
  note(answer) {
    const place = this.rowOf(answer.number);
    if (place === undefined || this.answers[place]) return;
    const command = commandOf(this.rows[place]), {key, moment, state} = answer;
    this.put(place, answer.accepted ? {key, moment, state, isNew: key > this.before}
      : {refused: answer.name, reason: refusalText(answer, command)});
    this.learn(place);
    if (this.isKept) this.keepPart(Math.floor(place / PART));
  }

  learn(place) {
    const {key: number, moment, state, isNew} = this.answers[place];
    if (!isNew) return;
    const key = judgement(commandOf(this.rows[place]), {caller: this.caller})?.key;
    if (key) learnRegistered({...key, number, initial: moment, state}, this.caller);
  }

  // Whether some rows that are to be sent were, and others were not.
  get isHalfSent() {
    return this.before !== null && this.counts.answered < this.counts.wanted;
  }

  // Why a row is not registered; an empty text where it is.
  reason(place) {
    const answer = this.answers[place], {sort, words} = this.judged[place];
    if (answer) return answer.key ? "" : `refused: ${answer.refused}: ${answer.reason}`;
    return sort === "good" ? "not sent" : words;
  }

  // The rows that are not registered, each with its reason, as a file.
  givenBack() {
    const places = [...this.rows.keys()].filter((place) => !this.answers[place]?.key);
    return {count: places.length,
      text: csvOf(places.map((place) => this.rows[place]), places.map((place) => this.reason(place)))};
  }

  keepPart(part) {
    const answers = this.answers.slice(part * PART, (part + 1) * PART);
    this.isKept = keep(storeOf(`${ANSWERS}.${part}`, this.caller), JSON.stringify(answers));
  }

  // Keeps which rows are to be sent by the reader's hand, and behind which key.
  keepMarks() {
    if (!this.isKept) return;
    const marks = this.isSent.map((isSent, place) => (!this.isByHand[place] ? " " : isSent ? "1" : "0")).join("");
    this.isKept = keep(storeOf(SENT, this.caller), JSON.stringify({before: this.before, marks}));
  }

  // Keeps the table, where there is room for it and for the requests beside it.
  async keepAll() {
    const {name, rows, caller} = this, room = storeOf(`${TABLE}.room`, caller);
    forgetAll(caller);
    const text = await packed(JSON.stringify({name, rows, caller}));
    this.isKept = keep(storeOf(TABLE, caller), text) && keep(room, " ".repeat(ROOM));
    sessionStorage.removeItem(room);
    if (!this.isKept) forgetAll(caller);
    this.keepMarks();
  }

  // Puts back what was said before a reload.
  restore({before, marks}, parts) {
    this.before = before;
    [...marks].forEach((mark, place) => {
      if (mark !== " ") this.markByHand(place, mark === "1");
    });
    parts.flat().forEach((answer, place) => {
      if (!answer) return;
      this.mark(place, true);
      this.put(place, answer);
      this.learn(place);
    });
  }
}

// ---- the one that is taken in

let taken = null;

export const current = () => taken;

export async function takeIn(name, rows, caller) {
  taken = new Table({name, rows, caller});
  await taken.keepAll();
  return taken;
}

export async function putAway() {
  forgetAll(taken.caller);
  taken = null;
  const keys = registeredKeys();
  if (!keys.length || !keep(AWAY, await packed(JSON.stringify(keys)))) sessionStorage.removeItem(AWAY);
}

function answersOf(count, caller) {
  return Array.from({length: Math.ceil(count / PART)}, (_, part) =>
    JSON.parse(sessionStorage.getItem(storeOf(`${ANSWERS}.${part}`, caller))) ?? Array(PART).fill(null));
}

// What was kept before a reload, for the one who took it in.
export async function restore(caller) {
  const away = sessionStorage.getItem(AWAY), text = sessionStorage.getItem(storeOf(TABLE, caller));
  try {
    const keys = away === null ? [] : JSON.parse(await unpacked(away));
    for (const {key, caller: other} of keys) learnRegistered(key, other);
    if (text === null) return;
    const table = JSON.parse(await unpacked(text));
    if (!table.rows.every((row) => Array.isArray(row))) return;
    taken = new Table(table);
    taken.restore(JSON.parse(sessionStorage.getItem(storeOf(SENT, caller))), answersOf(table.rows.length, caller));
  } catch {
    taken = null;
    forgetAll(caller);
    sessionStorage.removeItem(AWAY);
  }
}

// An answer to a row that waited since before a reload. Tells whether it is one.
export function tableAnswer(answer, command) {
  if (!taken || taken.before === null || command.kind !== "register" || taken.rowOf(answer.number) === undefined) {
    return false;
  }
  taken.note(answer);
  return true;
}
