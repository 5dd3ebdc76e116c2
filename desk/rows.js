// The judgement of a table's rows before anything is sent: what the register would say, which rows are keys already or
// stand twice, and what a spreadsheet changed.
import {COLUMNS} from "./csv.js";
import {plain} from "./dom.js";
import {Made, judgement} from "./list.js";
import {now} from "./register.js";
import {PERIODS, SETTABLE} from "./rules.js";
import {WHOLE, changes, seems} from "./sheet.js";
import {momentOf, refusalText, textFault} from "./words.js";

// The sorts of rows, with what is said of how many there are.
export const SORTS = {
  good: "would be accepted",
  refused: "refused",
  wrong: "of another form",
  twice: "there already",
  repeated: "repeated",
  changed: "changed by a spreadsheet",
};

const textOf = (member, text) => {
  const fault = text === "" ? `${member} is empty` : textFault(member, text);
  return fault && (text === "" ? fault : `${member} is ${plain(text.slice(0, 80))}: ${fault}`);
};

// Why the register would refuse a row for its form: of each field that it would, its name and the words.
function formFaults(row) {
  if (row.length !== COLUMNS.length) return [["", `it has ${row.length} fields, and not six`]];
  const [type, owner, , , , purpose] = row, faults = [];
  if (!Object.hasOwn(PERIODS, type)) faults.push(["type", `type is ${plain(type)}, which is none of the seven`]);
  faults.push(["owner", textOf("owner", owner)]);
  SETTABLE.forEach((name, place) => {
    const date = row[place + 2];
    if (date !== "" && (!WHOLE.test(date) || momentOf(date) === null)) {
      faults.push([name, `${name} is ${plain(date)}, and no moment in the form YYYY-MM-DDTHH:MM:SSZ`]);
    }
  });
  faults.push(["purpose", textOf("purpose", purpose)]);
  return faults.filter(([, fault]) => fault);
}

// The registration that a row of the right form asks for.
export function commandOf([type, owner, activation, stop, end, purpose]) {
  const date = (text) => (text === "" ? null : momentOf(text));
  return {
    kind: "register",
    type,
    owner,
    activation: date(activation),
    protect_stop: date(stop),
    deactivation: date(end),
    purpose,
  };
}

// What stands for a row where another one asks for the same key: its fields, with the dates that it would have.
const keyText = ({type, owner, purpose}, dates) =>
  JSON.stringify([type, owner, purpose, ...SETTABLE.map((name) => dates[name] ?? null)]);

// `made` finds keys that rows have made, `before` has the first row of each text.
function judgedRow({faults, command}, place, {caller, made, before}) {
  if (faults.length) return {sort: "wrong", faults, words: ""};
  const answer = judgement(command, {caller}), number = made.of(command);
  const text = keyText(command, answer?.key ?? command), first = before.get(text);
  if (first === undefined) before.set(text, place);
  if (number) {
    return {sort: "twice", faults,
      words: `it is key ${number} already, and this makes a second one, but where you sent the row before`};
  }
  if (answer?.refused) {
    return {sort: "refused", faults, words: `would be refused: ${refusalText(answer, command)}`};
  }
  if (first !== undefined) {
    return {sort: "repeated", faults, words: `it is row ${first + 1} again, and this makes a second key`};
  }
  return {sort: "good", faults, words: "would be accepted"};
}

// What is said of a row, with what a spreadsheet did to the key that it came from, or seems to have done to a field.
function withChange({sort, faults, words}, row, change) {
  const isBarred = faults.length > 0;
  const hints = new Map(COLUMNS.map((name, column) => [name, sort === "twice" ? "" : seems(name, row[column] ?? "")])
    .filter(([, hint]) => hint));
  if (change) {
    const {number, fields} = change, names = change.ways.map(([column]) => COLUMNS[column]);
    const lines = change.ways.map(([column, how]) =>
      `${COLUMNS[column]} was ${plain(fields[column])} and is ${plain(row[column])}: ${how}`);
    const others = faults.filter(([name]) => !names.includes(name)).map(([, fault]) => fault);
    const all = [...lines, ...others, ...(sort === "refused" ? [words] : [])].join("; ");
    return {sort: "changed", isBarred, words: `changed by a spreadsheet: of key ${number} ${all}`};
  }
  const lines = faults.map(([name, fault]) => (hints.has(name) ? `${fault}: ${hints.get(name)}` : fault));
  if (isBarred) return {sort, isBarred, words: `of another form: ${lines.join("; ")}`};
  if (!hints.size) return {sort, isBarred, words};
  const seen = [...hints].map(([name, hint]) => `${name} is ${plain(row[COLUMNS.indexOf(name)])}: ${hint}`);
  return {sort: "changed", isBarred, words: `changed by a spreadsheet, as it seems: ${[...seen, words].join("; ")}`};
}

// Of each row its sort, whether it cannot be sent, and the words that say why.
export function judgedRows(rows, caller) {
  const asked = rows.map((row) => {
    const faults = formFaults(row);
    return {faults, command: faults.length ? null : commandOf(row)};
  });
  const registrations = asked.map(({command}) => command).filter(Boolean);
  const given = {caller, made: new Made(registrations, now()), before: new Map()};
  const judged = asked.map((row, place) => judgedRow(row, place, given));
  const changed = changes(rows, judged.map(({sort}) => sort === "twice"));
  return judged.map((judgement, place) => withChange(judgement, rows[place], changed[place]));
}
