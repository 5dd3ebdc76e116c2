// The next key: the page on which an owner registers the key that replaces another one, with the custodians and the
// need as they stand there. Each of its requests is sent by a press of its own. What is done the register tells, so
// that it is gone on with after a break, in whatever window.
import {learnBehind} from "./behind.js";
import {el, name, replace, shown} from "./dom.js";
import {commandForm} from "./forms.js";
import {judgement, keyAt, learnKey, list, replacementsOf} from "./list.js";
import {rowNumber} from "./numbers.js";
import {AnotherUser, Unanswered, keyOf, now} from "./register.js";
import {MOST_BYTES, RANGES, bytesOf, predecessorOf, purposeOfNext} from "./rules.js";
import {commandText, refusalText, utcText} from "./words.js";

// The requests in their order, each with whether it is done. `next` is the new key, where there is one.
export function stepsOf(old, next) {
  const key = next?.number, {type, owner, protect_stop: activation} = old;
  const register = {kind: "register", type, owner, activation, protect_stop: null, deactivation: null,
    purpose: purposeOfNext(old)};
  const custodians = old.custodians.map((custodian) => ({isDone: next?.custodians.includes(custodian),
    command: {kind: "add-custodian", key, name: custodian}}));
  const need = {isDone: next?.need === old.need, command: {kind: "set-quorum", key, need: old.need}};
  // A key begins with two.
  return [{isDone: Boolean(next), command: register}, ...custodians, ...((next?.need ?? 2) === old.need ? [] : [need])];
}

// The registration goes under the number that a row of a table has: sent from two windows it is one key.
function registrationForm(old, {command}, desk) {
  const send = (body) => desk.send(body, rowNumber(desk.me, 1, body)), {number} = old;
  const end = purposeOfNext({number, purpose: ""});
  const bar = ({purpose}) => (predecessorOf({number: Infinity, purpose}) === number ? ""
    : `It would not be the next key of key ${number}: the purpose has to end in "${end}".`);
  const size = bytesOf(command.purpose);
  return [
    size > MOST_BYTES ? el("p", {class: "note"}, `Its purpose would have ${size} of ${MOST_BYTES} bytes: shorten what `
      + `stands before "${end}".`) : null,
    old.protect_stop === null ? el("p", {class: "note"}, `Key ${number} has no Protect Stop, at which it would begin.`)
      : null,
    commandForm("register", {desk: {...desk, send}, given: command, bar})];
}

// The one that is to be sent now.
function sending({command}, next, desk) {
  const answer = judgement(command, {caller: desk.me, key: next});
  return [answer?.refused ? el("p", {class: "refused"}, el("strong", {}, "Would be refused: "),
    refusalText(answer, command)) : null,
  el("p", {class: "sends"}, "Sends ", el("code", {class: "sentence"}, shown(JSON.stringify(command)))),
  el("button", {type: "button", class: "send", onclick: () => desk.send(command)}, commandText(command))];
}

function stepLine(step, {old, next, desk, isNow}) {
  const {command, isDone} = step, isFirst = command.kind === "register";
  const key = next ? `key ${next.number}` : "the new key";
  const text = isFirst ? `Register ${key}, of type ${command.type}, for ${command.owner}, `
    + (command.activation === null ? "without an Activation" : `Active from ${utcText(command.activation)} on`)
    : `${commandText({...command, key: undefined})} ${key}`;
  const now = isFirst ? () => registrationForm(old, step, desk) : () => sending(step, next, desk);
  return el("li", {"aria-current": isNow ? "step" : null},
    el("p", {}, isDone ? el("strong", {}, "Done: ") : null, text), isNow ? now() : null);
}

function show(place, number, desk) {
  const at = now(), old = keyAt(number, at), newest = replacementsOf(number).at(-1);
  const next = newest === undefined ? null : keyAt(newest, at);
  const steps = stepsOf(old, next), todo = steps.findIndex(({isDone}) => !isDone), isOwner = old.owner === desk.me;
  const link = (key) => el("a", {href: `#key/${key}`}, `key ${key}`);
  replace(place, el("h1", {}, `The next key of key ${number}`),
    el("p", {}, link(number), ", ", shown(old.purpose), old.protect_stop === null ? ""
      : `, protects new data until ${utcText(old.protect_stop)}.`),
    isOwner ? null : el("p", {class: "note"}, "Only its owner registers it here: ", name(old.owner), "."),
    list.hasKeys ? null : el("p", {class: "note"}, "There is no list: the page does not know of each next key."),
    todo < 0 ? el("p", {class: "accepted"}, "All is done: ", link(next.number),
      ` has the custodians and the need of key ${number}.`)
      : el("p", {class: "hint"}, "Each request is sent by a press of its own. What is done stays done: go on whenever "
        + "you like."),
    el("ol", {class: "steps"}, steps.map((step, turn) =>
      stepLine(step, {old, next, desk, isNow: isOwner && turn === todo}))));
}

// Asks the register for both keys, and for those that came since the list, and shows what is to be done.
export async function nextPage(place, number, desk, {isCurrent, put}) {
  const say = (words) => replace(place, el("h1", {}, "The next key"), el("p", {class: "refused"}, words));
  if (!(number >= RANGES.key[0] && number <= RANGES.key[1])) {
    say("There is no such key.");
    return;
  }
  try {
    const old = await keyOf(number);
    if (old) learnKey(old);
    await learnBehind();
    const next = old && replacementsOf(number).at(-1);
    if (next) learnKey(await keyOf(next));
    if (!isCurrent()) return;
    if (old) put(() => show(place, number, desk));
    else say(`There is no key ${number}.`);
  } catch (fault) {
    if (fault instanceof AnotherUser) return;
    if (!(fault instanceof Unanswered)) throw fault;
    if (isCurrent()) say("The register does not answer now. Nothing is registered until it does.");
  }
}
