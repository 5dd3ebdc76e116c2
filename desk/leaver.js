// The page of a name that leaves: what it owns and guards; and its keys, which it gives to another owner one after the
// other. What the register has of a key tells whether it was given, so a second sending is none.
import {announce, byParts, cards, el, field, freshId, name, plain, replace, shown} from "./dom.js";
import {SHOWN, lackingNote} from "./find.js";
import {person} from "./forms.js";
import {allNames, judgement, keyAt, learnKey, list, partsOf} from "./list.js";
import {AnotherUser, StoreFull, Unanswered, kept, keyOf, now} from "./register.js";
import {counted, refusalText, state} from "./words.js";

const GIVING = "keyreg.giving";
// So many milliseconds stand between what is said of how far it is.
const SAID = 10_000;

// ---- what is given away

// To whom the reader gives which keys, kept over a reload; what was refused of them since; whether they are being sent.
let plan = null, isGoing = false, saidAt = 0;
const refusals = new Map();

const storeOf = (caller) => `${GIVING}:${caller}`;

function keepPlan(caller, given) {
  plan = given;
  refusals.clear();
  try {
    if (plan) sessionStorage.setItem(storeOf(caller), JSON.stringify(plan));
    else sessionStorage.removeItem(storeOf(caller));
  } catch {
    // After a reload the keys that are left stand among those that are owned.
  }
}

function restorePlan(caller) {
  try {
    plan ??= JSON.parse(sessionStorage.getItem(storeOf(caller)));
  } catch {
    plan = null;
  }
}

const assigned = (number, owner) => ({kind: "assign", key: number, owner});
const isGiven = (number, caller) => keyAt(number, now())?.owner !== caller;

function countsOf(caller) {
  const given = plan.numbers.filter((number) => isGiven(number, caller)).length;
  return {given, refused: refusals.size, rest: plan.numbers.length - given - refusals.size};
}

function progressText(caller) {
  const {given, refused} = countsOf(caller);
  return `${given} of ${counted(plan.numbers.length, "key")} given to ${plain(plan.to)}`
    + (refused ? `, ${refused} refused` : "");
}

// The same as the register has it: the list may be older.
async function isGivenNow(number, caller) {
  const heard = isGiven(number, caller) ? null : await keyOf(number);
  if (heard) learnKey(heard);
  return isGiven(number, caller);
}

// Sends a request for each key that is left, one after the other. `look` shows what was said to a key.
async function give(desk, look) {
  if (isGoing || kept().some(({caller}) => caller === desk.me)) return;
  isGoing = true;
  try {
    for (const number of plan.numbers) {
      if (!isGoing) break;
      if (refusals.has(number) || await isGivenNow(number, desk.me)) continue;
      const command = assigned(number, plan.to), answer = await desk.sendRow(command);
      if (!answer) break;
      if (!answer.accepted) refusals.set(number, refusalText(answer, command));
      await desk.learn(answer, command);
      look(number);
    }
  } catch (fault) {
    if (fault instanceof StoreFull) desk.sayStoreFull();
    else if (fault instanceof Unanswered) desk.sayUnasked();
    else if (!(fault instanceof AnotherUser)) throw fault;
  } finally {
    isGoing = false;
  }
}

// ---- tables

const link = (number) => el("a", {href: `#key/${number}`}, String(number));

const HEADS = ["Key", "State", "Type", "Purpose"];

function fieldsOf(number) {
  const key = keyAt(number, now());
  return [link(number), state(key.state), key.type, shown(key.purpose)];
}

function guardsTable(numbers, who) {
  const rows = (some) => some.map((number) => {
    const {owner, approvals} = keyAt(number, now()), [at, ...rest] = fieldsOf(number);
    return [at, name(owner), approvals.includes(who) ? "stands" : "none", ...rest];
  });
  const heads = ["Key", "Owner", "Approval", ...HEADS.slice(1)], results = el("div", {class: "wide results"});
  byParts(numbers, SHOWN, (some) => cards(heads, rows(some), {}, counted(numbers.length, "key")), results);
  return results;
}

function ownsTable(numbers) {
  const results = el("div", {class: "wide results"});
  byParts(numbers, SHOWN, (some) => cards(HEADS, some.map(fieldsOf), {}, counted(numbers.length, "key")), results);
  return results;
}

// ---- giving

const wordsFor = (number, caller) => (refusals.has(number) ? `refused: ${refusals.get(number)}`
  : isGiven(number, caller) ? `given to ${plain(keyAt(number, now())?.owner ?? plan.to)}` : "not yet");

// The keys that are being given, with how far it is.
function givingPart(place, desk, given) {
  const count = el("p", {class: "count"}), bar = el("progress", {max: plan.numbers.length, "aria-label": "keys given"});
  const buttons = el("p", {class: "buttons"}), results = el("div", {class: "wide results"});
  const anew = () => {
    if (place.dataset.page === "leaver") leaverPage(place, desk, given);
  };
  const show = () => {
    bar.value = plan.numbers.length - countsOf(desk.me).rest;
    count.textContent = progressText(desk.me);
    if (performance.now() - saidAt < SAID && isGoing) return;
    saidAt = performance.now();
    announce(count.textContent, 0);
  };
  const go = async () => {
    const going = give(desk, (number) => {
      const cell = document.getElementById(`said-${number}`);
      if (cell) cell.textContent = wordsFor(number, desk.me);
      show();
    });
    press();
    await going;
    anew();
    if (document.activeElement === document.body) place.querySelector(".buttons button")?.focus();
  };
  const stop = () => {
    isGoing = false;
  };
  const away = () => {
    keepPlan(desk.me, null);
    anew();
  };
  const press = () => replace(buttons, isGoing ? el("button", {type: "button", onclick: stop}, "Stop")
    : [countsOf(desk.me).rest ? el("button", {type: "button", class: "send", onclick: go}, "Go on") : null,
      el("button", {type: "button", onclick: away}, countsOf(desk.me).rest ? "Give no more" : "Done")]);
  byParts(plan.numbers, SHOWN, (some) => cards([...HEADS, "What is said to it"], some.map((number) =>
    [...fieldsOf(number), el("span", {id: `said-${number}`}, wordsFor(number, desk.me))]), {},
  `Keys for ${plain(plan.to)}`), results);
  press();
  show();
  return {part: [bar, count, buttons, results], go};
}

// The choice of keys and of their new owner.
function choosingPart(place, desk, given, numbers) {
  const owner = person("owner", "New owner", desk.me), left = new Set();
  const results = el("div", {class: "wide results"}), buttons = el("p", {class: "buttons"});
  const why = (number) => {
    if (owner.input.value === "" || owner.fault()) return "";
    const command = assigned(number, owner.value());
    const answer = judgement(command, {caller: desk.me, key: keyAt(number, now())});
    return answer?.refused ? `would be refused: ${refusalText(answer, command)}` : "";
  };
  const chosen = () => numbers.filter((number) => !left.has(number) && !why(number));
  const begin = () => {
    const to = owner.value(), keys = chosen();
    const fault = to === "" ? "It is lacking" : to === desk.me ? "You own them already" : owner.fault();
    owner.tell(fault);
    if (fault) owner.input.focus();
    else if (owner.open()) owner.sure.focus();
    else if (keys.length) {
      keepPlan(desk.me, {to, numbers: keys});
      leaverPage(place, desk, given).go();
    }
  };
  const count = () => replace(buttons, el("button", {type: "button", class: "send", onclick: begin},
    `Give ${counted(chosen().length, "key")}`));
  const row = (number) => {
    const mark = ({target}) => {
      if (target.checked) left.delete(number);
      else left.add(number);
      count();
    };
    const fault = why(number);
    return [el("input", {type: "checkbox", "aria-label": `give key ${number}`, onchange: mark, disabled: fault !== "",
      checked: !left.has(number) && !fault}), ...fieldsOf(number), fault];
  };
  const look = () => {
    owner.tell(owner.fault());
    byParts(numbers, SHOWN, (some) => cards(["Give", ...HEADS, "What is said to it"], some.map(row), {},
      "Keys that may be given"), results);
    count();
  };
  owner.input.addEventListener("input", look);
  look();
  return [el("div", {class: "onscreen"}, owner.element), buttons, results];
}

// ---- the page

function whoForm(who) {
  const id = freshId("names");
  const input = el("input", {type: "text", list: id, autocomplete: "off", spellcheck: "false", value: who});
  const names = [...allNames()].sort().slice(0, 2000);
  const go = (event) => {
    event.preventDefault();
    location.hash = `#leaver?${new URLSearchParams({name: input.value.trim()})}`;
  };
  return el("form", {class: "who-leaves", role: "search", onsubmit: go},
    field("Name", input, el("datalist", {id}, names.map((value) => el("option", {value}))),
      el("button", {type: "submit"}, "Show")));
}

// Shows it; gives what goes on with what is being given, where something is.
export function leaverPage(place, desk, given) {
  const who = given.get("name") || desk.me, {owns, guards} = partsOf(who), isOwn = who === desk.me;
  restorePlan(desk.me);
  const giving = isOwn && plan ? givingPart(place, desk, given) : null;
  const none = el("p", {}, list.hasKeys ? "None." : "Not known: there is no list.");
  const only = el("p", {class: "note"}, "Only ", name(who), " gives these away. Whoever runs the register sets ",
    "another password for ", name(who), ", by which somebody signs in and gives them away here.");
  const part = giving ? giving.part : !owns.length ? none : isOwn ? choosingPart(place, desk, given, owns)
    : [only, ownsTable(owns)];
  replace(place, el("h1", {}, "Who leaves: ", name(who)), lackingNote(), el("div", {id: "newer", role: "status"}),
    whoForm(who),
    el("section", {class: "owns"}, el("h2", {}, "Owns"), part),
    el("section", {class: "guards"}, el("h2", {}, "Is a custodian of"),
      guards.length ? [el("p", {class: "hint"}, "The owner of each removes its custodians, on the key's own page. An "
        + "approval that stands ends with its custodian."), guardsTable(guards, who)] : none.cloneNode(true)));
  return giving;
}
