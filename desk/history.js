// The accepted requests that the register has: those that name a key, with what each changed, and the reader's own.
// office/list.py writes them into files beside the list, which come when they are asked for.
import {becomes} from "./changes.js";
import {byParts, cards, el, name, replace, shown} from "./dom.js";
import {isSame, list, load, periods, requestsOf, sentBefore, sentSince} from "./list.js";
import {AnotherUser, Unanswered, historyFile, now} from "./register.js";
import {commandOfText, judged, stateAt, usageAt} from "./rules.js";
import {away, commandText, counted, didText, utcText} from "./words.js";

const SHOWN = 50;

// ---- files

// The folder is not there any more: a newer list names another one.
class Gone extends Error {}

async function fileOf(folder, file) {
  const value = await historyFile(`${folder}/${file}.json`);
  if (value === null) throw new Gone(folder);
  return value;
}

// The places of the files that may have rows of a key or a caller, by the first of each, the last one first.
export function* placesOf(firsts, one) {
  for (let place = firsts.findLastIndex((first) => first <= one); place >= 0; place--) {
    yield place;
    if (firsts[place] !== one) return;
  }
}

const requestOfRow = ([place, key, caller, number, moment, , text]) => ({place, key, caller, number, moment, text});

// The requests of a key or of a caller, file by file, the newest first.
async function* backwards({folder, index}, sort, one) {
  for (const place of placesOf(index[sort], one)) {
    const rows = (await fileOf(folder, `${sort}-${place}`)).map(requestOfRow);
    yield rows.filter(({key, caller}) => (sort === "keys" ? key : caller) === one).reverse();
  }
}

// Does with the history of the list what `use` does; where it is gone meanwhile, with that of a newer list.
async function withHistory(use) {
  for (let turn = 0; ; turn++) {
    const folder = list.history;
    try {
      return await use({folder, index: await fileOf(folder, "index")});
    } catch (fault) {
      if (!(fault instanceof Gone)) throw fault;
      if (turn > 0 || !await load()) throw new Unanswered("the history is gone");
    }
  }
}

// ---- what each changed

const REACHED = [["activation", "Activation"], ["protect_stop", "Protect Stop"], ["deactivation", "Deactivation"]];

// What a key became by its dates alone behind one moment and up to another.
function reached(key, from, to) {
  const moments = [...new Set(REACHED.map(([member]) => key[member]))].filter((date) => date > from && date <= to);
  return moments.sort((one, other) => one - other).map((moment) => {
    const words = REACHED.filter(([member]) => key[member] === moment).map(([, word]) => word).join(" and ");
    const [before, after] = [moment - 1, moment].map((at) => stateAt(key, at));
    const stops = usageAt(key, moment - 1).protect && !usageAt(key, moment).protect;
    return {moment, what: `reached its ${words}`, changes: [
      ...(before === after ? [] : [`State: ${after}`]), ...(stops ? ["It protects no new data"] : [])]};
  }).filter(({changes}) => changes.length);
}

// The requests of a key, the oldest first, each with what it changed by the rules, and between them what came by its
// dates. `set` has the periods that were set, in the order in which they were accepted; of a request that no list has
// yet those count that the page knows.
export function entriesOf(requests, set, at) {
  const entries = [];
  let key, last;
  for (const request of requests) {
    const {place, caller, moment, text} = request, command = commandOfText(text);
    const known = place === undefined ? periods() : Object.fromEntries(
      set.filter(([earlier]) => earlier < place).map(([, type, ...months]) => [type, months]));
    if (key) entries.push(...reached(key, last, moment));
    const before = key && {...key, state: stateAt(key, moment)};
    const answer = judged(command, {caller, moment, key: before, periods: known, count: 0});
    const changes = answer?.key ? becomes(command, before, answer.key) : null;
    entries.push({...request, what: didText(command), changes});
    [key, last] = [answer?.key, moment];
  }
  return key ? [...entries, ...reached(key, last, at)] : entries;
}

// ---- a key's history

const HEADS = ["When", "Who", "Number", "What", "What it changed"];

const when = (moment, at) => el("span", {class: "moment"}, el("time", {}, utcText(moment)), " ",
  el("span", {class: "away"}, `(${away(moment, at)})`));

function entryRow({moment, caller, number, what, changes}, at) {
  const changed = changes === null ? "not known" : changes.length === 0 ? "nothing"
    : el("ul", {class: "names"}, changes.map((change) => el("li", {}, change)));
  return [when(moment, at), caller === undefined ? "by its dates" : name(caller), number ? String(number) : "", what,
    changed];
}

// What was read last: the requests of a key, the oldest first, by the history of which folder; and what is being read.
let read = {number: 0, folder: null, requests: [], set: []}, reading = {};

async function readWhole(number) {
  read = await withHistory(async ({folder, index}) => {
    const requests = [];
    for await (const some of backwards({folder, index}, "keys", number)) requests.push(...some);
    return {number, folder, requests: requests.reverse(), set: index.periods};
  });
}

// Reads it once, however often the page is made anew meanwhile.
function readKey(number) {
  if (reading.number !== number || reading.folder !== list.history) {
    const one = {number, folder: list.history, done: readWhole(number).finally(() => {
      if (reading === one) reading = {};
    })};
    reading = one;
  }
  return reading.done;
}

// Those of the list and those of this window, each once.
const together = (requests, own) => [...requests, ...own.filter((one) => !requests.some(isSame(one)))];

function sourceText(count) {
  if (!list.isThere) return "Of this window's own requests alone: the list, which has the others, is not there.";
  if (list.history === null) return "Of this window's own requests alone: of so many keys there is no history.";
  return `${counted(count, "accepted request")} of this key, the newest first, by the list of ${utcText(list.made)} `
    + "and by what this window sent since.";
}

function putHistory(part, number) {
  const isRead = read.number === number, [, hint, results] = part.children;
  const requests = together(isRead ? read.requests : [], requestsOf(number));
  const seen = JSON.stringify([isRead, requests.length, requests.at(-1)]);
  replace(hint, sourceText(requests.length));
  if (part.dataset.seen === seen) return;
  part.dataset.seen = seen;
  const at = now(), entries = entriesOf(requests, read.set, at).reverse();
  const table = (some) => (some.length ? el("div", {class: "wide"},
    cards(HEADS, some.map((entry) => entryRow(entry, at)), {"aria-labelledby": "history"})) : null);
  byParts(entries, SHOWN, table, results);
}

// Shows what is known of the history, and asks for what a newer list has.
export async function followHistory(part, number) {
  const hint = part.children[1];
  if (read.number === number || !list.history) putHistory(part, number);
  if (!list.history || (read.number === number && read.folder === list.history)) return;
  if (read.number !== number) replace(hint, "The history is on its way.");
  try {
    await readKey(number);
    putHistory(part, number);
  } catch (fault) {
    if (!isFault(fault)) throw fault;
    replace(hint, "The history does not come now. ",
      el("button", {type: "button", onclick: () => followHistory(part, number)}, "Ask for it again"));
  }
}

export function historyPart(number) {
  const part = el("section", {class: "history", "aria-labelledby": "history"}, el("h2", {id: "history"}, "History"),
    el("p", {class: "hint"}), el("div", {class: "results"}));
  followHistory(part, number);
  return part;
}

// ---- the reader's own

const OWN_HEADS = ["When", "Number", "Key", "What"];
const LOST_HEADS = ["When", "Number", "What", "Now"];

const link = (key) => (key ? el("a", {href: `#key/${key}`}, String(key)) : "");

const ownRow = ({moment, number, key, text}, at) =>
  [when(moment, at), String(number), link(key), shown(commandText(commandOfText(text)))];

// What this window was told to be accepted before the list was made, and the list does not have: the register was
// restored or set right.
function lostPart(lost, desk, at) {
  const again = ({number, text}) => el("button", {type: "button", class: "send",
    "aria-label": `Send again: request ${number}`, onclick: () => desk.send(commandOfText(text), number)},
  "Send again");
  const rows = lost.map((one) => [when(one.moment, at), String(one.number), shown(commandText(commandOfText(one.text))),
    again(one)]);
  return lost.length ? el("section", {class: "lost", "aria-labelledby": "lost"},
    el("h2", {id: "lost"}, "Not in the register any more"),
    el("p", {class: "note"}, `${counted(lost.length, "request")} of yours, accepted in this window before the list of `
      + `${utcText(list.made)}, that list does not have: the register was restored, or set right. Each is sent again `
      + "under its own number."),
    cards(LOST_HEADS, rows, {"aria-labelledby": "lost"})) : null;
}

const isFault = (fault) => [Gone, Unanswered, AnotherUser].some((kind) => fault instanceof kind);

// Shows the reader's requests, file by file.
async function putOwn(place, desk, isCurrent, history) {
  const isMine = ({caller}) => caller === desk.me, before = sentBefore().filter(isMine), rows = [];
  const files = history && backwards(history, "callers", desk.me);
  const grow = async () => {
    const {value, done} = history ? await files.next() : {done: true};
    rows.push(...value ?? []);
    return !done;
  };
  const since = Math.min(...before.map(({moment}) => moment));
  while ((rows.length <= SHOWN || rows.at(-1).moment >= since) && await grow());
  if (!isCurrent()) return;
  const at = now(), lost = history ? before.filter((one) => !rows.some(isSame(one))) : [];
  rows.unshift(...sentSince().filter((one) => isMine(one) && !rows.some(isSame(one))).reverse());
  const results = el("div", {class: "results"}), table = (some) => (some.length ? el("div", {class: "wide"},
    cards(OWN_HEADS, some.map((one) => ownRow(one, at)), {}, "Your accepted requests")) : el("p", {}, "None."));
  byParts(rows, SHOWN, table, results, () => grow().catch((fault) => {
    if (!isFault(fault)) throw fault;
    minePage(place, desk, isCurrent);
  }));
  const source = `As the list of ${utcText(list.made)} has them, with what this window sent since, the newest first. `
    + `The register was at ${utcText(list.latest)} then. Advances are left out.`;
  replace(place, el("h1", {}, "Mine: your accepted requests"), el("div", {id: "newer", role: "status"}),
    el("p", {class: "hint"}, history ? source : sourceText(0)), lostPart(lost, desk, at), results);
}

export async function minePage(place, desk, isCurrent) {
  try {
    if (list.history) await withHistory((history) => putOwn(place, desk, isCurrent, history));
    else await putOwn(place, desk, isCurrent, null);
  } catch (fault) {
    if (!isFault(fault)) throw fault;
    if (isCurrent()) {
      replace(place, el("h1", {}, "Mine: your accepted requests"), el("p", {class: "note", role: "alert"},
        "The history does not come now. ",
        el("button", {type: "button", onclick: () => minePage(place, desk, isCurrent)}, "Ask for it again")));
    }
  }
}
