// One key, whole: its dates as a line, what it may be used for and as of when, and what the reader may do with it.
import {cards, el, keepingForms, name, replace, shown, svg} from "./dom.js";
import {commandForm} from "./forms.js";
import {followHistory, historyPart} from "./history.js";
import {keyAt, latest, learnKey, learntOf, list, periodOf, replacementsOf, requestsOf} from "./list.js";
import {AnotherUser, Unanswered, keyOf, now} from "./register.js";
import {
  COMMANDS, RANGES, SETTABLE, barred, isLong, isOverdue, predecessorOf, spansOf, stateAt, usageAt,
} from "./rules.js";
import {WORDS, moment, refusalText, state, utcText} from "./words.js";

// Each date with its words and its letter.
const DATES = [
  ["initial", "Registered", "R"],
  ["activation", "Activation", "A"],
  ["protect_stop", "Protect Stop", "P"],
  ["deactivation", "Deactivation", "D"],
  ["occurrence", "Compromised since", "O"],
  ["compromised", "Compromise told", "C"],
  ["destroyed", "Destroyed", "X"],
];

// ---- the line

// A row of letters in pixels, and a letter with its gap in hundredths of the narrowest line.
const LETTERS_HIGH = 17, LETTER_WIDE = 4.5;

// The places of a line's dates, in hundredths of its width. Behind the last one there is room for its letters.
function scaleOf(key, at) {
  const dates = DATES.map(([member, words, letter]) => ({words, letter, date: key[member] ?? null}))
    .filter(({date}) => date !== null);
  const all = [...dates.map(({date}) => date), at], least = Math.min(...all), most = Math.max(...all, least + 1);
  return {dates, place: (date) => 2 + 86 * (Math.min(date, most) - least) / (most - least)};
}

// The letters of the dates, those of one date together, each behind the tick of its date as a flag behind its staff. A
// flag that would meet the staff of another one hangs above that one's.
function lettersOf(dates, place) {
  const labels = new Map(), flags = [];
  for (const {date, letter} of dates) labels.set(date, [...(labels.get(date) ?? []), letter]);
  for (const [date, letters] of [...labels].sort(([one], [other]) => other - one)) {
    const at = place(date), end = at + LETTER_WIDE * letters.length;
    const rows = flags.filter((flag) => flag.at <= end).map(({row}) => row);
    flags.push({text: letters.join(" "), at, row: Math.max(-1, ...rows) + 1});
  }
  return flags;
}

const percent = (value) => `${value.toFixed(2)}%`;

function bar([kind, from, to], place, top) {
  const [left, right] = [place(from), place(to)], middle = top + 8;
  if (kind === "wait") {
    return svg("line", {class: kind, x1: percent(left), x2: percent(right), y1: middle, y2: middle});
  }
  const [y, height] = kind === "protect" ? [top, 16] : [top + 5, 6];
  return svg("rect", {class: kind, x: percent(left), y, width: percent(right - left), height});
}

// The dates of a key from the first to the last, with now on it: high where it may protect data, low where it may only
// process what is protected.
function line(key, at) {
  const {dates, place} = scaleOf(key, at), letters = lettersOf(dates, place);
  const top = LETTERS_HIGH * (1 + Math.max(...letters.map(({row}) => row))) + 6;
  const parts = [svg("line", {class: "axis", x1: "2%", x2: "88%", y1: top + 8, y2: top + 8}),
    ...spansOf(key).map((span) => bar(span, place, top))];
  for (const {text, at: x, row} of letters) {
    const y = top - 6 - LETTERS_HIGH * row;
    parts.push(svg("line", {class: "tick", x1: percent(x), x2: percent(x), y1: y - 9, y2: top + 20}),
      svg("text", {x: percent(x), dx: 3, y}, text));
  }
  const x = percent(place(at));
  parts.push(svg("line", {class: "now", x1: x, x2: x, y1: top - 4, y2: top + 30}),
    svg("text", {class: "now", x, y: top + 44, "text-anchor": "middle"}, "now"));
  const words = dates.map(({words: what, date}) => `${what} ${utcText(date)}`).join(", ");
  return svg("svg", {class: "line", role: "img", "aria-label": `Dates of the key: ${words}; now is ${utcText(at)}`,
    width: "100%", height: top + 50}, ...parts);
}

// ---- what it may be used for

const PROCESS = {yes: "yes", special: "only under extraordinary circumstances, with special permission", no: "no"};

const USAGE = ["What says so", "Protect new data", "Process protected data", "State", "As of"];

const usageRow = (head, usage, word, when) => [el("strong", {}, head), usage.protect ? "yes" : "no",
  PROCESS[usage.process], state(word), when];

function usage(key, told, at, desk) {
  const rows = [usageRow("By its dates", usageAt(key, at), stateAt(key, at), utcText(at))];
  if (told) {
    const when = latest() ? `its latest accepted moment, ${utcText(latest())} or later` : "its latest accepted moment";
    rows.push(usageRow("The register says", told.usage, told.key.state, when));
  }
  const differs = told && (told.key.state !== stateAt(key, at) || told.usage.protect !== usageAt(key, at).protect);
  return el("section", {class: "usage", "aria-labelledby": "usage"}, el("h2", {id: "usage"}, "What it may be used for"),
    cards(USAGE, rows, {"aria-labelledby": "usage"}),
    differs ? el("p", {class: "note"}, "The two differ: dates were reached since the register accepted a request.")
      : null,
    el("p", {class: "onscreen"}, el("button", {type: "button", class: "advance",
      onclick: () => desk.send({kind: "advance"})}, "Bring the register to now"),
    " It posts an advance, and then answers as of this moment."));
}

// ---- what the reader may do

const KINDS = Object.keys(COMMANDS).filter((kind) => COMMANDS[kind].members?.key);

function ruleFor(kind, key, me, at) {
  if (kind !== "revoke") return {bar: barred(COMMANDS[kind], me, key, at), isOwners: true};
  const own = barred(COMMANDS.revoke, me, key, at);
  return own ? {bar: barred(COMMANDS["revoke for compromise"], me, key, at), isOwners: false}
    : {bar: null, isOwners: true};
}

// Whether a command that a rule lets would do nothing but be refused.
function idle(kind, key, me) {
  if (kind === "remove-custodian" && !key.custodians.length) return "It has no custodian.";
  if (kind === "approve" && key.approvals.includes(me)) return "Your approval stands.";
  if (kind === "withdraw" && !key.approvals.includes(me)) return "No approval of yours stands.";
  return "";
}

function acts(key, desk, at) {
  const may = [], not = [];
  for (const kind of KINDS) {
    const {bar, isOwners} = ruleFor(kind, key, desk.me, at), why = bar ? refusalText(bar, {kind, key: key.number})
      : idle(kind, key, desk.me);
    if (why) not.push([kind, why]);
    else {
      const {title} = WORDS[isOwners ? kind : "revoke for compromise"];
      may.push(el("details", {class: "act", name: "act", "data-kind": kind}, el("summary", {}, title),
        commandForm(kind, {desk, key, isOwners})));
    }
  }
  return el("section", {class: "acts", "aria-labelledby": "acts"}, el("h2", {id: "acts"}, "What you may do"),
    key.owner === desk.me ? el("p", {}, el("a", {href: `#next/${key.number}`}, "Register its next key")) : null,
    may.length ? may : el("p", {}, "Nothing of this key is yours to do now."),
    not.length ? el("details", {class: "not"}, el("summary", {}, "What you may not do now, and why"),
      el("dl", {}, not.map(([kind, why]) => [el("dt", {}, WORDS[kind].title), el("dd", {}, why)]))) : null);
}

// ---- the whole

function names(list, none) {
  return list.length ? el("ul", {class: "names"}, list.map((one) => el("li", {}, name(one)))) : none;
}

const linked = (head, numbers) => (numbers.length ? [[head, el("ul", {class: "names"}, numbers.map((number) =>
  el("li", {}, el("a", {href: `#key/${number}`}, `key ${number}`))))]] : []);

function facts(key, at) {
  const have = key.approvals.length, period = periodOf(key.type);
  return el("dl", {class: "facts"}, [
    ["Type", `${key.type}, ${period[0]} months of protecting and ${period[1]} of processing after`],
    ["Owner", name(key.owner)],
    ["Purpose", shown(key.purpose)],
    ...linked("Replaces", [predecessorOf(key)].filter(Boolean)), ...linked("Replaced by", replacementsOf(key.number)),
    ["Custodians", names(key.custodians, "none")],
    ["Approvals", el("span", {}, `${have} of ${key.need} that its destruction needs`, names(key.approvals, ""))],
    ...DATES.filter(([member]) => (key[member] ?? null) !== null || SETTABLE.includes(member))
      .map(([member, words, letter]) => [`${words} (${letter})`, moment(key[member], at)]),
  ].map(([head, content]) => [el("dt", {}, head), el("dd", {}, content)]));
}

const LEGEND = [["protect", "may protect data"], ["process", "may only process what is protected"],
  ["wait", "waits for its Activation"]];

function picture(key, at) {
  const kinds = spansOf(key).map(([kind]) => kind);
  return el("figure", {}, line(key, at), el("figcaption", {},
    LEGEND.filter(([kind]) => kinds.includes(kind)).map(([kind, words]) =>
      el("span", {class: "legend"}, el("span", {class: `swatch ${kind}`}), ` ${words}`)),
    el("span", {class: "legend"}, "The letters stand at the dates above.")));
}

// What is seen of a key, but for times. Where it is as it was, the page stays, with whatever has the focus in it.
const seen = (number, note) => JSON.stringify([number, note, latest(), keyAt(number, now()), learntOf(number)?.usage,
  requestsOf(number), replacementsOf(number)]);

function sourceText(number) {
  const heard = learntOf(number);
  return heard ? `As the register told it at ${utcText(heard.at)}.` : `As the list of ${utcText(list.made)} has it.`;
}

function show(place, number, desk, note) {
  const at = now(), heard = learntOf(number), key = keyAt(number, at);
  if (!key) {
    replace(place, el("h1", {}, `Key ${number}`), el("p", {class: "refused"}, note || "It is asked for."));
    return;
  }
  const isPast = isLong(key, periodOf(key.type));
  replace(place, el("h1", {}, `Key ${number} `, state(key.state, isOverdue(key, at))),
    note ? el("p", {class: "note", role: "alert"}, note) : null,
    isPast ? el("p", {class: "note"}, "Its dates go past the period that the office set since.") : null,
    el("p", {class: "hint source", "data-seen": seen(number, note)}, sourceText(number)), facts(key, at),
    picture(key, at), usage(key, heard, at, desk), heard ? acts(key, desk, at) : null, historyPart(number));
}

// So many milliseconds a register may take that answers others first, and nothing is said of it.
const PATIENCE = 4000;

// Shows the key as it is known, by `put`, asks the register, and shows it as it is. What is typed into a form meanwhile
// stays.
export async function keyPage(place, number, desk, {isCurrent, put}) {
  if (!(number >= RANGES.key[0] && number <= RANGES.key[1])) {
    replace(place, el("h1", {}, "No such key"),
      el("p", {class: "refused"}, `The numbers of keys go from ${RANGES.key[0]} to ${RANGES.key[1]}.`));
    return;
  }
  const look = (note, by = (fill) => keepingForms(place, fill)) => {
    const source = place.querySelector(".source");
    if (source?.dataset.seen === seen(number, note)) {
      replace(source, sourceText(number));
      followHistory(place.querySelector("section.history"), number);
    } else by(() => show(place, number, desk, note));
  };
  // A page that stands waits for what the register says, where the list alone is newer: its forms stay.
  const stands = place.querySelector(".source")?.dataset.seen.startsWith(`[${number},`);
  if (!stands || learntOf(number)) look("", put);
  const slow = setTimeout(() => {
    if (isCurrent()) look("The register has not answered yet. It answers one after the other, and is waited for.");
  }, PATIENCE);
  try {
    const heard = await keyOf(number);
    if (!isCurrent()) return;
    if (heard) {
      learnKey(heard);
      look("");
    } else {
      replace(place, el("h1", {}, `Key ${number}`), el("p", {class: "refused"}, `There is no key ${number}.`));
    }
  } catch (fault) {
    if (fault instanceof AnotherUser) return;
    if (!(fault instanceof Unanswered)) throw fault;
    if (isCurrent()) look("The register does not answer now. What stands here is older.");
  } finally {
    clearTimeout(slow);
  }
}
