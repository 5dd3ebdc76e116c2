// The page on which a table of keys is taken in: each row is judged before it is sent, the rows are sent one after the
// other, and what is not registered is given back as a table.
import {learnBehind} from "./behind.js";
import {COLUMNS, tableOf} from "./csv.js";
import {announce, byParts, el, field, freshId, plain, replace, select, shown} from "./dom.js";
import {list} from "./list.js";
import {AnotherUser, StoreFull, Unanswered} from "./register.js";
import {SORTS, commandOf} from "./rows.js";
import {current, putAway, takeIn} from "./taken.js";
import {counted} from "./words.js";

const SHOWN = 200, MOST_BYTES = 20_000_000;
// So many milliseconds stand between what is said of how far it is.
const SAID = 10_000;

// ---- sending

let isGoing = false;

// Sends the rows that are marked, one after the other. `look` shows what was said to a row.
async function sendRows(table, desk, look) {
  isGoing = true;
  try {
    const end = await learnBehind();
    table.left = table.judgeAnew();
    if (isGoing && table.next(0) >= 0) table.before ??= end;
    table.keepMarks();
    for (let place = table.next(0); place >= 0 && isGoing && table === current(); place = table.next(place + 1)) {
      const answer = await desk.sendRow(commandOf(table.rows[place]), table.numbers[place]);
      if (!answer) break;
      table.note(answer);
      look(place);
    }
  } catch (fault) {
    if (fault instanceof StoreFull) desk.sayStoreFull();
    else if (fault instanceof Unanswered) desk.sayUnasked();
    else if (!(fault instanceof AnotherUser)) throw fault;
  } finally {
    isGoing = false;
  }
}

// Whether the page is not to be left without asking: rows are being sent, or some are not sent yet.
export const isTaking = () => isGoing || (current()?.isHalfSent ?? false);

// ---- the rows

function rowLine(table, place, ended) {
  const {sort, words} = table.judged[place], answer = table.answers[place], row = table.rows[place];
  const key = answer?.key && el("a", {href: `#key/${answer.key}`}, `key ${answer.key}`);
  const said = !answer ? words : !key ? ["refused: ", answer.reason] : answer.isNew ? ["accepted: ", key]
    : ["sent before, and it was ", key, " then: nothing more was done"];
  const mark = (event) => {
    table.markByHand(place, event.target.checked);
    table.keepMarks();
    ended();
  };
  const check = el("input", {type: "checkbox", "aria-label": `send row ${place + 1}`, checked: table.isSent[place],
    disabled: !table.mayBeMarked(place), onchange: mark});
  return el("tr", {role: "row", id: `row-${place}`, class: answer ? (answer.key ? "accepted" : "refused") : sort},
    el("td", {role: "cell", class: "send"}, check),
    el("th", {role: "rowheader", scope: "row"}, String(place + 1)),
    el("td", {role: "cell", class: "fields"}, shown(row.join(", ").slice(0, 300))),
    el("td", {role: "cell", class: "said"}, said));
}

const HEADS = ["Send", "Row", "Fields", "What is said to it"];

function rowsTable(table, places, ended) {
  return el("table", {role: "table", class: "rows"},
    el("caption", {}, "The rows"),
    el("thead", {role: "rowgroup"},
      el("tr", {role: "row"}, HEADS.map((head) => el("th", {role: "columnheader", scope: "col"}, head)))),
    el("tbody", {role: "rowgroup"}, places.map((place) => rowLine(table, place, ended))));
}

// Which rows may be shown alone: each with its word, and whether a row is one of it.
function views(table) {
  const answer = (place) => table.answers[place];
  return [
    ["look", "all, those to look at first", () => true],
    ["answered", "refused by the register", (place) => answer(place)?.refused !== undefined],
    ["accepted", "accepted", (place) => answer(place)?.key !== undefined],
    ...Object.entries(SORTS).map(([sort, words]) =>
      [sort, words, (place) => !answer(place) && table.judged[place].sort === sort]),
  ];
}

// What has to be looked at comes first, what was accepted last; each in the order of the rows.
function rank(table, place) {
  const answer = table.answers[place];
  if (answer) return answer.key ? 3 : 0;
  return table.judged[place].sort === "good" ? 2 : 1;
}

function rowsPart(table, ended) {
  const results = el("div", {class: "wide results"}), marks = el("p", {class: "buttons marks"});
  const places = [...table.rows.keys()];
  const choices = views(table).map(([view, words, holds]) => [view, words, places.filter(holds)])
    .filter(([view, , rows]) => view === "look" || rows.length);
  const input = select(choices.map(([view, words, rows]) => [view, `${words} (${rows.length})`]));
  const look = () => {
    const [view, , rows] = choices.find(([name]) => name === input.value);
    const sorted = view === "look" ? rows.sort((one, other) => rank(table, one) - rank(table, other) || one - other)
      : rows;
    byParts(sorted, SHOWN, (some) => rowsTable(table, some, ended), results);
    const markable = view === "look" ? [] : rows.filter((place) => table.mayBeMarked(place));
    const markAll = (isSent) => () => {
      for (const place of markable) table.markByHand(place, isSent);
      table.keepMarks();
      look();
      ended();
    };
    replace(marks, markable.length
      ? [el("button", {type: "button", onclick: markAll(true)}, `Send these ${markable.length}`),
        el("button", {type: "button", onclick: markAll(false)}, "Leave these out")] : null);
  };
  input.addEventListener("change", look);
  look();
  return [field("Rows shown", input), marks, results];
}

// ---- the page

function givenBack(table) {
  const {count, text} = table.givenBack();
  if (!count) return null;
  const file = `not-registered-${table.name.replace(/[^A-Za-z0-9._-]/g, "_")}`;
  const href = URL.createObjectURL(new Blob([text], {type: "text/csv"}));
  return el("p", {}, el("a", {download: file, class: "button", href},
    `Take back ${counted(count, "row")} not registered`));
}

function countText({wanted, answered, accepted, there, refused}) {
  return `${answered} of ${wanted} rows answered: ${accepted} accepted, ${refused} refused`
    + (there ? `, ${there} sent before` : "");
}

const bar = (counts) => [
  el("progress", {max: Math.max(counts.wanted, 1), value: counts.answered, "aria-label": "rows answered"}),
  el("p", {class: "count"}, countText(counts))];

function summary(table) {
  const counts = new Map(), among = {...SORTS};
  for (const {sort} of table.judged) counts.set(sort, (counts.get(sort) ?? 0) + 1);
  if (!list.hasKeys && !counts.has("twice")) delete among.twice;
  const sorts = Object.entries(among).map(([sort, words]) => `${counts.get(sort) ?? 0} ${words}`).join(", ");
  return el("p", {}, shown(table.name),
    `: ${counted(table.rows.length, "row")}, judged before they are sent: ${sorts}`,
    list.hasKeys ? "" : "; not compared with the register's keys, of which there is no list");
}

// Without a list the reader says first that the rows are none of the keys that are there.
function sureOf(table) {
  if (list.hasKeys || table.before !== null) return null;
  const sure = el("input", {type: "checkbox", required: true, id: freshId("sure")});
  return el("p", {class: "sure"}, sure, el("label", {for: sure.id}, "There is no list: a row that is a key already "
    + "makes a second one, but where I sent it before. I know that these rows are no keys yet"));
}

function notes(table) {
  return [
    table.isKept ? null : el("p", {class: "note"},
      "It is too large to be kept over a reload of this page: do not reload it before the rows are sent."),
    table.left ? el("p", {class: "note"}, `${counted(table.left, "row")} became keys since the list was made, and `
      + "are left out.") : null,
  ];
}

// Shows how far a table is, where its page stands, and tells now and then.
function showProgress(place, table) {
  const progress = place.querySelector(".progress");
  if (progress) replace(progress, bar(table.counts));
  if (performance.now() - (table.saidAt ?? -SAID) < SAID && isGoing) return;
  table.saidAt = performance.now();
  announce(countText(table.counts), 0);
}

function showTable(table, place, desk) {
  const progress = el("div", {class: "progress"}), buttons = el("p", {class: "buttons"});
  const back = el("div"), sure = sureOf(table);
  const ended = () => {
    const {wanted, answered} = table.counts, rest = wanted - answered;
    replace(progress, bar(table.counts));
    const away = el("button", {type: "button", onclick: async () => {
      await putAway();
      tablePage(place, desk);
    }}, "Put the table away");
    const stop = el("button", {type: "button", onclick: () => {
      isGoing = false;
    }}, "Stop");
    const send = el("button", {type: "button", class: "send", disabled: wanted === 0, onclick: go},
      answered ? "Go on" : `Send ${counted(wanted, "row")}`);
    replace(buttons, isGoing ? stop : [rest || !wanted ? send : null, away]);
    replace(back, isGoing || !answered ? null : givenBack(table));
  };
  const look = (row) => {
    showProgress(place, table);
    document.getElementById(`row-${row}`)?.replaceWith(rowLine(table, row, ended));
  };
  const go = async () => {
    if (sure && !sure.firstChild.checked) {
      sure.firstChild.focus();
      return;
    }
    const going = sendRows(table, desk, look);
    ended();
    await going;
    showProgress(place, table);
    if (place.dataset.page !== "table") return;
    tablePage(place, desk);
    if (document.activeElement === document.body) place.querySelector(".buttons button, .results a")?.focus();
  };
  ended();
  replace(place, el("h1", {}, "Take in a table"), el("div", {id: "newer", role: "status"}), summary(table),
    notes(table), sure, buttons, progress, back, rowsPart(table, ended));
}

// The page of the table that was taken in, or the choice of a file.
export function tablePage(place, desk) {
  if (current()) {
    if (!isGoing && current().listOf !== list.made) current().judgeAnew();
    showTable(current(), place, desk);
    return;
  }
  const input = el("input", {type: "file", accept: ".csv,text/csv"}), fault = el("p", {role: "alert"});
  input.addEventListener("change", async () => {
    const file = input.files[0];
    if (!file) return;
    const table = file.size > MOST_BYTES ? {fault: "It has more than 20 MB: divide it."}
      : tableOf(await file.arrayBuffer());
    if (table.fault) {
      replace(fault, plain(file.name), ": ", table.fault);
      return;
    }
    try {
      await learnBehind();
    } catch (fault) {
      // They are asked for again before a row goes.
      if (!(fault instanceof Unanswered || fault instanceof AnotherUser)) throw fault;
    }
    showTable(await takeIn(file.name, table.rows, desk.me), place, desk);
    place.querySelector("h1").setAttribute("tabindex", "-1");
    place.querySelector("h1").focus();
  });
  replace(place, el("h1", {}, "Take in a table"),
    el("p", {}, "A file of CSV in UTF-8, with commas or semicolons, and the header row ",
      el("code", {}, COLUMNS.join(",")), ". A date is YYYY-MM-DDTHH:MM:SSZ, or left empty. Each row is judged before "
      + "anything is sent."),
    field("The file", input), fault);
}
