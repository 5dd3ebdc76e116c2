// The desk: which page is shown, what is sent, and what is said of it. The modules of pages that are not the first come
// when they are wanted.
import {
  Lacking, el, fillForms, formsIn, hush, keepingForms, name, part, plain, replace, shown,
} from "./dom.js";
import {countsFor, findPage, tellNewer, waitsPage} from "./find.js";
import {isComing, latest, learnKey, learnMoment, learnPeriod, learnRequest, list, load, requestOf} from "./list.js";
import {
  AnotherUser, StoreFull, Unanswered, events, giveUp, isSignedOut, kept, keyOf, now, registerName, resumed, send,
  sendNow, whoAmI,
} from "./register.js";
import {away, commandText, refusalText, state, textFault, utcText} from "./words.js";

const PAGES = [
  ["find", "Find keys"],
  ["waits", "Waiting for you"],
  ["due", "Due"],
  ["mine", "Mine"],
  ["register", "Register a key"],
  ["table", "Take in a table"],
  ["periods", "Periods"],
  ["leaver", "Who leaves"],
  ["help", "Help"],
];
// Milliseconds between two looks for a newer list, and for how many the first page waits for one.
const RELOAD = 60000, FIRST = 1000;
const place = (id) => document.getElementById(id);
const pause = (milliseconds) => new Promise((go) => setTimeout(go, milliseconds));

// What the pages have of the desk.
const desk = {me: null, pages: PAGES, send: sendAndSay, sendRow, learn, sayStoreFull, sayUnasked};
let isBusy = false, isOther = false, turn = 0;

// ---- what is said

function say(...words) {
  const close = () => {
    replace(place("said"));
    place("main").focus();
  };
  replace(place("said"), el("div", {class: "answer", tabindex: "-1"}, words,
    el("button", {type: "button", class: "close", "aria-label": "Close this answer", onclick: close}, "×")));
  hush();
  place("said").firstChild.focus({preventScroll: false});
}

const sayRefused = (word, ...words) => say(el("p", {class: "refused"}, el("strong", {}, `${word}. `), ...words));

function sayStoreFull() {
  sayRefused("Not sent", "The browser's store for this window is full, and no number can be kept in it. Put the table "
    + "away that was taken in here, or go on in another window.");
}

function sayUnasked() {
  sayRefused("Not sent", "The register does not answer, so that nothing more was sent.");
}

function sayAnswer(answer, command) {
  const what = el("span", {class: "what"}, commandText(command));
  if (!answer.accepted) {
    const word = answer.refused ? `Refused by the register (${answer.name}, ${answer.refused})` : "Refused";
    say(el("p", {class: "refused"}, el("strong", {}, `${word}. `), what), el("p", {}, refusalText(answer, command)),
      command.key && answer.refused !== 4 ? el("p", {}, `Below key ${command.key} stands as it is in the register now.`)
        : null);
    return;
  }
  const is = answer.key ? [` Key ${answer.key} is `, state(answer.state), " "] : " ";
  say(el("p", {class: "accepted"}, el("strong", {}, "Accepted. "), what),
    el("p", {}, is, `as of ${utcText(answer.moment)}. Its request number was ${answer.number}.`));
}

// ---- who sends

// This browser sends as another user than the page shows. Nothing is sent any more, and what waits stays.
function sayOther() {
  isOther = true;
  replace(place("other"), el("div", {class: "note"},
    el("p", {}, el("strong", {}, "Nothing is sent any more. "), "This browser sends as another user by now, and not ",
      "as ", name(desk.me), ", whom this page shows: somebody gave another password in it."),
    el("p", {}, "What waits for an answer is kept for ", name(desk.me), ", and acts once."),
    el("button", {type: "button", onclick: () => location.reload()}, "Load the page anew")));
  putKept();
  showBusy();
}

// No password of the reader comes through: nothing reaches the register until there is one.
function saySigned() {
  if (isOther) return;
  replace(place("other"), !isSignedOut() ? null : el("div", {class: "note"},
    el("p", {}, el("strong", {}, "You are signed out. "), "The password of ", name(desk.me ?? "…"), " is not taken ",
      "any more (401): nothing reaches the register, and what waits is sent once you signed in."),
    el("button", {type: "button", onclick: () => location.reload()}, "Sign in")));
}

// Whether the browser still sends as the reader. Where nobody says, the page goes on with what it knows.
async function isReader() {
  if (isOther) return false;
  try {
    await whoAmI();
    return true;
  } catch (fault) {
    if (fault instanceof Unanswered) return true;
    if (fault instanceof AnotherUser) return false;
    throw fault;
  }
}

// ---- what is sent

// Puts what an answer tells over the list.
async function learn(answer, command) {
  const at = now();
  if (answer.accepted) {
    learnMoment(answer.moment);
    if (command.kind !== "advance") learnRequest(requestOf(answer, command, desk.me));
    if (command.kind === "set-period") learnPeriod(command.type, [command.originator, command.recipient], at);
  } else if (answer.refused === 3) learnMoment(answer.latest, true);
  const number = answer.key || command.key;
  if (!number) return;
  try {
    const heard = await keyOf(number);
    if (heard) learnKey(heard);
  } catch (fault) {
    if (!(fault instanceof Unanswered || fault instanceof AnotherUser)) throw fault;
  }
}

// Shows what an answer changed. What was typed stays, but in the form whose command was accepted.
async function settle(answer, command) {
  await learn(answer, command);
  const isHere = pageOf().word === "register";
  if (answer.accepted && command.kind === "register" && isHere) {
    // Without an event, which would take the focus from the answer.
    drafts.delete(entry);
    history.pushState(null, "", `#key/${answer.key}`);
    entry = entryOf();
  }
  await show({sent: answer.accepted ? command.kind : null});
  sayAnswer(answer, command);
}

// Sends what no form sends by itself, under a number that is drawn or given, and says why where it is not sent.
async function sendAndSay(command, given) {
  if (isOther || isBusy || waiting().length) {
    sayRefused("Not sent", isOther ? "This browser sends as another user by now: load the page anew."
      : "A request waits for its answer. Nothing else is sent until it came.");
    return;
  }
  isBusy = true;
  showBusy();
  try {
    const answer = await send(command, given);
    if (answer) await settle(answer, command);
  } catch (fault) {
    if (fault instanceof StoreFull) sayStoreFull();
    else if (!(fault instanceof AnotherUser)) throw fault;
  } finally {
    isBusy = false;
    showBusy();
  }
}

// One row of a table under its number: its answer, or null where none comes. What is said of it stands in the table.
async function sendRow(command, number) {
  if (isBusy || isOther) return null;
  isBusy = true;
  try {
    const answer = await send(command, number);
    if (answer?.accepted) learnMoment(answer.moment);
    return answer;
  } catch (fault) {
    if (fault instanceof AnotherUser) return null;
    throw fault;
  } finally {
    isBusy = false;
  }
}

// ---- what waits for an answer

const isMine = ({caller}) => caller === desk.me && !isOther;
// What waits of the reader. What waits of another user keeps nobody from sending.
const waiting = () => kept().filter(({caller}) => caller === desk.me);

function keptLine({number, body, caller, cause, times}) {
  const command = JSON.parse(body), isOwn = isMine({caller});
  const words = !isOwn ? ["It is of the user ", name(caller), " and is sent when that user signs in here."]
    : cause ? `${cause[0].toUpperCase()}${cause.slice(1)} (${times} ${times === 1 ? "time" : "times"}). `
      + `It is sent again under its number ${number}, and acts once.`
      : `It is sent under the number ${number}.`;
  const give = () => {
    giveUp(number);
    sayRefused("Given up", `Whether it acted is not known: ${commandText(command)}. Look at the key before you send it `
      + "anew.");
  };
  return el("div", {class: "waiting", id: `waiting-${caller}-${number}`},
    el("p", {}, el("strong", {}, "Not answered yet: "), commandText(command)),
    el("p", {class: "told"}, words),
    cause && isOwn ? el("button", {type: "button", onclick: sendNow}, "Send it again now") : null,
    cause && isOwn ? el("button", {type: "button", onclick: give}, "Give it up") : null);
}

// A line that is there already gets its new words alone: its buttons stay, and with them the focus of who is at one.
function putKept() {
  const lines = kept().map((one) => {
    const made = keptLine(one), there = place(made.id);
    if (there?.childElementCount !== made.childElementCount) return made;
    there.querySelector(".told").replaceChildren(...made.querySelector(".told").childNodes);
    return there;
  });
  const shows = [...place("kept").children];
  if (lines.length !== shows.length || lines.some((line, at) => line !== shows[at])) replace(place("kept"), lines);
}

// Nothing else is sent meanwhile, and the buttons say so.
function showBusy() {
  const isShut = isOther || isBusy || waiting().length > 0;
  for (const button of document.querySelectorAll("button.send, button.advance")) {
    if (isShut) button.setAttribute("aria-disabled", "true");
    else button.removeAttribute("aria-disabled");
  }
}

let later = 0;

// A request that is answered at once is not told: the line would flicker.
function showKept() {
  clearTimeout(later);
  showBusy();
  if (waiting().every(({cause}) => cause)) putKept();
  else later = setTimeout(putKept, 400);
}

// ---- pages

function pageOf() {
  const [path, given] = location.hash.slice(1).split("?");
  const [word, number] = path.split("/");
  return {word: word || "find", number: Number(number), given: new URLSearchParams(given ?? "")};
}

// What was typed into the forms of a page that was left, by its place in the window's history: Back finds it again.
const drafts = new Map();
let entries = Date.now(), entry = null;

function entryOf() {
  if (!history.state?.entry) history.replaceState({entry: ++entries}, "");
  return history.state.entry;
}

// Puts the page of an address in its place, once its module is there.
async function render(main, {word, number, given}, {isCurrent, put}) {
  if (word === "key") {
    const {keyPage} = await part("./key.js");
    if (isCurrent()) await keyPage(main, number, desk, {isCurrent, put});
  } else if (word === "next") {
    const {nextPage} = await part("./next.js");
    if (isCurrent()) await nextPage(main, number, desk, {isCurrent, put});
  } else if (word === "mine") {
    const {minePage} = await part("./history.js");
    if (isCurrent()) await minePage(main, desk, isCurrent);
  } else if (word === "table") {
    const {tablePage} = await part("./table.js");
    if (isCurrent()) tablePage(main, desk);
  } else if (word === "register" || word === "periods") {
    const {periodsPage, registerPage} = await part("./pages.js");
    if (isCurrent()) put(() => (word === "register" ? registerPage : periodsPage)(main, desk));
  } else if (word === "due") {
    const {duePage} = await part("./due.js");
    if (isCurrent()) duePage(main, desk);
  } else if (word === "leaver") {
    const {leaverPage} = await part("./leaver.js");
    if (isCurrent()) leaverPage(main, desk, given);
  } else if (word === "help") {
    const {helpPage} = await part("./help.js");
    if (isCurrent()) helpPage(main, desk);
  } else if (word === "waits") waitsPage(main, desk);
  else findPage(main, given, desk);
}

const sayLacking = (main) => replace(main, el("h1", {}, "Register of keys"),
  el("p", {class: "note", role: "alert"}, "A part of this page did not come. ",
    el("button", {type: "button", onclick: () => location.reload()}, "Load the page anew")));

// The links of the pages, with how much waits for the reader behind two of them. A link that stands keeps the focus.
function showPages(current) {
  const counts = countsFor(desk.me);
  if (!place("pages").firstChild) {
    replace(place("pages"), PAGES.map(([word]) => el("li", {}, el("a", {href: `#${word}`}))));
  }
  PAGES.forEach(([word, title], at) => {
    const link = place("pages").children[at].firstChild;
    link.textContent = counts[word] ? `${title} (${counts[word]})` : title;
    if (word === current) link.setAttribute("aria-current", "page");
    else link.removeAttribute("aria-current");
  });
}

// Shows the page of the address. Where it stands already, what was typed into its forms stays, but of the kind `sent`.
async function show({sent = null, asks = true} = {}) {
  const mine = ++turn, to = pageOf(), main = place("main");
  const page = ["key", "next"].includes(to.word) ? `${to.word}/${to.number}` : to.word;
  const isSame = main.dataset.page === page;
  const put = (fill) => (isSame ? keepingForms(main, fill, sent) : fill());
  delete main.dataset.page;
  showPages(to.word);
  const isCurrent = () => mine === turn;
  if (asks && !await isReader()) return;
  if (!isCurrent()) return;
  try {
    await render(main, to, {isCurrent, put});
  } catch (fault) {
    if (!(fault instanceof Lacking)) throw fault;
    sayLacking(main);
  }
  if (!isCurrent()) return;
  if (!isSame) fillForms(main, drafts.get(entry) ?? []);
  main.dataset.page = page;
  document.title = `${main.querySelector("h1").textContent} - ${plain(registerName())}`;
  showBusy();
  tellTimes();
}

const OLD = 15 * 60;

// The moments of what stands here. A list that is not made any more is seen.
function tellTimes() {
  const at = now(), isOld = list.isThere && at - list.made > OLD;
  const source = list.isThere
    ? `The list is of ${utcText(list.made)} (${away(list.made, at)}); what this page learnt since stands over it.`
    : isComing() ? "The list is on its way: keys are asked for by their numbers meanwhile."
      : "There is no list: keys are asked for by their numbers.";
  replace(place("as-of"), source,
    latest() ? ` The register was at ${utcText(latest())} when this page last heard.` : "");
  replace(place("old"), isOld ? el("p", {class: "note"}, `The list is old: it was made ${away(list.made, at)}. What `
    + "others did since is seen on a key's own page alone. Tell whoever runs the register.") : null);
}

// Without a list the desk goes on with what it knows.
async function loadList() {
  try {
    return await load();
  } catch {
    return false;
  }
}

// A newer list is shown where nothing is being written and no row moves under a hand; else it is told, or what a form
// foretells follows from it.
async function follow() {
  const {word} = pageOf(), main = place("main"), isAtHand = Boolean(document.activeElement?.closest("main > *"));
  showPages(word);
  if (["waits", "due", "mine", "leaver"].includes(word) || (word === "table" && !isTaking())) {
    tellNewer(main, async () => {
      await show();
      main.focus();
    });
  } else if (word === "register" || (word === "periods" && isAtHand)) {
    for (const form of main.querySelectorAll("form.command")) form.dispatchEvent(new Event("change"));
  } else if (word !== "table" && (word !== "find" || !isAtHand)) await show();
}

async function renew() {
  if (document.hidden || isComing() || !await isReader()) return;
  if (await loadList()) await follow();
  tellTimes();
}

// ---- the beginning

async function named() {
  for (let tries = 0; ; tries++) {
    try {
      return await whoAmI();
    } catch (fault) {
      if (!(fault instanceof Unanswered)) throw fault;
      if (!isSignedOut()) {
        replace(place("main"), el("h1", {}, "Register of keys"),
          el("p", {class: "note", role: "alert"}, "The register's machine does not answer. It is asked again."));
      }
      await pause(Math.min(1000 * 2 ** tries, 15000));
    }
  }
}

const KEPT_TABLES = /^keyreg\.(table|registered)/;

// What was taken in before a reload. Without any the first page needs no module of tables.
async function restoreTable() {
  if (!Object.keys(sessionStorage).some((word) => KEPT_TABLES.test(word))) return;
  const {restore} = await part("./taken.js");
  await restore(desk.me);
}

async function resume() {
  for await (const {answer, command} of resumed()) {
    const {tableAnswer} = await part("./taken.js");
    if (tableAnswer(answer, command)) {
      if (answer.accepted) learnMoment(answer.moment);
      if (pageOf().word === "table") await show();
    } else await settle(answer, command);
  }
}

function showReader() {
  replace(document.querySelector("header .title"), "Register of keys ", shown(registerName(), {class: "text which"}));
  replace(place("who"), "You: ", el("strong", {}, plain(desk.me)), " ",
    el("a", {href: `/sign-out?user=${desk.me}`, class: "onscreen"}, "Sign out"));
}

// A user whose name is none that the register takes can ask and send nothing.
function sayNoCaller(fault) {
  replace(place("who"), "You: ", el("strong", {}, plain(desk.me)));
  replace(place("main"), el("h1", {}, "Register of keys"),
    el("p", {class: "note", role: "alert"}, "The register takes no request of the user ", name(desk.me), `: ${fault}. `,
      "Nothing is asked or sent. Ask whoever runs the register for a user of another name, and close the browser, so ",
      "that it asks for the password again."));
}

let isTaking = () => false;

// The modules of the other pages, once the first one stands: they are there when they are wanted.
async function fetchOthers() {
  ({isTaking} = await part("./table.js"));
  await Promise.all(["./due.js", "./help.js", "./key.js", "./leaver.js", "./pages.js"].map(part));
}

function listen() {
  events.addEventListener("kept", showKept);
  events.addEventListener("other", sayOther);
  addEventListener("hashchange", async () => {
    drafts.set(entry, formsIn(place("main")));
    entry = entryOf();
    replace(place("said"));
    hush();
    await show();
    place("main").focus();
  });
  addEventListener("visibilitychange", renew);
  addEventListener("beforeunload", (event) => {
    if (isTaking() || waiting().length) event.preventDefault();
  });
  setInterval(renew, RELOAD);
}

// Shows the first page as soon as there is a list, or without one where that takes long.
async function showFirst(coming, late) {
  await Promise.race([coming, late]);
  const isLate = isComing();
  await show({asks: false});
  performance.mark("first");
  if (isLate) {
    await coming;
    await (["find", "table"].includes(pageOf().word) ? follow() : show());
    tellTimes();
  }
  performance.mark("shown");
}

async function begin() {
  const coming = loadList(), late = pause(FIRST);
  events.addEventListener("signed", saySigned);
  desk.me = await named();
  const fault = desk.me === "" ? "it is empty" : textFault("name", desk.me);
  if (fault) {
    sayNoCaller(fault);
    return;
  }
  entry = entryOf();
  showReader();
  listen();
  showKept();
  await restoreTable().catch(() => {});
  showFirst(coming, late).then(fetchOthers).catch(() => {});
  try {
    await resume();
  } catch (fault) {
    if (!(fault instanceof AnotherUser)) throw fault;
  }
}

begin();
