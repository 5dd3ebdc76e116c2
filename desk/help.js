// The page of help: what this desk is, what each page is for, and what the register takes of whom.
import {cards, el, name, replace, shown} from "./dom.js";
import {registerName} from "./register.js";
import {COMMANDS, STATES} from "./rules.js";
import {WORDS, state} from "./words.js";

// The newest version of CHANGES.md.
const VERSION = "1.0.1";

const PAGES = {
  find: "Keys by number, owner, type, state or purpose. A key's number opens its page, with a form for each command.",
  waits: "Destructions that lack your approval, and keys of yours that have their approvals. These two are counted.",
  due: "Active keys whose use for protecting ends soon, or should have ended. Yours are counted.",
  register: "One new key.",
  table: "Many new keys, by a file of CSV. Each row is judged before it is sent.",
  periods: "For how many months keys of each type protect data, and process it after.",
  leaver: "What a name owns and guards. Who owns keys gives them to another owner here, one after the other.",
};

const MEANS = {
  "Pre-Active": "It may not be used yet.",
  "Active": "It may protect data until its Protect Stop Date, and process it until its Deactivation Date.",
  "Deactivated": "It may process protected data under extraordinary circumstances, with special permission.",
  "Compromised": "Somebody else may know it. It may process as a Deactivated one may.",
  "Destroyed": "It is gone; its record stays.",
  "Destroyed-Compromised": "It is gone, and somebody else may have known it.",
};

const WHO = {owner: "its owner", custodian: "a custodian", office: "the user office", anybody: "anybody"};

// What a command does whose form tells nothing of it.
const DOES = {
  "register": "A new key comes. It is Active once its Activation Date is reached.",
  "revoke for compromise": "The key is Compromised for good.",
  "set-period": "Dates that are left out follow from it from then on, and longer ones are refused.",
  "advance": "The register goes on to this moment, and the states of keys with it.",
};

const GOOD_TO_KNOW = [
  "Each request is kept for good, with your name: nothing takes one back. A form says before what would come of it.",
  "After a broken connection the page sends a request again by itself. It acts once.",
  "Dates and times are in UTC; your own time stands beside.",
  "The list of keys is some minutes old. A key's own page asks the register.",
  "No key stands here, only its record.",
];

const terms = (pairs) => el("dl", {class: "facts"}, pairs.map(([head, text]) =>
  [el("dt", {}, head), el("dd", {}, text)]));

function commands() {
  const rows = Object.entries(COMMANDS).filter(([kind]) => WORDS[kind]).map(([kind, {who, states}]) =>
    [el("strong", {}, WORDS[kind].title), WHO[who],
      !states ? "" : states.length === STATES.length ? "any" : states.join(", "), WORDS[kind].tells ?? DOES[kind]]);
  return cards(["Command", "Who", "Of a key that is", "What it does"], rows, {"aria-labelledby": "commands"});
}

export function helpPage(place, desk) {
  replace(place, el("h1", {}, "Help"),
    el("p", {class: "about"}, "This is the desk of the register ", el("strong", {}, shown(registerName())),
      `, of keyreg ${VERSION}. You are `, name(desk.me),
      ". Ask whoever runs the register for a password, or where something goes wrong."),
    el("h2", {}, "Pages"),
    terms(desk.pages.filter(([word]) => PAGES[word]).map(([word, title]) => [title, PAGES[word]])),
    el("h2", {}, "Good to know"), el("ul", {}, GOOD_TO_KNOW.map((text) => el("li", {}, text))),
    el("h2", {}, "States of a key"), terms(STATES.map((word) => [state(word), MEANS[word]])),
    el("h2", {id: "commands"}, "Commands"), commands());
}
