// Forms for commands. Each shows the JSON that it sends and what the page knows of its answer before it is sent.
import {LABELS, becomes} from "./changes.js";
import {announce, el, field, freshId, hush, plain, replace, select, shown} from "./dom.js";
import {allNames, judgement, list, periodOf} from "./list.js";
import {now} from "./register.js";
import {COMPROMISES, PERIODS, RANGES, REASONS, SETTABLE, wrongMembers} from "./rules.js";
import {WORDS, localText, momentOf, momentText, refusalText, textFault, utcText} from "./words.js";

const NAME = "A name has 1 to 64 letters of ASCII, digits, and - _ . @";
const NO_DATE = "The date is not whole: the time is lacking, or a part of the day";
const HINTS = {
  owner: NAME,
  name: NAME,
  purpose: "A purpose has 1 to 200 bytes, no control characters, and no space at its ends",
  originator: "1 to 1200 months",
  recipient: "0 to 1200 months",
};

// ---- fields. Each has its element, the member that it gives, its value, undefined where it is none, and what is wrong
// with that where something was given. `tell` says beside the field what is wrong, or an empty text.

// A field with its label, and what describes it: what is wrong with it, and its hint.
function described(label, input, hint, ...more) {
  const wrong = el("span", {class: "wrong", id: freshId("wrong")});
  hint.id = freshId("hint");
  input.setAttribute("aria-describedby", `${wrong.id} ${hint.id}`);
  const tell = (fault) => {
    if (wrong.textContent !== fault) wrong.textContent = fault;
    if (fault) input.setAttribute("aria-invalid", "true");
    else input.removeAttribute("aria-invalid");
  };
  return {tell, element: field(label, input, ...more, wrong, hint)};
}

const inputText = (moment) => (moment === null || moment === undefined ? "" : momentText(moment).replace("Z", ""));

// A day whose time is not typed yet has no value, and is none all the same.
const dateOf = (input) =>
  (input.validity.badInput ? undefined : input.value === "" ? null : momentOf(input.value) ?? undefined);

// A date by a calendar, in UTC, with the reader's own time beside it.
function date(member, label, given = null) {
  const input = el("input", {type: "datetime-local", step: "1", min: "1970-01-01T00:00:00", max: "9999-12-31T23:59:59",
    name: member, value: inputText(given)});
  const hint = el("span", {class: "hint"});
  const set = (value) => {
    // An input that is half typed keeps what was typed where its value stays empty.
    input.value = inputText(0);
    input.value = value;
    input.dispatchEvent(new Event("input", {bubbles: true}));
  };
  const look = () => {
    const value = dateOf(input);
    hint.textContent = value === null ? "none" : value === undefined ? ""
      : `${utcText(value)}, in your time ${localText(value)}`;
  };
  // Not each letter of a date that is typed changes its value.
  for (const event of ["input", "keyup", "focusout"]) input.addEventListener(event, look);
  look();
  const about = label.toLowerCase();
  const buttons = el("span", {class: "beside"},
    el("button", {type: "button", "aria-label": `Now, for ${about}`, onclick: () => set(inputText(now()))}, "Now"),
    el("button", {type: "button", "aria-label": `No date, for ${about}`, onclick: () => set("")}, "None"));
  const fault = () => (dateOf(input) === undefined ? NO_DATE : "");
  return {member, input, fault, value: () => dateOf(input), ...described(`${label} (UTC)`, input, hint, buttons)};
}

// An edit of a date: kept, cleared or set.
function edit(member, label, given) {
  const how = select([["keep", "keep it"], ["set", "set it"], ["clear", "clear it"]],
    {name: `${member}-edit`, "aria-label": `${label}: what to do`});
  const entry = date(member, label, given);
  const look = () => {
    entry.element.classList.toggle("kept", how.value !== "set");
    entry.input.required = how.value === "set";
  };
  for (const event of ["input", "change"]) how.addEventListener(event, look);
  for (const event of ["input", "keyup"]) {
    entry.input.addEventListener(event, ({isTrusted}) => {
      const isTyped = event === "keyup" ? entry.input.validity.badInput : isTrusted || entry.input.value !== "";
      if (isTyped) how.value = "set";
      look();
    });
  }
  look();
  const value = () => (how.value === "keep" ? "keep" : how.value === "clear" ? null : entry.value() ?? undefined);
  const fault = () => (how.value === "set" ? entry.fault() : "");
  return {...entry, fault, element: el("div", {class: "edit"}, how, entry.element), value};
}

function text(member, label, given = {}) {
  const input = el("input", {type: "text", name: member, required: true, autocomplete: "off", spellcheck: "false",
    ...given});
  const hint = el("span", {class: "hint"}, HINTS[member]);
  const fault = () => (input.value === "" ? "" : textFault(member, input.value));
  return {member, input, fault, value: () => input.value, ...described(label, input, hint)};
}

// A name that somebody has, or another one, which is told and has to be confirmed: what is given to a name that nobody
// has is not to be had back. Without a list nobody knows.
export function person(member, label, me, value) {
  const names = allNames().add(me), id = freshId("names");
  const entry = text(member, label, {list: id, value});
  const options = el("datalist", {id}, [...names].sort().slice(0, 2000).map((value) => el("option", {value})));
  const isNew = () => entry.input.value !== "" && !entry.fault() && !names.has(entry.input.value);
  const sure = el("input", {type: "checkbox", required: true, id: freshId("sure")});
  const said = el("label", {for: sure.id}), place = el("div");
  const look = () => {
    said.textContent = list.hasKeys
      ? `No key, custodian or request has the name ${entry.input.value}. It is the one I mean`
      : `Whether anybody has the name ${entry.input.value} is not known: there is no list. It is the one I mean`;
    sure.checked = false;
    replace(place, isNew() ? el("div", {class: "sure"}, sure, said) : null);
  };
  entry.input.addEventListener("input", look);
  entry.element.append(options, place);
  return {...entry, open: () => (isNew() && !sure.checked ? said.textContent : ""), sure};
}

function choice(member, label, options, {take = (value) => value, chosen} = {}) {
  const input = select(options, {name: member}, chosen);
  return {member, input, fault: () => "", tell: () => {}, element: field(label, input), value: () => take(input.value)};
}

function months(member, label) {
  const [min, max] = RANGES[member], hint = el("span", {class: "hint"}, HINTS[member]);
  const input = el("input", {type: "number", name: member, required: true, min, max, step: 1, inputmode: "numeric"});
  const value = () => (/^\d{1,4}$/.test(input.value) ? Number(input.value) : undefined);
  const isWrong = () => input.validity.badInput || (input.value !== "" && !(value() >= min && value() <= max));
  const fault = () => (isWrong() ? `It is not ${HINTS[member]}` : "");
  return {member, input, fault, value, ...described(label, input, hint)};
}

const types = (chosen) => choice("type", "Type", Object.keys(PERIODS).map((type) => [type, type]), {chosen});

// The months of a type, which begin with those that stand, also where another type is chosen.
function periodFields() {
  const fields = [types(), months("originator", "Months of protecting (originator use)"),
    months("recipient", "Months of processing after (recipient use)")];
  const [type, ...ends] = fields;
  const put = () => {
    const standing = list.isThere ? periodOf(type.value()) : ["", ""];
    ends.forEach(({input}, place) => {
      if (input.value === input.defaultValue) input.value = standing[place];
      input.defaultValue = standing[place];
    });
  };
  for (const event of ["input", "change"]) type.input.addEventListener(event, put);
  put();
  return fields;
}

function reasons(isOwners) {
  const options = Object.entries(REASONS).filter(([number]) => isOwners || COMPROMISES.includes(Number(number)));
  return choice("reason", "Reason", options.map(([number, name]) => [number, `${number} ${name}`]), {take: Number});
}

// The fields of a command about a key, or about none. `isOwners` is whether the owner's reasons may be taken, and
// `given` has what stands in those of a registration.
function fieldsOf(kind, {key, isOwners, desk, given}) {
  const fields = {
    "register": () => [types(given.type), person("owner", "Owner", desk.me, given.owner),
      text("purpose", "Purpose", {value: given.purpose}),
      ...SETTABLE.map((name) => date(name, LABELS[name], given[name]))],
    "set": () => SETTABLE.map((name) => edit(name, LABELS[name], key[name])),
    "revoke": () => [reasons(isOwners), date("occurrence", "Compromised since")],
    "assign": () => [person("owner", "New owner", desk.me)],
    "add-custodian": () => [person("name", "Custodian", desk.me)],
    "remove-custodian": () => [choice("name", "Custodian", key.custodians.map((name) => [name, plain(name)]))],
    "set-quorum": () => [choice("need", "Approvals needed", [2, 3, 4, 5].map((need) => [need, String(need)]),
      {take: Number, chosen: key.need})],
    "set-period": periodFields,
  };
  return fields[kind]?.() ?? [];
}

// ---- what is told before it is sent

function periodAfter({type, originator, recipient}) {
  const [first, second] = periodOf(type);
  if (list.isThere && first === originator && second === recipient) return [];
  return [`Periods of ${type}: ${originator} and ${recipient} months`
    + (list.isThere ? ` (it was ${first} and ${second})` : "")];
}

// What a command changes by the judgement of it; null where nobody knows, or where a change is not to be seen in a key.
function changesOf(command, answer, key) {
  if (!answer || answer.refused || command.kind === "advance") return null;
  return command.kind === "set-period" ? periodAfter(command) : becomes(command, key, answer.key);
}

const NOTHING = "Nothing would change: it stands so already, and is not sent.";

function foretold(command, answer, changes) {
  if (answer === undefined) return [el("p", {}, "What the register will say the page cannot know.")];
  if (answer.refused) {
    return [el("p", {class: "refused"}, el("strong", {}, "Would be refused: "), refusalText(answer, command))];
  }
  if (changes?.length === 0) return [el("p", {class: "hint"}, NOTHING)];
  return [el("p", {class: "accepted"}, el("strong", {}, "Would be accepted"), changes ? ", and then:" : "."),
    changes && el("ul", {}, changes.map((change) => el("li", {}, change)))];
}

const labelOf = ({element}) => element.querySelector("label").textContent;

// What keeps a form from being sent: what is wrong with fields, and those in which nothing stands yet.
function lacking(fields, wrong) {
  const faulty = fields.filter(({fault}) => fault());
  const empty = fields.filter(({member, fault}) => wrong.includes(member) && !fault()).map(labelOf);
  return [...faulty.map((one) => el("p", {class: "refused"}, `${labelOf(one)}: ${one.fault()}`)),
    empty.length ? el("p", {class: "hint"}, `Still lacking: ${empty.join(", ")}`) : null];
}

// Says at each field what is wrong with it; of an empty one once somebody tried to send it.
function markWrong(fields, wrong, isTried) {
  for (const {member, fault, tell} of fields) {
    tell(fault() || (wrong.includes(member) && isTried ? "It is lacking" : ""));
  }
}

// ---- a form

const LAST = ["destroy", "revoke"];

// What is said of a form at once, in one text.
const heard = (place, fields) => [...[...place.querySelectorAll("p, li")].map((part) => part.textContent),
  ...fields.map((entry) => entry.open?.()).filter(Boolean)].join("; ");

// A form of a command. `desk` has the user's name as `me`, and `send`, which sends the command and shows its answer.
// `bar` says of a command why it is not sent from here, if so.
export function commandForm(kind, {desk, key, isOwners = true, given = {}, bar = () => ""}) {
  const fields = fieldsOf(kind, {key, isOwners, desk, given}), {title, tells} = WORDS[kind];
  const before = el("div", {class: "foretold"}), sentence = el("code", {class: "sentence"});
  const sure = LAST.includes(kind) ? el("input", {type: "checkbox", required: true, id: freshId("sure")}) : null;
  const button = el("button", {type: "submit", class: "send"}, title);
  let isTried = false;
  const command = () => {
    const members = Object.fromEntries(fields.map(({member, value}) => [member, value()]));
    if (kind === "revoke" && !COMPROMISES.includes(members.reason)) members.occurrence = null;
    return {kind, ...(key ? {key: key.number} : {}), ...members};
  };
  // Shows what is known of the form as it stands; gives it, with what is wrong in it, and what it would change.
  const look = () => {
    const body = command(), wrong = wrongMembers(body);
    const answer = wrong.length ? null : judgement(body, {caller: desk.me, key});
    const changes = changesOf(body, answer, key);
    markWrong(fields, wrong, isTried);
    if (kind === "revoke") fields[1].element.hidden = !COMPROMISES.includes(body.reason);
    replace(sentence, shown(JSON.stringify(body)));
    const barred = wrong.length ? "" : bar(body);
    replace(before, wrong.length ? lacking(fields, wrong) : barred ? el("p", {class: "refused"}, barred)
      : foretold(body, answer, changes));
    if (form.contains(document.activeElement)) announce(heard(before, fields));
    return {body, wrong, nothing: barred || (changes?.length === 0 ? NOTHING : "")};
  };
  const submit = (event) => {
    event.preventDefault();
    isTried = true;
    const {body, wrong, nothing} = look(), open = fields.find((entry) => entry.open?.());
    if (wrong.length) fields.find(({member}) => wrong.includes(member))?.input.focus();
    else if (open) open.sure.focus();
    else if (nothing) {
      // At each press anew.
      hush();
      announce(nothing, 100);
    } else desk.send(body);
  };
  const form = el("form", {class: `command ${kind}`, novalidate: !sure, "aria-label": title, onsubmit: submit,
    oninput: look, onchange: look, onkeyup: look, onfocusout: look},
  tells ? el("p", {}, tells) : null,
  fields.map(({element}) => element),
  sure ? el("div", {class: "sure"}, sure, el("label", {for: sure.id}, "I know that nothing takes this back")) : null,
  before, el("p", {class: "sends"}, "Sends ", sentence), button);
  form.dataset.kind = kind;
  look();
  return form;
}
