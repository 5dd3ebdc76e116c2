// What a command changes in a key, in words.
import {plain} from "./dom.js";
import {localText, utcText} from "./words.js";

export const LABELS = {activation: "Activation", protect_stop: "Protect Stop", deactivation: "Deactivation"};

function datesAfter(command, before, after) {
  return Object.entries(LABELS).filter(([member]) => after[member] !== (before?.[member] ?? null))
    .map(([member, label]) => {
      const given = command[member];
      const isOwn = given === after[member] || command.kind === "revoke"
        || (command.kind === "activate" && member === "activation");
      const text = after[member] === null ? "none" : `${utcText(after[member])}, ${localText(after[member])}`;
      return `${label}: ${text}${isOwn ? "" : " (by the period of the type)"}`;
    });
}

const namesText = (names) => (names.length ? names.map(plain).join(", ") : "none");

// What else of a key changes: each with its words, and how a value is said.
const OTHERS = [
  ["owner", "Owner", plain],
  ["need", "Approvals needed", String],
  ["custodians", "Custodians", namesText],
  ["approvals", "Approvals", namesText],
];

// What a command changes in a key; nothing where the key is known and stays as it is.
export function becomes(command, before, after) {
  const others = !before ? [] : OTHERS.filter(([member]) => String(before[member]) !== String(after[member]));
  return [...datesAfter(command, before, after),
    ...(after.state !== before?.state ? [`State: ${after.state}`] : []),
    ...others.map(([member, label, say]) => `${label}: ${say(after[member])} (it was ${say(before[member])})`)];
}
