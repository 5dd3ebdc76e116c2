// The pages of commands about no key: a registration, and the periods of the types.
import {cards, el, plain, replace} from "./dom.js";
import {commandForm} from "./forms.js";
import {list, periods} from "./list.js";
import {OFFICE, PERIODS} from "./rules.js";

export function periodsPage(place, desk) {
  const set = periods();
  const rows = Object.entries(PERIODS).map(([type, [first, second]]) => {
    const [originator, recipient] = set[type] ?? [first, second];
    return [el("strong", {}, type), String(originator), String(recipient),
      set[type] ? `set by ${OFFICE}` : "as the register began"];
  });
  const note = "The list is not there, which has the periods that are set: these may be others.";
  replace(place, el("h1", {}, "Periods of the types"),
    list.isThere ? null : el("p", {class: "note"}, note),
    cards(["Type", "Months of protecting", "Months of processing after", "Whose"], rows,
      {"aria-label": "Periods of the types"}),
    desk.me === OFFICE ? [el("h2", {}, "Set the periods of a type"), commandForm("set-period", {desk})]
      : el("p", {}, `Only the user ${OFFICE} sets them; you are `, plain(desk.me), "."));
}

export function registerPage(place, desk) {
  replace(place, el("h1", {}, "Register a key"),
    el("p", {}, "A date that you leave out follows from the period of the type, once there is an Activation."),
    commandForm("register", {desk}));
}
