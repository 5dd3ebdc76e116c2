// The page of what is due for rotation.
import {byParts, el, replace} from "./dom.js";
import {DUE_DAYS, SHOWN, keyTable, lackingNote} from "./find.js";
import {dueWithin, keyAt, list} from "./list.js";
import {now} from "./register.js";
import {counted} from "./words.js";

// The keys stay in their order until the page is opened anew.
export function duePage(place, desk) {
  const at = now(), none = list.hasKeys ? "None." : "Not known: there is no list.";
  const numbers = dueWithin(DUE_DAYS, at), isMine = (number) => keyAt(number, at).owner === desk.me;
  const parts = [["mine", "Yours", numbers.filter(isMine)],
    ["others", "Of others", numbers.filter((number) => !isMine(number))]];
  replace(place, el("h1", {}, "Due for rotation"),
    el("p", {}, `Active keys whose Protect Stop Date comes within ${DUE_DAYS} days or is reached, or whose dates go `
      + "past the period of their type."),
    lackingNote(), el("div", {id: "newer", role: "status"}),
    parts.map(([sort, head, keys]) => {
      const results = el("div", {class: "results"});
      byParts(keys, SHOWN, (some) =>
        (some.length ? keyTable(some, at, counted(keys.length, "key")) : el("p", {}, none)), results);
      return el("section", {class: sort}, el("h2", {}, head), results);
    }));
}
