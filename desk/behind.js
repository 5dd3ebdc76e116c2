// The keys behind the list, which are asked for where none is to be registered twice.
import {last, learnRegistered, list} from "./list.js";
import {keysFrom, lastKey} from "./register.js";

// Learns the keys that came since the list was made, so that nothing is registered that somebody else registered. Gives
// the last key. Without a list that is known alone, and no row is compared.
export async function learnBehind() {
  const known = list.hasKeys ? last() : list.count, end = await lastKey(known);
  if (list.hasKeys) for await (const key of keysFrom(known + 1, end)) learnRegistered(key);
  return end;
}
