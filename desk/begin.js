// What the first page asks for beside its modules, so that neither waits for the other: who reads it, and the list.
function asks(path, how) {
  const answer = fetch(location.origin + path, {credentials: "same-origin", redirect: "error", ...how});
  // Whoever takes it hears of it.
  answer.catch(() => {});
  return [path, answer];
}

// Tests have no page.
const answers = new Map(globalThis.document ? [
  asks("/me", {cache: "no-store", signal: AbortSignal.timeout(60000)}),
  asks("/list.json", {cache: "no-cache"}),
] : []);

// The answer that was asked for at the beginning: once, and then none.
export function firstAnswer(path) {
  const answer = answers.get(path);
  answers.delete(path);
  return answer;
}
