// The request numbers of a table's rows. They follow from the user and the row alone, so that a row of a user acts
// once, whichever window, browser or program sends it: the register answers the second time as it did the first.
// office/check_table.py has the same rule.
//
// A browser gives its own SHA-256 to pages by TLS alone, so here is another (FIPS 180-4).
import {LEAST_OF_TABLES, textOf} from "./rules.js";

// ---- SHA-256

function primes(count) {
  const found = [];
  for (let number = 2; found.length < count; number++) {
    if (found.every((prime) => number % prime)) found.push(number);
  }
  return found;
}

const fraction = (value) => ((value % 1) * 2 ** 32) | 0;
const BEGIN = primes(8).map((prime) => fraction(Math.sqrt(prime)));
const ROUNDS = primes(64).map((prime) => fraction(Math.cbrt(prime)));
const turned = (word, bits) => (word >>> bits) | (word << (32 - bits));

// The bytes of a text, a bit 1, zeros, and the number of bits, in whole blocks of 64 bytes.
function padded(text) {
  const bytes = new TextEncoder().encode(text), blocks = new Uint8Array((bytes.length + 72) >> 6 << 6);
  blocks.set(bytes);
  blocks[bytes.length] = 0x80;
  const view = new DataView(blocks.buffer);
  view.setUint32(blocks.length - 4, bytes.length * 8);
  return view;
}

// The schedule of a block's 64 words.
function scheduled(view, at) {
  const words = new Int32Array(64);
  for (let place = 0; place < 16; place++) words[place] = view.getInt32(at + 4 * place);
  for (let place = 16; place < 64; place++) {
    const [near, far] = [words[place - 2], words[place - 15]];
    words[place] = words[place - 16] + (turned(far, 7) ^ turned(far, 18) ^ (far >>> 3)) + words[place - 7]
      + (turned(near, 17) ^ turned(near, 19) ^ (near >>> 10));
  }
  return words;
}

function mixed(state, words) {
  let [a, b, c, d, e, f, g, h] = state;
  for (let place = 0; place < 64; place++) {
    const one = h + (turned(e, 6) ^ turned(e, 11) ^ turned(e, 25)) + ((e & f) ^ (~e & g)) + ROUNDS[place]
      + words[place];
    const other = (turned(a, 2) ^ turned(a, 13) ^ turned(a, 22)) + ((a & b) ^ (a & c) ^ (b & c));
    [h, g, f, e, d, c, b, a] = [g, f, e, (d + one) | 0, c, b, a, (one + other) | 0];
  }
  return [a, b, c, d, e, f, g, h].map((word, place) => (word + state[place]) | 0);
}

// The eight words of a text's SHA-256.
export function digest(text) {
  const view = padded(text);
  let state = BEGIN;
  for (let at = 0; at < view.byteLength; at += 64) state = mixed(state, scheduled(view, at));
  return state.map((word) => word >>> 0);
}

// ---- numbers

// The number of the user's row that stands in a table for so manieth time: the first 52 bits of what it says.
export function rowNumber(caller, time, command) {
  const [first, second] = digest(`${caller} ${time} ${textOf(command)}`);
  return LEAST_OF_TABLES + first * 2 ** 20 + (second >>> 12);
}

// The numbers of a table's registrations, in the order of its rows; null where a row is none. No two are the same.
export function tableNumbers(commands, caller) {
  const times = new Map(), taken = new Set();
  return commands.map((command) => {
    if (!command) return null;
    const text = textOf(command);
    let time = times.get(text) ?? 0, number;
    do number = rowNumber(caller, ++time, command);
    while (taken.has(number));
    times.set(text, time);
    taken.add(number);
    return number;
  });
}
