// Writes axe-core's source, which looks at the accessibility of pages. It stands within Chromium, for its own tools: as
// a text within Lighthouse, which is one of the packed resources of a file.
import {readFileSync} from "node:fs";
import {brotliDecompressSync} from "node:zlib";

const pack = readFileSync("/usr/lib/chromium/resources.pak"), FIRST = 12, ENTRY = 6;
if (pack.readUInt32LE(0) !== 5) throw new Error("the pack is of another version than 5");

// Behind the head stands a table of numbers and offsets. A resource that begins so is packed by Brotli behind its size.
function* resources() {
  for (let place = 0; place < pack.readUInt16LE(8); place++) {
    const [from, to] = [0, 1].map((more) => pack.readUInt32LE(FIRST + ENTRY * (place + more) + 2));
    if (pack[from] === 0x1e && pack[from + 1] === 0x9b) yield brotliDecompressSync(pack.subarray(from + 8, to));
  }
}

const BEGIN = "`/*! axe v", bytes = [...resources()].find((one) => one.includes(BEGIN));
if (!bytes) throw new Error("no axe-core stands in Chromium's resources");
const text = bytes.toString(), [literal] = /^`(?:[^`\\]|\\.)*`/s.exec(text.slice(text.indexOf(BEGIN)));
process.stdout.write(new Function(`return ${literal}`)());
