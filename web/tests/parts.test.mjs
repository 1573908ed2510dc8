// Parts: inputs that are mended, joined and cut are answered as one input that needs none of it.
import assert from "node:assert/strict";
import fs from "node:fs";
import test from "node:test";
import { numbered, tally } from "../src/answers.js";
import { joined } from "../src/bytes.js";
import { Engine } from "../src/engine.js";
import { parts, readable } from "../src/parts.js";
import { recognized } from "../src/formats.js";
import { bytesOf, moduleBytes, textOf } from "./module.mjs";

const KINDS = { count: "maps", shift: "maps", embed: "graphs", verify: "figures" };
const engine = await Engine.of(moduleBytes());
const file = (name) => new Uint8Array(fs.readFileSync(new URL(`../../${name}`, import.meta.url)));
const whole = (job, bytes) => textOf(engine.answer(job, bytes).text);

// Returns the text of a job over an input that is cut into parts of about `size` bytes.
function inParts(job, bytes, size, order = recognized(bytes).order || "be") {
  let [text, records, refused] = ["", 0, 0];
  for (const part of parts(readable(KINDS[job], order, bytes), size)) {
    const found = tally(whole(job, part.input));
    text += numbered(found.text, records);
    records += found.records;
    refused += found.refused || 0;
    if (found.stop) return `${text}stop ${found.stop[0]} ${part.placeOf(Number(found.stop[1]))}\n`;
  }
  return `${text}end records ${records} refused ${refused}\n`;
}

for (const { name, job, given, read, stop } of JSON.parse(textOf(file("examples/mended.json"))))
  test(`what is mended: ${name}`, () => {
    const text = whole(job, bytesOf(read));
    const wanted = stop ? text.slice(0, text.lastIndexOf("\n", text.length - 2) + 1) + stop + "\n" : text;
    for (const size of [4, 60, 1 << 17]) assert.equal(inParts(job, bytesOf(given), size), wanted);
  });

test("no map of a file that is joined to itself is lost", () => {
  const code = file("docs/gallery/tutte.plc");
  const many = joined(Array.from({ length: 300 }, () => code));
  assert.match(inParts("count", many, 1 << 12), /end records 300 refused 0\n$/);
});

test("a record that is longer than an input may be stops the run, and takes no more memory than that", () => {
  const long = new Uint8Array(20 << 20).fill(1);
  long.set(bytesOf(">>planar_code<<"));
  const [part, ...more] = parts(readable("maps", "be", long), 1 << 17);
  assert.equal(more.length, 0);
  assert.ok(part.input.length <= (1 << 24) + 32);
  assert.match(whole("count", part.input), /^stop TooLong/);
});

test("the line of a bad graph is told as it stands in the file", () => {
  const [part] = parts(readable("graphs", "", bytesOf(">>graph6<<\n\nC~\r\n\nD~\n")), 1 << 17);
  assert.equal(textOf(part.input), "C~\nD~\n");
  assert.equal(part.placeOf(2), 2);
  assert.equal(part.lineOf(2), 5);
});
