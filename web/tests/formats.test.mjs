// What the first bytes of an input say.
import assert from "node:assert/strict";
import test from "node:test";
import { planarHeader, plainLines, recognized } from "../src/formats.js";
import { bytesOf, textOf } from "./module.mjs";

const CASES = [
  [">>planar_code<<\x03\x02\x03\x00", "maps"],
  [">>planar_code le<<\x00", "maps"],
  ["\x03\x02\x03\x00\x03\x01\x00\x01\x02\x00", "maps"],
  [">>graph6<<C~\n", "graphs"],
  ["C~\nD~{\n", "graphs"],
  ["\n\r\nC~\r\n", "graphs"],
  ["figure 1 shift 3\n", "figures"],
  ["\n\nverdict 1 yes\n", "figures"],
];
for (const [text, kind] of CASES)
  test(`${JSON.stringify(text)} is read as ${kind}`, () => assert.equal(recognized(bytesOf(text)).kind, kind));

const REASONS = [
  ["", /empty/],
  ["\n\n", /empty lines/],
  [">>sparse6<<:Fa@x^\n", /sparse6/],
  ["<svg>", /picture/],
  ["<graphml>", /graph/],
  ["PK\x03\x04", /archive/],
  ["&DOB\n", /digraph6/],
  ["7 bcdef,afgc\n", /plantri/],
  ['{"nodes": []}', /JSON/],
];
for (const [text, reason] of REASONS)
  test(`${JSON.stringify(text)} is refused in words`, () => {
    const found = recognized(bytesOf(text));
    assert.equal(found.kind, "none");
    assert.match(found.reason, reason);
  });

test("a wide record tells its order of bytes", () => {
  assert.equal(recognized(bytesOf("\x00\x02\x00\x02\x00\x00\x00\x01\x00\x00\x00")).order, "le");
  assert.equal(recognized(bytesOf("\x00\x00\x02\x00\x02\x00\x00\x00\x01\x00\x00")).order, "be");
});

test("a header of planar_code is found at its place alone", () => {
  assert.deepEqual(planarHeader(bytesOf("xx>>planar_code  le <<yy"), 2), { length: 20, order: "le" });
  assert.equal(planarHeader(bytesOf(">>planar_cod<<"), 0), null);
});

test("lines that need nothing are lent, and each mend is told once", () => {
  const plain = bytesOf("C~\nD~{\n");
  assert.equal(plainLines("graphs", plain).bytes.buffer, plain.buffer);
  const mended = plainLines("graphs", bytesOf("C~\r\n\n>>graph6<<D~{"));
  assert.equal(textOf(mended.bytes), "C~\nD~{\n");
  assert.equal(mended.notes.length, 4);
});
