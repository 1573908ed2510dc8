// Counts of a text's answers, and what answers say in words.
import assert from "node:assert/strict";
import test from "node:test";
import { numbered, said, stopped, tally } from "../src/answers.js";

const FIGURE = "figure 1 shift 3\n1 at 2 0: 2 3\n2 at 0 0: 3 1\n3 at 1 1: 1 2\n";

test("a whole text is counted by its last line", () => {
  const found = tally(`${FIGURE}refused 2 1 Loop 1\nend records 2 refused 1\n`);
  assert.deepEqual([found.records, found.refused, found.stop], [2, 1, null]);
  assert.equal(found.text, `${FIGURE}refused 2 1 Loop 1\n`);
});

test("a stop names its place", () => assert.deepEqual(tally("stop BadCount 15\n").stop, ["BadCount", "15"]));

test("of a text that memory cut off the whole figures are kept", () => {
  for (const rest of ["figure 2 sh", "figure 2 shift 3\n1 at 2 0: 2 3\n2 at", "figure 2 shift 3\n1 at 2 0: 2 3\n"]) {
    const found = tally(FIGURE + rest);
    assert.deepEqual([found.records, found.stop, found.text], [1, [], FIGURE]);
  }
  assert.equal(tally(FIGURE).records, 1);
  assert.equal(tally("count 1 n 3 m 3 f 2 c 1 genus 0\ncount 2 n").records, 1);
});

test("records go on in number", () => assert.equal(numbered(FIGURE, 4).split("\n")[0], "figure 5 shift 3"));

test("answers are told in words", () => {
  assert.equal(said("count 1 n 3 m 3 f 2 c 1 genus 0"), "3 vertices, 3 edges, 2 faces, plane");
  assert.equal(said("refused 1 9 SeparatingPair 2 5"), "vertices 2 and 5 are a separating pair");
  assert.equal(said("verdict 1 Cross 1 3 2 4"), "the edges 1–3 and 2–4 cross");
  assert.match(stopped("maps", []), /memory/);
  assert.match(stopped("graphs", ["BadLine", 7]), /Line 7/);
});
