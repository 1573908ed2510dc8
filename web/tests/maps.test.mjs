// Maps: their drawings, orders, woods and labellings are what their definitions say, on all small maps.
import assert from "node:assert/strict";
import test from "node:test";
import { Calls } from "../src/calls.js";
import { Engine } from "../src/engine.js";
import { readGraph } from "../src/figures.js";
import { embedded, PlaneMap } from "../src/maps.js";
import { roundDrawing, roundFloats, rounded } from "../src/round.js";
import { moduleBytes } from "./module.mjs";
import { maps, mapOf, NAMES } from "./small_maps.mjs";

const calls = new Calls(await Engine.of(moduleBytes()));
const lacks = (name) => !calls.has(name) && `the module has no call ${name}`;

test("a graph has a map with its edges, or a witness of paths that are its edges", { skip: lacks("embed") }, () => {
  const cube = readGraph("Gs@ipo");
  const { map } = embedded(calls, NAMES(8), cube.edges);
  assert.deepEqual([map.counts().f, map.counts().genus, map.edges.length], [6, 0, 12]);
  const { witness } = embedded(calls, NAMES(10), readGraph("IheA@GUAo").edges);
  const edges = new Set(readGraph("IheA@GUAo").edges.map(String));
  assert.deepEqual([witness.kind, witness.paths.length], ["K33", 9]);
  for (const path of witness.paths)
    path.slice(1).forEach((v, k) => assert.ok(edges.has(String([Math.min(v, path[k]), Math.max(v, path[k])]))));
});

test("a face comes outside, and names go along", { skip: lacks("embed") }, () => {
  const map = mapOf(calls, "Gs@ipo", [..."abcdefgh"]);
  for (const walk of map.faces) {
    const turned = map.outside(walk[0], walk[1]);
    const names = (other, at) => at.map((v) => other.names[v - 1]).sort().join("");
    assert.equal(names(turned, turned.faces[0]), names(map, walk));
    assert.equal(turned.judge(turned.figure("schnyder").places, 6).name, "OK");
  }
});

test("refusals have their names, with vertices from 1", { skip: lacks("convex") }, () => {
  const path = new PlaneMap(calls, [[2], [1, 3], [2]]);
  assert.deepEqual(path.figure("bars"), { job: "bars", refused: "CutVertex", numbers: [2] });
  assert.deepEqual(path.cutVertices(), [2]);
  assert.deepEqual(new PlaneMap(calls, [[2], [1]]).figure("shift"), { job: "shift", refused: "Small", numbers: [2] });
});

test("a drawing that is spoilt by hand is judged with its fault", { skip: lacks("check") }, () => {
  const map = mapOf(calls, "C~");
  assert.equal(map.judgeEdges([[0, 0], [9, 0], [0, 9], [2, 2]]).name, "OK");
  assert.deepEqual(map.judgeEdges([[0, 0], [9, 0], [0, 9], [9, 9]]), { name: "Cross", numbers: [1, 4, 2, 3] });
  assert.deepEqual(map.judgeEdges([[0, 0], [9, 0], [0, 9], [9, 0]]), { name: "SamePlace", numbers: [2, 4] });
});

test("a canonical order grows a cycle, and the rest stays joined", { skip: lacks("canonical_order") }, () => {
  for (const map of maps(calls)) {
    const { order, lists } = map.order();
    assert.deepEqual([...order].sort((a, b) => a - b), map.lists.map((_, k) => k + 1));
    for (const [u, v] of map.edges) assert.ok(lists[u - 1].includes(v));
    const rank = new Map(order.map((v, k) => [v, k]));
    order.slice(2, -1).forEach((v, k) => {
      const before = lists[v - 1].filter((u) => rank.get(u) < k + 2);
      assert.ok(before.length >= 2 && before.length < lists[v - 1].length);
    });
  }
});

test("the round drawing of each three-connected map of eight vertices is judged yes", { skip: lacks("check") }, () => {
  let count = 0;
  for (const map of maps(calls)) {
    if (map.figure("convex").refused) continue;
    count++;
    const walk = map.faces[map.longestFace()];
    const turned = map.outside(walk[0], walk[1]);
    assert.ok(roundDrawing(turned.lists, (places, size) => turned.judge(places, size).name === "OK"));
  }
  assert.ok(count > 20);
});

test("round places are the middle of their neighbours, and the outer walk is on the circle", () => {
  const lists = [[2, 4, 3], [3, 4, 1], [1, 4, 2], [1, 2, 3]];
  const floats = roundFloats(lists, 1);
  assert.ok(Math.hypot(...floats[3]) < 1e-12);
  for (const at of floats.slice(0, 3)) assert.ok(Math.abs(Math.hypot(...at) - 1) < 1e-12);
  assert.deepEqual(rounded([[-1, 1], [0, 0.0012]], 1000), [[0, 1000], [500, 501]]);
});
