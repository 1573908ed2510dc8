// The methods at work: what is shown of each is what its definition says, on all connected plane maps of eight vertices.
import assert from "node:assert/strict";
import test from "node:test";
import { Calls } from "../src/calls.js";
import { Engine } from "../src/engine.js";
import { convexWood, pathsOf, shiftStep } from "../src/methods.js";
import { completedWood, facesWood, partsOf } from "../src/overlays.js";
import { moduleBytes } from "./module.mjs";
import { maps } from "./small_maps.mjs";

const calls = new Calls(await Engine.of(moduleBytes()));
const lacks = (...names) => names.some((name) => !calls.has(name)) && "the module lacks a call";
const all = () => [...maps(calls)];

test("the last step of the shift method has the places of the proved drawing", { skip: lacks("canonical_order") }, () => {
  for (const map of all()) {
    const { order, lists } = map.order();
    const { places, contour } = shiftStep(order, lists, map.count - 2);
    assert.deepEqual(map.lists.map((_, k) => places.get(k + 1)), map.figure("shift").places);
    assert.equal(contour.length, 3);
  }
});

test("each step of the shift method has its contour in slopes of one, up or down", { skip: lacks("canonical_order") }, () => {
  for (const map of all().slice(0, 500)) {
    const { order, lists } = map.order();
    for (let k = 1; k <= map.count - 2; k++) {
      const { contour, places } = shiftStep(order, lists, k);
      contour.slice(1).forEach((v, k) => {
        const [[x1, y1], [x2, y2]] = [places.get(contour[k]), places.get(v)];
        assert.ok(x2 > x1 && Math.abs(y2 - y1) === x2 - x1);
      });
    }
  }
});

test("a vertex's coordinates by Schnyder are the vertices of its regions less those of a path", { skip: lacks("schnyder_wood") }, () => {
  for (const map of all()) {
    const wood = completedWood(map);
    map.figure("schnyder").places.forEach(([x, y], k) => {
      const parts = partsOf(wood, k + 1);
      if (parts) assert.deepEqual(parts.counts, [x, y, map.count - 1 - x - y]);
    });
  }
});

test("the trees of Schnyder's wood leave each inner vertex in their order round it", { skip: lacks("schnyder_wood") }, () => {
  for (const map of all()) {
    const { parents, roots } = completedWood(map);
    map.order().lists.forEach((list, k) => {
      if (roots.includes(k + 1)) return;
      const at = parents.map((parent) => list.indexOf(parent[k]));
      assert.ok(at.every((it) => it >= 0));
      const kinds = list.map((u) => (parents.some((parent) => parent[k] === u) ? "out" : parents.findIndex((parent) => parent[u - 1] === k + 1)));
      assert.ok(kinds.every((kind) => kind !== -1));
      // Between two that leave, those of the third colour come in.
      const turn = [...list.slice(at[0]), ...list.slice(0, at[0])];
      const order = [1, 2].map((c) => turn.indexOf(parents[c][k]));
      const next = order[0] < order[1] ? 1 : 2;
      turn.slice(1, Math.min(...order)).forEach((u) => assert.equal(parents[3 - next][u - 1], k + 1));
    });
  }
});

test("a vertex's coordinates in the convex drawing are the faces of its regions", { skip: lacks("convex") }, () => {
  let count = 0;
  for (const map of all()) {
    const wood = facesWood(map);
    if (!wood) continue;
    assert.equal(new Set(wood.roots).size, 3);
    map.figure("convex").places.forEach(([x, y], k) => {
      const parts = partsOf(wood, k + 1);
      if (!parts) return;
      count++;
      assert.deepEqual(parts.counts, [x, y, map.faces.length - 1 - x - y]);
      for (const path of parts.paths) assert.ok(map.faces[0].includes(path[path.length - 1]));
    });
  }
  assert.ok(count > 1000);
});

test("each vertex has one edge of each colour in the wood of a convex drawing", { skip: lacks("convex") }, () => {
  for (const map of all()) {
    const { refused, places } = map.figure("convex");
    if (refused) continue;
    const most = map.faces.length - 1;
    const parts = places.map(([x, y]) => [x, y, most - x - y]);
    convexWood(map.lists, places).forEach((parent, c) =>
      map.lists.forEach((list, k) => {
        const ups = list.filter((u) => parts[u - 1].every((part, i) => (i === c ? part > parts[k][i] : part <= parts[k][i])));
        assert.equal(ups.length, parent[k] === k + 1 ? 0 : 1);
      }),
    );
  }
});

test("heights of bars are the module's st-numbers", { skip: lacks("st_order") }, () => {
  for (const map of all()) {
    const { refused, bars } = map.figure("bars");
    const rank = new Uint16Array(map.count);
    if (!refused && map.ask("st_order", rank).name === "OK") assert.deepEqual(bars.map(({ y }) => y), [...rank]);
  }
});

test("heights of bars are st-numbers: each vertex but two has neighbours on both sides", { skip: lacks("bars") }, () => {
  for (const map of all()) {
    const { refused, bars } = map.figure("bars");
    if (refused) continue;
    assert.equal(new Set(bars.map(({ y }) => y)).size, map.count);
    map.lists.forEach((list, k) => {
      const { y } = bars[k];
      if (y > 0) assert.ok(list.some((u) => bars[u - 1].y < y));
      if (y < map.count - 1) assert.ok(list.some((u) => bars[u - 1].y > y));
    });
  }
});

test("a regular edge labelling goes round each inner vertex in four intervals, and is the module's own", { skip: lacks("rect") }, () => {
  const NAMES = ["", "up", "down", "right", "left"];
  let count = 0;
  for (const given of all())
    for (const face of given.faces.filter((it) => it.length === 4)) {
      const turned = given.outside(face[0], face[1]);
      const labels = turned.labels();
      if (!labels) continue;
      count++;
      const own = new Uint8Array(turned.lists.flat().length);
      if (calls.has("edge_labelling") && turned.ask("edge_labelling", own).name === "OK")
        assert.deepEqual(labels.flat(), Array.from(own, (it) => NAMES[it]));
      turned.lists.forEach((list, k) => {
        if (turned.faces[0].includes(k + 1)) return;
        const runs = labels[k].filter((label, i) => label !== labels[k][(i + 1) % list.length]);
        assert.equal(runs.length, 4);
        assert.deepEqual([...new Set(labels[k])].sort(), ["down", "left", "right", "up"]);
      });
    }
  assert.ok(count > 5);
});

test("paths end at a root", () => assert.deepEqual(pathsOf([[1, 1, 2]], 3), [[3, 2, 1]]));
