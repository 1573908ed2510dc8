// A graph that is studied: what is said of it, what lies at a place, what a link keeps, and what is saved.
import assert from "node:assert/strict";
import test from "node:test";
import { Calls } from "../src/calls.js";
import { Engine } from "../src/engine.js";
import { factsOf, refusalOf, told, witnessFacts } from "../src/facts.js";
import { readGraphText } from "../src/graphs.js";
import { linkOf, readLink } from "../src/links.js";
import { plain } from "../src/pens.js";
import { jsonOf, svgDocument } from "../src/saving.js";
import { Scene } from "../src/scenes.js";
import { Study } from "../src/study.js";
import { tikzDocument, tikzOf } from "../src/tikz.js";
import { viewOf, viewsOf } from "../src/views.js";
import { moduleBytes } from "./module.mjs";

const calls = new Calls(await Engine.of(moduleBytes()));
const skip = !calls.has("embed") && "the module has no typed calls";
const study = (text, more = {}) => new Study(calls, { ...readGraphText(text), ...more });
const LOOK = { side: 400, dense: 600, faces: true, equilateral: true, paint: plain };
const CUBE = "1-2-3-4-1, 5-6-7-8-5, 1-5, 2-6, 3-7, 4-8";
const K33 = "ann-bob, ann-eve, ann-kim, dan-bob, dan-eve, dan-kim, joe-bob, joe-eve, joe-zoe, zoe-kim, zoe-lea";

test("facts tell size, connection, degrees and faces", { skip }, () => {
  const CASES = [
    [CUBE, /^8 vertices, 12 edges, 6 faces; planar; three-connected. Degrees 3 \(8 times\). Faces of 4 \(6 times\)\.$/, []],
    ["a-b-c-a, c-d-e-c", /connected, with the cut vertex c\b/, ["c"]],
    ["a-b-c-d-a", /two-connected, with the separating pair a, c\./, ["a", "c"]],
    ["a-b-c-a, d-e-f-d", /2 components/, []],
    ["a-b, b-c", /cut vertex b/, ["b"]],
  ];
  for (const [text, words, apart] of CASES) {
    const { map } = study(text);
    const found = factsOf(map);
    assert.match(found.text, words);
    assert.deepEqual(found.marked.map((v) => map.names[v - 1]).sort(), apart);
  }
});

test("a graph that is not planar has its witness in its names, and an edge that can go", { skip }, () => {
  const found = study(K33);
  assert.deepEqual(viewsOf(found), ["witness"]);
  assert.match(witnessFacts(found.given.names, found.given.edges, found.witness), /^8 vertices, 11 edges; not planar: .*K3,3.*ann/);
  const edge = found.looseEdge();
  const rest = found.given.edges.filter((it) => String(it) !== String(edge));
  assert.ok(new Study(calls, { ...found.given, edges: rest }).map);
  assert.match(viewOf(found, "witness", LOOK).body, />zoe</);
  assert.equal(study("1-2, 1-3, 1-4, 1-5, 2-3, 2-4, 2-5, 3-4, 3-5, 4-5").witness.kind, "K5");
});

test("each view of a map has a picture, or says why not", { skip }, () => {
  const found = study(CUBE);
  for (const view of viewsOf(found)) {
    const made = viewOf(found, view, LOOK);
    if (view === "rect") assert.ok(made.isRefused && made.said);
    else assert.match(made.body, /<line|<rect|<path/);
  }
  assert.equal(viewOf(found, "round", LOOK).said, "judged: yes");
  assert.match(refusalOf({ refused: "SeparatingPair", numbers: [1, 2] }, ["a", "b"]), /a, b/);
});

test("a vertex that is moved over an edge is judged no, with what crosses, and back is yes", { skip }, () => {
  const found = study(CUBE);
  const { places } = found.rounded();
  const inner = found.map.names.findIndex((_, k) => !found.map.faces[0].includes(k + 1)) + 1;
  found.move(inner, [-500, -400]);
  const verdict = found.verdict();
  assert.ok(!verdict.isGood && /^judged: no, /.test(verdict.words) && verdict.edges.length);
  assert.ok(viewOf(found, "round", LOOK).isBad);
  found.move(inner, places[inner - 1]);
  assert.ok(found.verdict().isGood);
});

test("a face is put outside, and the link says so", { skip }, () => {
  const found = study(CUBE);
  const names = (map) => map.faces[0].map((v) => map.names[v - 1]).sort().join("");
  for (let f = 1; f < 6; f++) {
    const wanted = found.map.faces[f].map((v) => found.map.names[v - 1]).sort().join("");
    found.focus = { v: 3 };
    const name = found.map.names[2];
    found.putFaceOutside(f);
    assert.equal(names(found.map), wanted);
    assert.equal(found.map.names[found.focus.v - 1], name);
    const again = new Study(calls, readLink(linkOf(found.shown())));
    assert.equal(names(again.map), wanted);
    assert.equal(again.map.names[again.focus.v - 1], name);
  }
  found.putGivenOutside();
  assert.equal(found.shown().out, "");
});

test("a map that is given keeps its lists", { skip }, () => {
  const lists = [[4, 2, 3], [3, 1, 4], [4, 1, 2], [1, 3, 2]];
  const found = new Study(calls, { names: ["1", "2", "3", "4"], edges: [], lists });
  assert.deepEqual(found.map.lists, lists);
  assert.deepEqual(readLink(linkOf(found.shown())).lists, lists);
});

test("what lies at a place is found: a vertex, an edge, a face", { skip }, () => {
  const found = study(CUBE);
  const made = viewOf(found, "round", LOOK);
  const scene = new Scene(made.scene, found.map);
  made.scene.spots.forEach((spot, k) => assert.deepEqual(scene.at(spot), { v: k + 1 }));
  made.scene.pairs.forEach(([p, q], e) => assert.deepEqual(scene.at([(p[0] + q[0]) / 2, (p[1] + q[1]) / 2]), { e }));
  found.map.faces.slice(1).forEach((walk, k) => {
    const middle = [0, 1].map((i) => walk.reduce((sum, v) => sum + made.scene.spots[v - 1][i], 0) / walk.length);
    assert.deepEqual(scene.at(middle), { f: k + 1 });
  });
  assert.deepEqual(scene.at([1, 1]), { f: 0 });
  assert.match(scene.mark({ v: 1 }), /<line.*<circle/);
  const bars = viewOf(found, "bars", LOOK);
  const [x, y, width, height] = bars.scene.boxes[4];
  assert.deepEqual(new Scene(bars.scene, found.map).at([x + width / 2, y + height / 2]), { v: 5 });
});

test("a vertex, an edge and a face are told in names", { skip }, () => {
  const { map } = study("a-b-c-a, a-d, b-d, c-d");
  assert.match(told(map, { v: 1 }, [[0, 2]]), /^Vertex .: 3 neighbours, clockwise .*at \(0, 2\)\.$/);
  assert.match(told(map, { e: 0 }), /^Edge .–., between faces of 3 and 3\.$/);
  assert.match(told(map, { f: 0 }), /lies outside/);
  assert.match(told(map, { f: 1 }), /click/);
});

test("pictures are saved as SVG, TikZ and JSON with names", { skip }, () => {
  const found = study("a&b-c-d-a&b, a&b-e, c-e, d-e");
  for (const view of ["round", "schnyder", "bars"]) {
    const made = viewOf(found, view, LOOK);
    assert.match(svgDocument(made), /^<svg [^]*a&amp;b[^]*<\/svg>\n$/);
    assert.match(tikzDocument(tikzOf(made.figure, { names: found.map.names })), /\\begin\{tikzpicture\}[^]*a\\&b[^]*\\end\{tikzpicture\}\n\\end\{document\}\n$/);
    const data = JSON.parse(jsonOf(made.figure, found.map.names));
    assert.deepEqual([data.vertices.length, data.edges.length], [4, 6]);
  }
});

test("the face that can be the outer one of rectangles is found", { skip }, () => {
  const found = study("1-2-3-4-1, 5-1, 5-2, 5-3, 5-4");
  const inner = found.map.faces.findIndex((walk) => walk.length === 3);
  found.putFaceOutside(inner);
  const { isRefused, fitting } = viewOf(found, "rect", LOOK);
  assert.ok(isRefused && found.map.faces[fitting].length === 4);
  found.putFaceOutside(fitting);
  assert.ok(!viewOf(found, "rect", LOOK).isRefused);
  assert.equal(viewOf(study(CUBE), "rect", LOOK).fitting, -1);
});

test("a graph that is too small or too large is refused by name", { skip }, () => {
  assert.equal(study("a-b").refused, "Small");
  const path = Array.from({ length: 70000 }, (_, k) => k + 1).join("-");
  assert.equal(study(path).refused, "BadArgument");
});

test("each step of the shift method is a picture of its own", { skip: skip || (!calls.has("canonical_order") && "no order") }, () => {
  const found = study(CUBE);
  const seen = new Set();
  for (found.step = 0; found.step <= found.lastStep(); found.step++) seen.add(viewOf(found, "shift", LOOK).said);
  assert.equal(seen.size, found.lastStep() + 1);
});
