// Graphs as people write them: each format gives the same graph, and what is none is named with its place.
import assert from "node:assert/strict";
import test from "node:test";
import { GraphFault, readGraphText, sparse6Lines, writeGraph6 } from "../src/graphs.js";
import { linkOf, readLink } from "../src/links.js";

const TRIANGLE = [[1, 2], [1, 3], [2, 3]];
const WAYS = {
  "pairs in lines": "1 2\n2 3\n1 3\n",
  "pairs with commas": "1 2, 2 3, 1 3",
  "pairs from 0 in brackets": "{0,1}\n{1,2}\n{0,2}",
  "a list of Python": "[(0, 1), (1, 2), (0, 2)]",
  "edges of networkx": "0 1 {'weight': 2}\n1 2 {}\n0 2 {}",
  "edges with weights": "1 2 0.5\n2 3 1.5\n1 3 2.0",
  "dashes": "a -- b\nb -- c\na -- c",
  "a path": "a-b-c-a",
  "arrows and comments": "# three\na -> b # first\nb -> c\nc -> a",
  "lists with colons": "1: 2 3\n2: 1 3\n3: 1 2",
  "lists with commas": "a: b, c\nb: c",
  "lists without colons": "1 2 3\n2 3",
  "a matrix": "0 1 1\n1 0 1\n1 1 0",
  "a matrix without gaps": "011\n101\n110",
  "a matrix in brackets": "[[0, 1, 1], [1, 0, 1], [1, 1, 0]]",
  "graph6": "Bw",
  "graph6 with a header": ">>graph6<<Bw",
  "sparse6": ":BcN",
  "DOT": 'graph "G" {\n  node [shape=circle];\n  a -- b -- c; // two\n  c -- a [color="red; blue"]\n}',
  "DOT behind comments": "/* a\ngraph { */\n// triangle\ngraph\nT\n{ a--b--c--a }",
  "DOT with groups": "strict digraph { a -> {b c}; subgraph cluster_x { b -> c } rankdir=LR }",
  "GraphML": '<?xml version="1.0"?>\n<graphml xmlns="x"><graph edgedefault="undirected">\n<node id="a"/><node id="b"/><node id=\'c\'/>' +
    '<edge source="a" target="b"/><edge target="c" source="b"/><edge source="a" target="c"/></graph></graphml>',
  "node-link JSON": '{"nodes": [{"id": "a"}, {"id": "b"}, {"id": "c"}], "links": [{"source": "a", "target": "b"}, {"source": "b", "target": "c"}, {"source": "c", "target": "a"}]}',
  "JSON with edges": '{"nodes": ["a", "b", "c"], "edges": [["a", "b"], ["b", "c"], ["c", "a"]]}',
  "JSON of neighbours": '{"a": ["b", "c"], "b": ["a", "c"], "c": ["a", "b"]}',
  "JSON of pairs": "[[1, 2], [2, 3], [3, 1]]",
};
for (const [name, text] of Object.entries(WAYS))
  test(`a triangle by ${name}`, () => {
    const { names, edges, dropped } = readGraphText(text);
    assert.equal(names.length, 3);
    assert.deepEqual(edges, TRIANGLE);
    assert.equal(dropped, 0);
  });

test("names are kept, and numbers are in their order", () => {
  assert.deepEqual(readGraphText("ann-bob, bob-dan").names, ["ann", "bob", "dan"]);
  assert.deepEqual(readGraphText("10 9\n9 2").names, ["2", "9", "10"]);
  assert.deepEqual(readGraphText('graph { "New York" -- "Łódź" }').names, ["New York", "Łódź"]);
  assert.deepEqual(readGraphText("a-b\nc").names, ["a", "b", "c"]);
  assert.deepEqual(readGraphText("c a\nb c 3.5\nd\n").names, ["c", "a", "b", "d"]);
  assert.deepEqual(readGraphText("a: c b\nb: c\n").names, ["a", "c", "b"]);
});

test("lines of sparse6 become lines of graph6", () => {
  assert.equal(sparse6Lines(">>sparse6<<:Cda\n\n:BcN\n"), "Cl\nBw\n");
  assert.equal(sparse6Lines(":Cda\n"), null);
  assert.throws(() => sparse6Lines(":Cda\nCl\n"), /Line 2/);
});

test("loops and repeated edges are counted", () => assert.equal(readGraphText("1 2\n2 1\n3 3\n2 3").dropped, 2));

const FAULTS = [
  ["", /no graph yet/],
  ["a--\nb--c", /Line 1/],
  ["what is this", /no edge/],
  ["0 1\n0 0", /other way round/],
  ["graph { a -- }", /Line 1: there is no vertex/],
  ["graph { a -- b", /bracket/],
  ['{"nodes": [], "links": [{"source": 1}]}', /edge 1/],
  [":\x01", /sparse6/],
  ["graph { a -- b }\ngraph { c -- d }", /Line 2: another graph/],
  ["<graphml><graph></graph>\n<graph></graph></graphml>", /Line 2: another graph/],
  [":Cda\n:Cda", /Line 2: another graph/],
];
for (const [text, words] of FAULTS)
  test(`${JSON.stringify(text)} is named as no graph`, () =>
    assert.throws(() => readGraphText(text), (fault) => fault instanceof GraphFault && words.test(fault.message)));

test("graph6 is read as it was written", () => {
  for (const count of [1, 2, 7, 62, 63, 300]) {
    const edges = [];
    for (let u = 1; u < count; u++) for (let v = u + 1; v <= count; v += 1 + ((u * v) % 5)) edges.push([u, v]);
    const found = readGraphText(writeGraph6(count, edges));
    assert.deepEqual([found.names.length, found.edges], [count, edges]);
  }
});

test("a link says what it was made of", () => {
  const CASES = [
    { names: ["1", "2", "3"], edges: TRIANGLE, show: "round", out: "1-2", look: "faces" },
    { names: ["ann", "bob, jr", "x-y"], edges: TRIANGLE },
    { names: ["a", "b", "c", "alone"], edges: TRIANGLE, step: "3", at: "2" },
  ];
  for (const shown of CASES) {
    const found = readLink(linkOf(shown));
    assert.deepEqual([found.names, found.edges, found.show, found.out, found.step], [shown.names, shown.edges, shown.show || "", shown.out || "", shown.step || ""]);
  }
  const lists = [[2, 3], [3, 1], [1, 2]];
  assert.deepEqual(readLink(linkOf({ names: ["1", "2", "3"], edges: TRIANGLE, lists })).lists, lists);
  assert.equal(readLink("#nothing"), null);
});
