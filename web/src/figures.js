// Figures as the program writes them, and maps and graphs in the formats that it reads.

import { joined } from "./bytes.js";
import { PLANAR_HEADER } from "./formats.js";

// Returns how many lines follow the first line of a figure.
export function figureLines(words) {
  if (words[2] === "witness") return words[3] === "K5" ? 11 : 10;
  return Number(words[3]) + (words[2] === "bars" ? 1 : 0) || 0;
}

// Returns the blocks of a text as lists of lines.
export function blocksOf(text) {
  const blocks = [];
  const lines = text.split("\n");
  lines.pop();
  for (let at = 0; at < lines.length; ) {
    const words = lines[at].split(" ");
    const to = at + 1 + (words[0] === "figure" ? figureLines(words) : 0);
    blocks.push(lines.slice(at, to));
    at = to;
  }
  return blocks;
}

// Returns the blocks of figures alone, as `verify` reads them: notes between figures are passed over.
export function figuresOf(text) {
  return blocksOf(text).filter((lines) => lines[0].startsWith("figure "));
}

// Reads a block that is a figure: its job, its lists, and its places, bars, rectangles or paths.
export function readFigure(lines) {
  const [, number, job, third, fourth] = lines[0].split(" ");
  const figure = { number: Number(number), job, lines };
  if (job === "witness") {
    const rows = lines.slice(1).map((line) => line.split(" ").slice(1).map(Number));
    return { ...figure, kind: third, graph: fourth, branches: rows[0], paths: rows.slice(1), count: readGraph(fourth).count };
  }
  const count = Number(third);
  const heads = [];
  const lists = [];
  for (const line of lines.slice(1, count + 1)) {
    const [head, tail = ""] = line.split(":");
    heads.push((head.match(/-?\d+/g) || []).map(Number));
    lists.push(tail.trim() ? tail.trim().split(" ").map(Number) : []);
  }
  if (heads.length < count) return null;
  figure.count = count;
  figure.lists = lists;
  if (job === "bars") {
    figure.bars = heads.map(([, y, a, b]) => ({ y, a, b }));
    figure.columns = (lines[count + 1] || "").split(" ").slice(1).map(Number);
  } else if (job === "rect") figure.rects = heads.map(([, a, b, c, d]) => ({ a, b, c, d }));
  else figure.places = heads.map(([, x, y]) => [x, y]);
  return figure;
}

// Says whether each list of a figure names its vertices, and each entry stands in both lists.
export function isMap(figure) {
  const known = figure.lists.map((list) => new Set(list));
  return figure.lists.every((list, v) => list.every((u) => u >= 1 && u <= figure.count && known[u - 1].has(v + 1)));
}

// Returns graph6 as a number of vertices and its edges, numbered from 1.
export function readGraph(line) {
  const six = [...line].map((it) => it.charCodeAt(0) - 63);
  const wide = six[0] === 63;
  const count = wide ? (six[1] << 12) | (six[2] << 6) | six[3] : six[0];
  const edges = [];
  let bit = (wide ? 4 : 1) * 6;
  for (let v = 2; v <= count; v++)
    for (let u = 1; u < v; u++, bit++) if ((six[Math.floor(bit / 6)] >> (5 - (bit % 6))) & 1) edges.push([u, v]);
  return { count, edges };
}

// Returns planar_code of the triangulation that `gen --size SIZE --number NUMBER` makes.
export function madeMap(size, number) {
  const lists = [[2, 3], [3, 1], [1, 2]];
  const faces = [[1, 3, 2]];
  let z = BigInt(number);
  for (let k = 4; k <= size; k++) {
    z = (z * 1103515245n + 12345n) % 4294967296n;
    const i = Number((z / 65536n) % BigInt(faces.length));
    const [a, b, c] = faces[i];
    lists.push([a, c, b]);
    for (const [v, after] of [[a, c], [b, a], [c, b]]) lists[v - 1].splice(lists[v - 1].indexOf(after) + 1, 0, k);
    faces[i] = [a, b, k];
    faces.push([b, c, k], [c, a, k]);
  }
  return codeOf(lists);
}

// Returns planar_code of the lists of a map.
export function codeOf(lists) {
  const size = lists.length;
  const numbers = size > 255 ? (list) => [...list.flatMap((u) => [u >> 8, u & 255]), 0, 0] : (list) => [...list, 0];
  const count = size > 255 ? [0, size >> 8, size & 255] : [size];
  return joined([PLANAR_HEADER, Uint8Array.from(count), ...lists.map((list) => Uint8Array.from(numbers(list)))]);
}
