// Graphs as people write them: edge lists, adjacency lists, matrices, graph6, sparse6, DOT, GraphML and JSON, with names kept.

import { readGraph } from "./figures.js";
import { isGraphLine } from "./formats.js";
import { readDot, readGraphml, readJson } from "./graph_files.js";

const NAMED = /\s*["']?([^\s,;(){}[\]"']+)["']?\s*/.source;
const PAIR = new RegExp(`[({[]${NAMED}[,;\\s]${NAMED}(?:,\\s*\\{[^}]*\\}\\s*)?[)}\\]]`, "g"); // {0,1}, (a, b), (1, 2, {})
const DASH = /\s*(?:<?-{1,2}>?|[–—→])\s*/;

const EDGE = "An edge is two names, as in 1 2, a-b or {0,1}.";

// Says why a text is no graph, and in which line.
export class GraphFault extends Error {
  constructor(message, line) {
    super(line ? `Line ${line.toLocaleString("en")}: ${message}` : message);
    this.line = line;
  }
}

// Returns the graph of a text: the `names` of its vertices, its `edges` as pairs of their numbers from 1, what `format` it
// was read in, and how many loops and repeated edges were left out (`dropped`). Throws GraphFault where it is none.
export function readGraphText(text) {
  const plain = text.replace(/^\uFEFF/, "").replace(/\r\n?/g, "\n").trim();
  if (!plain) throw new GraphFault("There is no graph yet.");
  const found =
    /^(>>sparse6<<)?:/.test(plain) ? readSparse6(plain.replace(/^>>sparse6<<\n?/, ""))
    : isDot(plain) ? { format: "DOT", ...readDot(plain, GraphFault) }
    : /^<[^>]*[?!g]/.test(plain) && /<(\w+:)?graphml\b/.test(plain) ? { format: "GraphML", ...readGraphml(plain, GraphFault) }
    : /^[{[]/.test(plain) && isJson(plain) ? readJson(JSON.parse(plain), GraphFault)
    : isGraphLine(plain.replace(/^>>graph6<<\n?/, "")) ? readGraph6(plain.replace(/^>>graph6<<\n?/, ""))
    : readMatrix(plain) || readAdjacency(plain) || readEdges(plain);
  return simple(found);
}

// Says whether a text is DOT: behind comments it begins with a graph and a bracket.
function isDot(text) {
  return /^(strict\s+)?(di)?graph\b[^{;]*\{/i.test(text.replace(/^(\s|\/\/[^\n]*\n|#[^\n]*\n|\/\*[^]*?\*\/)+/, ""));
}

function isJson(text) {
  try {
    JSON.parse(text);
    return true;
  } catch {
    return false;
  }
}

// Returns a graph with its vertices numbered: by their numbers where all names are numbers, and else as they come.
function simple({ names = [], pairs, format }) {
  const all = [...new Set([...names, ...pairs.flat()].map(String))];
  if (all.every((name) => /^\d{1,9}$/.test(name))) all.sort((a, b) => a - b);
  const number = new Map(all.map((name, k) => [name, k + 1]));
  const seen = new Set();
  const edges = [];
  for (const [one, other] of pairs) {
    const [v, u] = [number.get(String(one)), number.get(String(other))].sort((a, b) => a - b);
    const key = v * 65536 + u;
    if (v === u || seen.has(key)) continue;
    seen.add(key);
    edges.push([v, u]);
  }
  edges.sort((p, q) => p[0] - q[0] || p[1] - q[1]);
  return { names: all, edges, format, dropped: pairs.length - edges.length };
}

function readGraph6(line) {
  const { count, edges } = readGraph(line);
  return { format: "graph6", names: numbers(count, 1), pairs: edges };
}

function numbers(count, from) {
  return Array.from({ length: count }, (_, k) => k + from);
}

// Returns graph6 of the graphs of lines of sparse6, a graph a line; or null where the text is not of several such lines.
export function sparse6Lines(text) {
  const lines = text.replace(/\r\n?/g, "\n").replace(/^>>sparse6<<\n?/, "").split("\n");
  if (!lines[0].startsWith(":") || lines.filter(Boolean).length < 2) return null;
  const found = lines.map((line, k) => {
    if (line && !line.startsWith(":")) throw new GraphFault("it is no sparse6, which begins with a colon.", k + 1);
    return line && graphLine(readSparse6(line, k + 1));
  });
  return `${found.filter(Boolean).join("\n")}\n`;
}

function graphLine(found) {
  const { names, edges } = simple(found);
  return writeGraph6(names.length, edges);
}

// Returns the graph of a line of sparse6: a bit that goes on to the next vertex, and a vertex, again and again.
function readSparse6(text, number = 1) {
  const [line, ...more] = text.trim().split("\n");
  if (more.length) throw new GraphFault("another graph follows; one at a time is read.", number + 1);
  const six = [...line.slice(1)].map((it) => it.charCodeAt(0) - 63);
  if (six.some((it) => it < 0 || it > 63)) throw new GraphFault("a byte is none of sparse6.", number);
  const wide = six[0] === 63;
  const isCut = !six.length || (wide && (six.length < 4 || six[1] === 63));
  if (isCut) throw new GraphFault("the number of vertices is cut off, or too large.", number);
  const count = wide ? (six[1] << 12) | (six[2] << 6) | six[3] : six[0];
  const bits = six.slice(wide ? 4 : 1).flatMap((it) => [5, 4, 3, 2, 1, 0].map((k) => (it >> k) & 1));
  const width = Math.max(1, Math.ceil(Math.log2(Math.max(count, 1))));
  const pairs = [];
  for (let [at, v] = [0, 0]; at + 1 + width <= bits.length; at += 1 + width) {
    v += bits[at];
    const u = bits.slice(at + 1, at + 1 + width).reduce((sum, bit) => 2 * sum + bit, 0);
    if (v >= count || u >= count) break;
    if (u > v) v = u;
    else pairs.push([u + 1, v + 1]);
  }
  return { format: "sparse6", names: numbers(count, 1), pairs };
}

// Returns the graph of a square of zeros and ones, with or without gaps; or null where the text is none.
function readMatrix(text) {
  const lines = text.split("\n").map((line) => line.trim().replace(/^[[{(]+|[\]})]+[,;]?$/g, "").trim());
  const rows = lines.filter(Boolean).map((line) => (/^[01]+$/.test(line) ? [...line] : line.split(/[\s,;&|]+/).filter(Boolean)));
  const isSquare = rows.length > 1 && rows.every((row) => row.length === rows.length && row.every((it) => /^[01]$/.test(it)));
  if (!isSquare) return null;
  rows.forEach((row, v) =>
    row.forEach((it, u) => {
      const place = `row ${v + 1}, column ${u + 1}`;
      if (it !== rows[u][v]) throw new GraphFault(`the matrix has ${it} in ${place}, and ${rows[u][v]} the other way round.`);
    }),
  );
  const pairs = rows.flatMap((row, v) => row.flatMap((it, u) => (it === "1" && u >= v ? [[v + 1, u + 1]] : [])));
  return { format: "a matrix", names: numbers(rows.length, 1), pairs };
}

function codeLines(text) {
  return text.split("\n").map((line, k) => [line.replace(/(^|\s)[#%].*|\/\/.*/, "").trim(), k + 1]).filter(([line]) => line);
}

// Returns the graph of lines such as `1: 2 3`, or where a line has more than two names, such as `1 2 3`; or null.
function readAdjacency(text) {
  const lines = codeLines(text);
  const hasColons = lines.every(([line]) => /^[^\s:,{}()[\]]+\s*:/.test(line));
  const split = lines.map(([line]) => line.split(/[\s,;]+/).filter(Boolean));
  const isWeighted = (words) => words.length === 3 && /^-?\d*\.\d+$/.test(words[2]);
  const isBare = lines.length > 1 && lines.every(([line]) => /^[\w.]+(\s+[\w.]+)*$/.test(line));
  if (!hasColons && !(isBare && split.some((words) => words.length > 2 && !isWeighted(words)))) return null;
  const parted = (line) => {
    const [head, tail] = line.split(/\s*:\s*/, 2);
    return [head, ...tail.split(/[\s,;{}()[\]]+/).filter(Boolean)];
  };
  const rows = hasColons ? lines.map(([line]) => parted(line)) : split;
  // Each edge stands in both lists: the second time is no repetition.
  const seen = new Set();
  const pairs = [];
  for (const [head, ...tail] of rows)
    for (const name of tail) {
      if (seen.has(`${name} ${head}`) && !seen.has(`${head} ${name}`)) {
        seen.add(`${head} ${name}`);
        continue;
      }
      seen.add(`${head} ${name}`);
      pairs.push([head, name]);
    }
  return { format: "adjacency lists", names: rows.flat(), pairs };
}

// Returns the graph of pairs in brackets, or of lines and pieces such as `1 2`, `a -- b` and `a-b-c`.
function readEdges(text) {
  const bracketed = [...text.matchAll(PAIR)].map(([, one, other]) => [one, other]);
  if (bracketed.length && !/[^\s,;(){}[\]=A-Za-z]/.test(text.replace(PAIR, ""))) return { format: "pairs", pairs: bracketed };
  const pairs = [];
  const names = [];
  for (const [line, number] of codeLines(text))
    for (const piece of line.replace(/\{[^}]*\}\s*$/, "").split(/[,;]/).map((it) => it.trim()).filter(Boolean)) {
      const path = DASH.test(piece) ? piece.split(DASH) : piece.split(/\s+/).slice(0, /^\S+\s+\S+\s+-?[\d.]+$/.test(piece) ? 2 : undefined);
      if (path.some((name) => !name)) throw new GraphFault(`“${piece.slice(0, 40)}” lacks a vertex at a dash.`, number);
      names.push(...path);
      if (path.length > 2 && !DASH.test(piece)) throw new GraphFault(`“${piece.slice(0, 40)}” is no edge. ${EDGE}`, number);
      for (let k = 1; k < path.length; k++) pairs.push([path[k - 1], path[k]]);
    }
  if (!pairs.length) throw new GraphFault(`There is no edge in it. ${EDGE}`);
  return { format: "edges", names, pairs };
}

// Returns graph6 of a graph, with its edges as pairs of numbers from 1.
export function writeGraph6(count, edges) {
  const six = count < 63 ? [count] : [63, count >> 12, (count >> 6) & 63, count & 63];
  const head = six.length;
  six.length += Math.ceil((count * (count - 1)) / 12);
  six.fill(0, head);
  for (const [one, other] of edges) {
    const [u, v] = one < other ? [one, other] : [other, one];
    const bit = ((v - 1) * (v - 2)) / 2 + u - 1;
    six[head + Math.floor(bit / 6)] |= 32 >> bit % 6;
  }
  return six.map((it) => String.fromCharCode(it + 63)).join("");
}
