// Pigale in JavaScript: plane maps counted, drawn and judged, and graphs embedded, by the proved library as WebAssembly.
//
// A map is a list of lists: the neighbours of each vertex in clockwise order, vertices numbered from 1. A graph is an object
// with `n`, its number of vertices, and `edges`, pairs of vertices from 1; or a line of graph6.
import { said, stopped } from "./lib/answers.js";
import { asBytes, asText, joined } from "./lib/bytes.js";
import { Engine } from "./lib/engine.js";
import { blocksOf, codeOf, readFigure } from "./lib/figures.js";
import { PLANAR_HEADER } from "./lib/formats.js";
import { writeGraph6 } from "./lib/graphs.js";
import { pictureDocument } from "./lib/pictures.js";

export { Runner } from "./runner.js";

const BAD_WORDS = 2;
const BAD_INPUT = 3;
const MOST_EMBEDDED = 255; // vertices of a graph that `embed` reads
const KINDS = { embed: "graphs", verify: "figures" }; // what a job reads; all others read maps

// Says that a run ended with a status above 1. `status` and `text` are those of the run.
export class PigaleError extends Error {
  constructor(words, status, text) {
    const [last, name, at] = text.slice(text.lastIndexOf("\n", text.length - 2) + 1).trim().split(" ");
    const why =
      status === BAD_WORDS ? "there are no such words" : status === BAD_INPUT && last === "stop" ? stopped(KINDS[words.split(" ")[0]] || "maps", [name, at]) : "there was not enough memory";
    super(`pigale ${words} ended with status ${status}: ${why}`);
    this.name = "PigaleError";
    Object.assign(this, { status, text });
  }
}

let loaded;

// Loads the module, once, and returns the engine that runs it. `source` is its bytes, a Response or a URL; by default it is
// the file of this package.
export function ready(source) {
  loaded ||= bytesOf(source ?? new URL("lib/pigale.wasm", import.meta.url)).then((bytes) => Engine.of(bytes));
  return loaded;
}

async function bytesOf(source) {
  if (source instanceof ArrayBuffer || ArrayBuffer.isView(source)) return source;
  const url = source instanceof URL || typeof source === "string" ? new URL(source, import.meta.url) : null;
  if (url?.protocol === "file:" && globalThis.process?.versions?.node) {
    const { readFile } = await import(/* webpackIgnore: true */ /* @vite-ignore */ "node:fs/promises");
    return readFile(url);
  }
  return (await (url ? fetch(url) : source)).arrayBuffer();
}

// Runs the program over an input, a text or bytes of at most 16 MiB. Returns its status and its text.
export async function run(words, input = "") {
  const engine = await ready();
  const { status, text } = engine.answer(words, typeof input === "string" ? asBytes(input) : input);
  return { status, text: asText(text) };
}

// Returns what a run answers to each record; throws PigaleError where its status is above 1.
async function answers(words, input) {
  const { status, text } = await run(words, input);
  if (status > 1) throw new PigaleError(words, status, text);
  return blocksOf(text)
    .filter(([line]) => !line.startsWith("end "))
    .map(readAnswer);
}

function readAnswer(lines) {
  const [word, , name, ...rest] = lines[0].split(" ");
  if (word === "figure") return readFigure(lines);
  if (word === "refused") return { refused: rest[0], vertices: rest.slice(1).map(Number), why: said(lines[0]) };
  if (word === "verdict") return { isValid: name === "yes", fault: name === "yes" ? null : name, vertices: rest.map(Number), why: said(lines[0]) };
  const words = lines[0].split(" ").slice(2);
  return Object.fromEntries([0, 2, 4, 6, 8].map((k) => [words[k], Number(words[k + 1])]));
}

function codeOfMaps(maps) {
  if (maps instanceof Uint8Array) return maps;
  return joined([PLANAR_HEADER, ...maps.map((lists) => codeOf(lists).subarray(PLANAR_HEADER.length))]);
}

function linesOf(records, line) {
  if (records instanceof Uint8Array || typeof records === "string") return records;
  return records.map((it) => `${line(it)}\n`).join("");
}

// Returns graph6 of a graph.
export function graph6({ n, edges }) {
  if (n > MOST_EMBEDDED) throw new RangeError(`a graph has ${n} vertices, and at most ${MOST_EMBEDDED} are embedded`);
  for (const [u, v] of edges) if (u === v || ![u, v].every((it) => Number.isInteger(it) && it >= 1 && it <= n)) throw new RangeError(`${u}, ${v} is no edge of ${n} vertices`);
  return writeGraph6(n, edges);
}

// Counts maps of any genus: for each its numbers of vertices, edges, faces and components, and its genus.
export const count = (maps) => answers("count", codeOfMaps(maps));

// Draws maps by "schnyder", "shift", "convex", "bars" or "rect": a figure for each, or the condition that it breaks first.
export const draw = (maps, job = "schnyder") => answers(job, codeOfMaps(maps));

// Finds for each graph a plane map and its drawing, or a subdivision of K5 or K3,3.
export const embed = (graphs) => answers("embed", linesOf(graphs, (it) => (typeof it === "string" ? it : graph6(it))));

// Judges figures, as `draw` returns them or as text: whether each is valid, or its first fault.
export const verify = (figures) => answers("verify", linesOf(figures, (it) => (typeof it === "string" ? it.trimEnd() : it.lines.join("\n"))));

// Returns the picture of a figure as an SVG document. `look` may have its `side` in pixels, `names`, a list of what vertices
// are called, and whether it is `equilateral` and has `faces` painted.
export const svg = (figure, look) => pictureDocument(figure, look);

// Places the nodes of any graph so that no two links cross, on a grid. Nodes are ids or have an `id`; the ends of links are
// ids, or nodes, as D3 makes of them. Loops and repeated links are passed over. Returns places and the clockwise order of
// neighbours, by id; or the paths of a subdivision of K5 or K3,3, for which there are no such places.
export async function planarLayout(nodes, links) {
  const ids = Array.from(nodes, (it) => it?.id ?? it);
  const number = new Map(ids.map((id, k) => [id, k + 1]));
  const end = (it) => {
    const found = number.get(it?.id ?? it);
    if (!found) throw new RangeError(`a link ends at ${String(it?.id ?? it)}, which is no node`);
    return found;
  };
  const edges = Array.from(links, ({ source, target }) => [end(source), end(target)]).filter(([u, v]) => u !== v);
  if (ids.length < 3) return placedInRow(ids, edges);
  const [figure] = await embed([{ n: ids.length, edges }]);
  if (figure.job === "witness") return { isPlanar: false, kind: figure.kind, paths: figure.paths.map((path) => path.map((v) => ids[v - 1])) };
  const byId = (list) => new Map(ids.map((id, k) => [id, list[k]]));
  return { isPlanar: true, places: byId(figure.places), rotations: byId(figure.lists.map((list) => list.map((v) => ids[v - 1]))) };
}

function placedInRow(ids, edges) {
  const others = (id) => (edges.length ? ids.filter((it) => it !== id) : []);
  return { isPlanar: true, places: new Map(ids.map((id, k) => [id, [k, 0]])), rotations: new Map(ids.map((id) => [id, others(id)])) };
}
