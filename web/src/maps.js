// Plane maps with what the module says of them: drawings, orders, woods, labellings, and the judgement of places.

import { arraysOf, edgeArray, listsOf } from "./calls.js";
import { rectLabels } from "./methods.js";
import { edgesOf, facesOf } from "./pictures.js";

const MOST_VERTICES = 4095; // of a graph or a map
const MOST_PLACE = 1 << 20; // coordinates that are judged reach to this

// A map by its lists, with vertices from 1; `names` are what its vertices are called, and `origin` has the number that each
// had in the map that was given.
export class PlaneMap {
  constructor(calls, lists, names, origin = lists.map((_, k) => k + 1)) {
    Object.assign(this, { calls, lists, origin, count: lists.length, arrays: arraysOf(lists), made: new Map() });
    this.names = names || origin.map(String);
    this.edges = edgesOf(lists);
    this.faces = facesOf(lists);
  }

  // Returns what `make` makes, once for each name.
  once(name, make) {
    if (!this.made.has(name)) this.made.set(name, make());
    return this.made.get(name);
  }

  ask(name, ...outs) {
    return this.calls.call(name, ...this.arrays, ...outs);
  }

  integers(length = this.count) {
    return new Int32Array(length);
  }

  // Returns the figure of a job as `readFigure` does, or where the map is refused its condition as `refused`.
  figure(job) {
    return this.once(job, () => {
      const { count, lists } = this;
      const [outs, figure] = job === "bars" ? this.bars() : job === "rect" ? this.rects() : this.grid();
      const { name, numbers } = this.ask(job, ...outs);
      return name === "OK" ? { job, count, lists, ...figure() } : { job, refused: name, numbers };
    });
  }

  grid() {
    const [x, y] = [this.integers(), this.integers()];
    return [[x, y], () => ({ places: Array.from(x, (across, k) => [across, y[k]]) })];
  }

  bars() {
    const [y, x1, x2, column] = [this.integers(), this.integers(), this.integers(), this.integers(this.edges.length)];
    return [[y, x1, x2, column], () => ({ bars: Array.from(y, (at, k) => ({ y: at, a: x1[k], b: x2[k] })), columns: [...column] })];
  }

  rects() {
    const [a, b, c, d] = [this.integers(), this.integers(), this.integers(), this.integers()];
    return [[a, b, c, d], () => ({ rects: Array.from(a, (left, k) => ({ a: left, b: b[k], c: c[k], d: d[k] })) })];
  }

  // Returns the numbers of vertices, edges, faces and components, and the genus; or null where the lists are no map.
  counts() {
    return this.once("counts", () => {
      const counts = Object.assign(new Uint32Array(5), { isOne: true });
      const { name } = this.ask("count", counts);
      const [n, m, f, c, genus] = counts;
      return name === "OK" ? { n, m, f, c, genus } : null;
    });
  }

  // Returns a canonical order of the map's completion, and the lists of that; or null where there is none.
  order() {
    return this.once("order", () => {
      const order = new Uint16Array(this.count);
      const [ends, entries] = [new BigUint64Array(this.count), new Uint16Array(Math.max(0, 6 * this.count - 12))];
      const { name } = this.inside("canonical_order", order, ends, entries);
      return name === "OK" ? { order: Array.from(order, (v) => v + 1), lists: listsOf(ends, entries) } : null;
    });
  }

  // Returns the parent of each vertex in each of the three trees of Schnyder's wood of the completion; a root is its own.
  wood() {
    return this.once("wood", () => {
      const parents = [1, 2, 3].map(() => new Uint16Array(this.count));
      const { name } = this.inside("schnyder_wood", ...parents);
      return name === "OK" ? parents.map((list) => Array.from(list, (v) => v + 1)) : null;
    });
  }

  // Returns the label of each entry of the lists in the regular edge labelling of the rectangles, or null where there are none.
  labels() {
    return this.once("labels", () => {
      const { refused, rects } = this.figure("rect");
      return refused ? null : rectLabels(this.lists, rects, this.faces[0]);
    });
  }

  // Makes a call that a module may lack.
  inside(name, ...outs) {
    return this.calls.has(name) ? this.ask(name, ...outs) : { name: "Missing", numbers: [] };
  }

  // Judges places: with the order round each vertex, within the grid from 0 to `size`.
  judge(places, size) {
    const [x, y] = coordinates(places);
    return this.ask("check", x, y, size, size);
  }

  // Judges the edges between places alone, as a drawing that was moved by hand; the places may be anywhere within the reach.
  judgeEdges(places) {
    const low = [0, 1].map((k) => Math.min(0, ...places.map((place) => place[k])));
    const [x, y] = coordinates(places.map((place) => place.map((value, k) => Math.min(MOST_PLACE, value - low[k]))));
    if (this.calls.has("check_drawing")) return this.calls.call("check_drawing", edgeArray(this.edges), x, y);
    return this.ask("check", x, y, MOST_PLACE, MOST_PLACE);
  }

  // Returns the map with the face on the left of the dart from v to u outside: v and 1 exchange their numbers.
  outside(v, u) {
    const other = (w) => (w === v ? 1 : w === 1 ? v : w);
    const lists = this.lists.map((_, k) => this.lists[other(k + 1) - 1].map(other));
    const at = lists[0].indexOf(other(u));
    lists[0] = [...lists[0].slice(at), ...lists[0].slice(0, at)];
    const moved = (list) => list.map((_, k) => list[other(k + 1) - 1]);
    return new PlaneMap(this.calls, lists, moved(this.names), moved(this.origin));
  }

  // Returns the number of the first face that has the most vertices.
  longestFace() {
    return this.faces.reduce((best, walk, f) => (walk.length > this.faces[best].length ? f : best), 0);
  }

  // Returns the vertices that a part of the map hangs on: each of them stands twice on the walk of a face.
  cutVertices() {
    const cuts = new Set();
    for (const walk of this.faces) for (const v of walk.filter((v, k) => walk.indexOf(v) < k)) cuts.add(v);
    return [...cuts].sort((a, b) => a - b);
  }
}

function coordinates(places) {
  return [0, 1].map((k) => Int32Array.from(places, (place) => place[k]));
}

// Returns the plane map of a graph of `names` and edges of vertices from 1, or the paths of a witness that it has none.
export function embedded(calls, names, edges) {
  const n = names.length;
  if (n > MOST_VERTICES) return { refused: "BadArgument", numbers: [] };
  const [ends, entries] = [new BigUint64Array(Math.max(10, n)), new Uint16Array(Math.max(2 * edges.length, 10 * n))];
  const { name, numbers } = calls.call("embed", n, edgeArray(edges), ends, entries, new Int32Array(n), new Int32Array(n));
  if (name === "OK") return { map: new PlaneMap(calls, listsOf(ends.subarray(0, n), entries), names) };
  if (name === "K5" || name === "K33") return { witness: { kind: name, paths: listsOf(ends.subarray(0, name === "K5" ? 10 : 9), entries) } };
  return { refused: name, numbers };
}
