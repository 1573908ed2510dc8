// Round drawings: the outer face on a circle, and each other vertex at the weighted middle of its neighbours. Floats propose
// places in whole numbers, and the module judges them. The Python package has the same numbers.

import { facesOf } from "./pictures.js";

export const PULLS = [1, 1.5, 2.2, 3]; // how many times more an edge weighs at each step towards the outer face
export const SIZES = [1000, 1000000]; // of the grid

// Returns the distance of each vertex from the outer walk.
function depths(lists, outer) {
  const depth = lists.map(() => -1);
  for (const v of outer) depth[v - 1] = 0;
  for (let front = [...outer]; front.length; ) {
    const next = [];
    for (const v of front)
      for (const u of lists[v - 1])
        if (depth[u - 1] < 0) {
          depth[u - 1] = depth[v - 1] + 1;
          next.push(u);
        }
    front = next;
  }
  return depth;
}

// Returns the weight of each edge, in a map for each vertex.
function weights(lists, outer, pull) {
  const depth = depths(lists, outer);
  const powers = [1];
  for (let k = 1; k <= Math.max(...depth); k++) powers.push(powers[k - 1] / pull);
  return lists.map((list, k) => new Map(list.map((u) => [u, powers[Math.min(depth[k], depth[u - 1])]])));
}

// Takes the inner vertices out one by one, each time one of least degree and of these the least: where a vertex is gone,
// each two of its neighbours are joined by what led over it. Nothing is subtracted, so nothing cancels.
function eliminated(around, isOuter) {
  const steps = [];
  const queue = new Queue();
  const isGone = [...isOuter];
  around.forEach((_, k) => isOuter[k] || queue.push([around[k].size, k + 1]));
  for (let least = queue.pop(); least; least = queue.pop()) {
    const [degree, v] = least;
    if (isGone[v - 1] || around[v - 1].size !== degree) continue;
    isGone[v - 1] = true;
    const us = [...around[v - 1].keys()].sort((a, b) => a - b);
    const ws = us.map((u) => around[v - 1].get(u));
    const sum = ws.reduce((total, w) => total + w, 0);
    steps.push([v, us, ws, sum]);
    for (const u of us) around[u - 1].delete(v);
    us.forEach((u, i) => {
      for (let j = i + 1; j < us.length; j++) {
        if (isOuter[u - 1] && isOuter[us[j] - 1]) continue;
        const weight = (around[u - 1].get(us[j]) || 0) + (ws[i] * ws[j]) / sum;
        around[u - 1].set(us[j], weight);
        around[us[j] - 1].set(u, weight);
      }
    });
    for (const u of us) if (!isOuter[u - 1]) queue.push([around[u - 1].size, u]);
  }
  return steps;
}

// A heap of pairs, the least of which comes first.
class Queue {
  heap = [];

  push(pair) {
    this.heap.push(pair);
    for (let k = this.heap.length - 1; k && this.isLess(k, (k - 1) >> 1); k = (k - 1) >> 1) this.swap(k, (k - 1) >> 1);
  }

  pop() {
    this.swap(0, this.heap.length - 1);
    const found = this.heap.pop();
    for (let k = 0; ; ) {
      const least = [2 * k + 1, 2 * k + 2].reduce((best, it) => (it < this.heap.length && this.isLess(it, best) ? it : best), k);
      if (least === k) return found;
      this.swap(k, least);
      k = least;
    }
  }

  isLess(k, other) {
    const [[a, v], [b, u]] = [this.heap[k], this.heap[other]];
    return a < b || (a === b && v < u);
  }

  swap(k, other) {
    if (other > 0 || k > 0) [this.heap[k], this.heap[other]] = [this.heap[other], this.heap[k]];
  }
}

// Returns the outer walk of a map with what it is drawn within: lists, and the vertices on the circle. A walk that passes a
// vertex twice has a ring of new vertices round it, each joined to two that follow each other on the walk.
function ringed(lists) {
  const [walk] = facesOf(lists);
  if (new Set(walk).size === walk.length) return [lists, walk];
  const found = lists.map((list) => [...list]);
  const ring = walk.map((v, k) => {
    const ends = [v, walk[(k + 1) % walk.length]];
    found.push(ends);
    for (const u of ends) found[u - 1].push(found.length);
    return found.length;
  });
  return [found, ring];
}

// Returns lists with a vertex more in each inner face of more than three, joined to each of its vertices once.
function filled(lists, faces) {
  const found = lists.map((list) => [...list]);
  for (const walk of faces.slice(1)) {
    if (walk.length < 4) continue;
    const corners = [...new Set(walk)];
    found.push(corners);
    for (const v of corners) found[v - 1].push(found.length);
  }
  return found;
}

// Returns places as floats, with the outer walk of `lists` on the circle about 0 of radius 1.
export function roundFloats(lists, pull, isFilled = false) {
  const [ring, outer] = ringed(lists);
  const given = isFilled ? filled(ring, facesOf(lists)) : ring;
  const first = outer.length === 4 ? (5 * Math.PI) / 4 : Math.PI / 2;
  const isOuter = given.map(() => false);
  const [x, y] = [new Float64Array(given.length), new Float64Array(given.length)];
  outer.forEach((v, k) => {
    // The outer walk has its face on the left, so it goes clockwise round the drawing.
    const turn = first - (2 * Math.PI * k) / outer.length;
    [x[v - 1], y[v - 1], isOuter[v - 1]] = [Math.cos(turn), Math.sin(turn), true];
  });
  for (const [v, us, ws, sum] of eliminated(weights(given, outer, pull), isOuter).reverse()) {
    let [across, up] = [0, 0];
    us.forEach((u, i) => {
      across += ws[i] * x[u - 1];
      up += ws[i] * y[u - 1];
    });
    [x[v - 1], y[v - 1]] = [across / sum, up / sum];
  }
  return lists.map((_, k) => [x[k], y[k]]);
}

// Returns the places in whole numbers from 0 to `size`.
export function rounded(floats, size) {
  const whole = (z) => Math.floor(((z + 1) / 2) * size + 0.5);
  return floats.map(([x, y]) => [whole(x), whole(y)]);
}

function shortestEdge(lists, floats) {
  let least = Infinity;
  lists.forEach((list, k) => {
    for (const u of list) {
      const [dx, dy] = [floats[k][0] - floats[u - 1][0], floats[k][1] - floats[u - 1][1]];
      least = Math.min(least, Math.sqrt(dx * dx + dy * dy));
    }
  });
  return least;
}

// Returns a round drawing of a connected map that `isGood(places, size)` says yes to, with its size and its pull; or null
// where there is none. Of several pulls the one with the longest shortest edge is taken.
export function roundDrawing(lists, isGood, pulls = PULLS, fillings = [false, true]) {
  const faces = facesOf(lists);
  if (lists.length < 3 || lists.some((list) => !list.length)) return null;
  if (faces.every((walk, f) => !f || walk.length < 4)) fillings = fillings.slice(0, 1);
  const made = new Map();
  const floatsOf = (pull, isFilled) => {
    const key = `${pull} ${isFilled}`;
    if (!made.has(key)) made.set(key, roundFloats(lists, pull, isFilled));
    return made.get(key);
  };
  for (const size of SIZES)
    for (const isFilled of fillings) {
      let best = null;
      for (const pull of pulls) {
        const floats = floatsOf(pull, isFilled);
        const least = shortestEdge(lists, floats);
        if (best && least <= best.least) continue;
        const places = rounded(floats, size);
        if (isGood(places, size)) best = { places, size, pull, isFilled, least };
      }
      if (best) return best;
    }
  return null;
}
