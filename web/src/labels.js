// Where the numbers of a picture's vertices have room, by the same rules as the Python package's pictures.

export const DIGIT = 0.6; // the width of a digit, in its height
const ROUND = 0.8; // the radius of a dot with a number within, in the height of the number
const LEAST_WITHIN = 7.6; // the least height of a number within a dot, in a picture whose longer side is 400

const NARROW = "ijltfrI.,;:'|!()[] ";
const BROAD = "mwMW@%";
const EAST = "\u1100-\u115f\u2e80-\u303e\u3041-\ua4cf\uac00-\ud7a3\uf900-\ufaff\ufe30-\ufe6f\uff01-\uff60\uffe0-\uffe6";
const FULL = new RegExp(`[${EAST}]|\\p{Emoji_Presentation}`, "u");

// Returns about how wide a text is, in its height; digits are as wide as they are in Helvetica, other letters a little more.
export function textWidth(text) {
  const widthOf = (letter) => {
    if (/[0-9]/.test(letter)) return DIGIT;
    if (/\p{M}/u.test(letter)) return 0;
    if (FULL.test(letter)) return 1.05;
    if (NARROW.includes(letter)) return 0.32;
    return BROAD.includes(letter) ? 0.92 : /\p{Lu}/u.test(letter) ? 0.74 : 0.6;
  };
  return [...text].reduce((sum, letter) => sum + widthOf(letter), 0);
}

// Returns the least distance of two dots, and that of a dot and a line which does not end there.
function rooms(dots, edges) {
  let apart = Infinity;
  let aside = Infinity;
  dots.forEach(([x, y], k) => {
    for (const [p, q] of dots.slice(0, k)) apart = Math.min(apart, Math.hypot(x - p, y - q));
  });
  for (const [a, b] of edges) {
    const [[x1, y1], [x2, y2]] = [dots[a - 1], dots[b - 1]];
    const [dx, dy] = [x2 - x1, y2 - y1];
    const square = dx * dx + dy * dy;
    if (square)
      dots.forEach(([x, y], k) => {
        if (k + 1 === a || k + 1 === b) return;
        const part = Math.min(1, Math.max(0, ((x - x1) * dx + (y - y1) * dy) / square));
        aside = Math.min(aside, Math.hypot(x - x1 - part * dx, y - y1 - part * dy));
      });
  }
  return [apart, aside];
}

// Returns the height of numbers of at most `size` within the dots and the radius of these, or null where the dots
// would touch each other or a line. `scale` is the picture's, to that of 400 pixels.
export function within(dots, edges, size, scale) {
  const [apart, aside] = rooms(dots, edges);
  const room = Math.min(apart / 2 - 0.8 * scale, aside - 1.6 * scale);
  const height = Math.min(size, room / ROUND);
  return height >= LEAST_WITHIN * scale ? { height, radius: height * ROUND } : null;
}

// Returns the radius of dots of at most `radius`: less where lines pass close by, but so that they are still seen.
export function dotRadius(dots, edges, radius) {
  if (dots.length > 100) return radius;
  const [apart, aside] = rooms(dots, edges);
  return Math.max(0.6 * radius, Math.min(radius, 0.45 * apart, 0.8 * aside));
}

// Boxes and lines by the cells of a square lattice, so that those near a box are found at once.
class Cells {
  constructor(cell) {
    Object.assign(this, { cell, boxes: new Map(), lines: new Map() });
  }

  // Returns the keys of the cells that a box meets.
  of([left, top, right, bottom]) {
    const found = [];
    for (let i = Math.floor(left / this.cell); i <= Math.floor(right / this.cell); i++)
      for (let j = Math.floor(top / this.cell); j <= Math.floor(bottom / this.cell); j++) found.push(i * 65536 + j);
    return found;
  }

  // Puts a box that belongs to vertex `v`.
  put(box, v) {
    for (const key of this.of(box)) entry(this.boxes, key).push([box, v]);
  }

  // Puts line `k`, column by column of the cells.
  putLine(k, one, other) {
    const isFirst = one[0] < other[0] || (one[0] === other[0] && one[1] <= other[1]);
    const [[x1, y1], [x2, y2]] = isFirst ? [one, other] : [other, one];
    const height = (x) => y1 + ((x - x1) * (y2 - y1)) / (x2 - x1);
    for (let i = Math.floor(x1 / this.cell); i <= Math.floor(x2 / this.cell); i++) {
      const ends = [Math.max(x1, i * this.cell), Math.min(x2, (i + 1) * this.cell)];
      const ys = x1 === x2 ? [y1, y2] : ends.map(height);
      for (let j = Math.floor(Math.min(...ys) / this.cell); j <= Math.floor(Math.max(...ys) / this.cell); j++)
        entry(this.lines, i * 65536 + j).push(k);
    }
  }

  // Says whether no box of another vertex than `v` meets this one.
  isFree(box, v) {
    const isApart = (other) => box[0] >= other[2] || other[0] >= box[2] || box[1] >= other[3] || other[1] >= box[3];
    return this.of(box).every((key) => (this.boxes.get(key) || []).every(([other, u]) => u === v || isApart(other)));
  }

  // Returns the lines that meet a cell of the box.
  linesNear(box) {
    return new Set(this.of(box).flatMap((key) => this.lines.get(key) || []));
  }
}

function entry(map, key) {
  if (!map.has(key)) map.set(key, []);
  return map.get(key);
}

// Says whether a line has a point in a box.
function crosses(box, one, other) {
  let [least, most] = [0, 1];
  for (const k of [0, 1]) {
    const [start, step] = [one[k], other[k] - one[k]];
    if (step === 0) {
      if (start < box[k] || start > box[k + 2]) return false;
      continue;
    }
    const ends = [(box[k] - start) / step, (box[k + 2] - start) / step];
    least = Math.max(least, Math.min(...ends));
    most = Math.min(most, Math.max(...ends));
  }
  return least <= most;
}

// Returns the angle between two directions, at most half a turn.
function between(turn, other) {
  const apart = turn - other;
  return Math.abs(apart - 2 * Math.PI * Math.round(apart / (2 * Math.PI)));
}

// Returns the numbers of vertices that have room beside their dots, each with its middle. Of sixteen directions round a
// dot those that cover fewest lines come first, and of these the one farthest from the dot's own lines. A number is left
// out where it would cover a dot or a number each time. `names` are what stands beside the dots.
export function labelPlaces(dots, edges, names, radius, size) {
  const cells = new Cells(2 * size);
  const apart = radius + (dots.length > 100 ? 0.6 * size : 0.06 * size);
  const around = dots.map(() => []);
  edges.forEach(([a, b], k) => {
    const [one, other] = [dots[a - 1], dots[b - 1]];
    cells.putLine(k, one, other);
    const turn = Math.atan2(other[1] - one[1], other[0] - one[0]);
    around[a - 1].push(turn);
    around[b - 1].push(turn + Math.PI);
  });
  dots.forEach(([x, y], k) => cells.put([x - apart, y - apart, x + apart, y + apart], k + 1));
  const found = [];
  dots.forEach(([x, y], k) => {
    const half = (textWidth(names[k]) / 2) * size + 0.06 * size;
    let best = null;
    for (let i = 0; i < 16; i++) {
      const turn = (i * Math.PI) / 8;
      const at = [x + Math.cos(turn) * (radius + half + 0.1 * size), y + Math.sin(turn) * (radius + 0.48 * size)];
      const box = [at[0] - half, at[1] - 0.42 * size, at[0] + half, at[1] + 0.42 * size];
      if (!cells.isFree(box, k + 1)) continue;
      const covered = [...cells.linesNear(box)].filter((e) => crosses(box, dots[edges[e][0] - 1], dots[edges[e][1] - 1])).length;
      const aside = Math.min(4, ...around[k].map((other) => between(turn, other)));
      const choice = [covered, around[k].length ? -aside : -4, ...at];
      if (!best || isLess(choice, best.choice)) best = { choice, at, box };
    }
    if (best) {
      cells.put(best.box, k + 1);
      found.push([k, best.at]);
    }
  });
  return found;
}

// Says whether one list of numbers comes before another of the same length.
function isLess(one, other) {
  const k = one.findIndex((value, i) => value !== other[i]);
  return k >= 0 && one[k] < other[k];
}
