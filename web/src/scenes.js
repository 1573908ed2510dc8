// Scenes: what of a picture lies at a place, and marks over a vertex, an edge or a face.

import { num } from "./pens.js";

const NEAR = 9; // pixels by which a vertex is met beside its dot
const CLOSE = 4; // and an edge beside its line

export class Scene {
  // `scene` is a picture's, and `map` has the edges, the faces and the number of the outer one (`outer`).
  constructor(scene, map, outer = 0) {
    Object.assign(this, scene, { map, outer });
  }

  // Returns what lies at a place, by preference a vertex, then an edge, then a face: { v }, { e } or { f }, or null. One
  // pixel of the screen is `unit` of the picture.
  at(place, unit = 1) {
    const v = this.vertexAt(place, NEAR * unit);
    if (v) return { v };
    const e = this.pairs.findIndex(([p, q]) => distance(place, p, q) < CLOSE * unit);
    if (e >= 0 && !this.isTiled()) return { e };
    const f = this.spots && !this.boxes ? this.faceAt(place) : -1;
    return f >= 0 ? { f } : null;
  }

  isTiled() {
    return Boolean(this.boxes && this.spots);
  }

  vertexAt([x, y], near) {
    const isWithin = (place, from, size) => place >= from - 1 && place <= from + size + 1;
    if (this.boxes)
      return this.boxes.findIndex(([left, top, width, height]) => isWithin(x, left, width) && isWithin(y, top, height)) + 1;
    let [found, least] = [0, near];
    this.spots.forEach(([a, b], k) => {
      const apart = Math.hypot(a - x, b - y);
      if (apart < least) [found, least] = [k + 1, apart];
    });
    return found;
  }

  // Returns the number of the face that has a place within, the smallest where several have.
  faceAt([x, y]) {
    let [found, least] = [this.outer, Infinity];
    this.map.faces.forEach((walk, f) => {
      if (f === this.outer) return;
      let [isIn, area] = [false, 0];
      walk.forEach((v, k) => {
        const [[a, b], [c, d]] = [this.spots[v - 1], this.spots[walk[(k + 1) % walk.length] - 1]];
        if (b > y !== d > y && x < a + ((y - b) * (c - a)) / (d - b)) isIn = !isIn;
        area += a * d - b * c;
      });
      if (isIn && Math.abs(area) < least) [found, least] = [f, Math.abs(area)];
    });
    return found;
  }

  // Returns the SVG that marks a vertex with its edges, an edge with its ends, or a face.
  mark({ v, e, f }) {
    if (v) return this.map.edges.map((ends, k) => (ends.includes(v) ? this.line(k) : "")).join("") + this.spot(v);
    if (e >= 0) return this.line(e) + this.map.edges[e].map((u) => this.spot(u)).join("");
    const walk = this.map.faces[f];
    if (!this.spots || this.boxes || f === this.outer) return walk.map((u) => this.spot(u)).join("");
    return `<polygon points="${walk.map((u) => this.spots[u - 1].map(num).join(",")).join(" ")}"/>`;
  }

  // Returns the line of an edge, from dot to dot.
  line(k) {
    const [p, q] = this.pairs[k] || [];
    if (!p) return "";
    const length = Math.hypot(q[0] - p[0], q[1] - p[1]) || 1;
    const part = this.boxes ? 0 : Math.min(0.4, (this.radius || 0) / length);
    const [x, y] = [part * (q[0] - p[0]), part * (q[1] - p[1])];
    return `<line x1="${num(p[0] + x)}" y1="${num(p[1] + y)}" x2="${num(q[0] - x)}" y2="${num(q[1] - y)}"/>`;
  }

  spot(v) {
    if (this.boxes) {
      const [x, y, width, height] = this.boxes[v - 1];
      return `<rect x="${num(x)}" y="${num(y)}" width="${num(width)}" height="${num(height)}"/>`;
    }
    const [x, y] = this.spots[v - 1];
    return `<circle cx="${num(x)}" cy="${num(y)}" r="${num(Math.max(NEAR, (this.radius || 0) + 3))}"/>`;
  }
}

// Returns the distance of a place from the line between two others.
function distance([x, y], [x1, y1], [x2, y2]) {
  const [dx, dy] = [x2 - x1, y2 - y1];
  const part = Math.min(1, Math.max(0, ((x - x1) * dx + (y - y1) * dy) / (dx * dx + dy * dy || 1)));
  return Math.hypot(x - x1 - part * dx, y - y1 - part * dy);
}
