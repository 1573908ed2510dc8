// The parts that pictures are made of, as SVG text: lines, dots, numbers, and how a picture is to look.

import { labelPlaces, dotRadius, textWidth, within } from "./labels.js";
import { STYLE } from "./style.js";

const UNIT = 400; // the sizes of the style are for a picture whose longer side is this
export const MOST_WITHIN = 1.3; // the width of a name within a dot, in its height
const LEAST_NUMBER = 2.4; // the least height of numbers in bars and rectangles, in a picture of that side

// Returns attributes with the light colours of names, as `fill="#ffffff"`; `own` has colours in place of some of these.
export function plain(paints, own = {}) {
  return Object.entries(paints)
    .map(([attribute, name]) => `${attribute}="${own[name] || STYLE.light[name]}"`)
    .join(" ");
}

// Returns an attribute that takes its colours from the variables of the page.
export function variable(paints) {
  const rules = Object.entries(paints).map(([attribute, name]) => `${attribute}:var(--${name})`);
  return `style="${rules.join(";")}"`;
}

// How a picture looks: its longer `side` in pixels, whether the triangle of a drawing is made `equilateral`, whether
// `faces` are filled, and how colours are named (`paint`). Numbers that are less than `least` pixels high are left out,
// and lines, dots and numbers are `fine` times as large as the side asks for. From `dense` vertices on all dots are one
// path, and all lines one, without titles and numbers. `names` are what stands at the vertices in place of numbers.
// `overlay` returns of a scene what is drawn `below` the lines and `above` them, the `colours` of vertices, and whether the
// picture `hasNoLines` of its own, and the `room` that bars need on their left. `frame` has places that the picture has room for besides.
export class Look {
  constructor(given) {
    Object.assign(this, { equilateral: false, faces: false, paint: plain, least: 0, fine: 1, dense: Infinity, names: null, frame: [] }, given);
    this.overlay = given.overlay || (() => ({}));
    this.scale = this.side / UNIT;
    this.margin = STYLE.margin * this.scale * Math.min(1, this.fine);
  }

  // Returns the radius of a "dot", the width of a "line" or the height of a "number" in a picture of `count` vertices.
  size(name, count) {
    const { most, root } = STYLE.sizes[name];
    return Math.min(most, root / Math.sqrt(Math.max(count, 1))) * this.scale * this.fine;
  }

  // Returns what stands at vertex `v`.
  name(v) {
    return this.names ? this.names[v - 1] : String(v);
  }

  // Returns the numbers that are high enough to be read, each with its place and its height.
  legible(numbers) {
    return numbers.filter(([, , size]) => size >= Math.max(LEAST_NUMBER * this.scale, this.least));
  }
}

// Writes a number of pixels: to a hundredth where it is small, and to a tenth elsewhere.
export function num(value) {
  const unit = Math.abs(value) < 10 ? 100 : 10;
  return String(Math.round(value * unit) / unit || 0);
}

export function escaped(text) {
  return String(text).replace(/[&<>]/g, (it) => ({ "&": "&amp;", "<": "&lt;", ">": "&gt;" })[it]);
}

export function title(look, v, list) {
  const names = list.map((u) => look.name(u));
  return `<title>${escaped(look.names ? `${look.name(v)}: ${names.join(", ")}` : [`${v}:`, ...names].join(" "))}</title>`;
}

// Returns straight lines of one width and colour; `ends` are pairs of places.
export function lines(ends, width, colour, look) {
  if (!ends.length) return [];
  const open = `${look.paint({ stroke: colour })} stroke-width="${num(Math.max(0.1, width))}" stroke-linecap="round"`;
  if (ends.length > look.dense) {
    const path = ends.map(([p, q]) => `M${num(p[0])} ${num(p[1])}L${num(q[0])} ${num(q[1])}`).join("");
    return [`<path d="${path}" fill="none" ${open}/>`];
  }
  const each = ends.map(([p, q]) => `<line x1="${num(p[0])}" y1="${num(p[1])}" x2="${num(q[0])}" y2="${num(q[1])}"/>`);
  return [`<g ${open}>`, ...each, "</g>"];
}

// Returns a line with a head in its middle that points from `from` to `to`.
export function arrow(from, to, width, colour, look, isDotted = false) {
  const [dx, dy] = [to[0] - from[0], to[1] - from[1]];
  const length = Math.hypot(dx, dy) || 1;
  const [along, size] = [[dx / length, dy / length], Math.min(2.2 * width + 2 * look.scale, length / 3)];
  const [x, y] = [from[0] + 0.6 * dx, from[1] + 0.6 * dy];
  const [a, b] = [size * along[0], size * along[1]];
  const corner = (ahead, aside) => `${num(x + ahead * a - aside * b)} ${num(y + ahead * b + aside * a)}`;
  const dash = isDotted ? ` stroke-dasharray="${num(width)} ${num(2 * width)}"` : "";
  return (
    `<line x1="${num(from[0])}" y1="${num(from[1])}" x2="${num(to[0])}" y2="${num(to[1])}" ` +
    `${look.paint({ stroke: colour })} stroke-width="${num(width)}"${dash}/>` +
    `<path d="M${corner(1, 0)}L${corner(-0.8, 0.75)}L${corner(-0.8, -0.75)}Z" ${look.paint({ fill: colour })}/>`
  );
}

// Returns texts, each about its place and with its height, and where asked for with a halo beneath them all.
export function texts(given, colour, look, hasHalo = false) {
  if (!given.length) return [];
  const font = `font-family="${STYLE.font}" text-anchor="middle"`;
  const each = given.map(
    ([text, [x, y], size]) => `<text x="${num(x)}" y="${num(y)}" dy="0.35em" font-size="${num(size)}">${escaped(text)}</text>`,
  );
  const width = 0.28 * given.reduce((most, [, , size]) => Math.max(most, size), 0);
  const paints = look.paint({ fill: "ground", stroke: "ground" });
  const open = `<g ${paints} stroke-width="${num(width)}" stroke-linejoin="round" ${font} aria-hidden="true">`;
  return [...(hasHalo ? [open, ...each, "</g>"] : []), `<g ${look.paint({ fill: colour })} ${font}>`, ...each, "</g>"];
}

// Returns dots with titles and their `radius`, and their names: within all dots where each has room, and else beside those
// that have room. With names that are no numbers `reach` says where the leftmost one begins and the rightmost one ends.
export function dots(places, lists, edges, look, colours = []) {
  const count = places.length;
  const reach = [look.margin, look.margin];
  if (count > look.dense) return { lines: [denseDots(places, look)], reach, radius: 0 };
  const size = look.size("number", count);
  const names = places.map((_, k) => look.name(k + 1));
  const isShort = count < 100 && (!look.names || names.every((name) => textWidth(name) <= MOST_WITHIN));
  const inner = isShort ? within(places, edges, size, look.scale) : null;
  const isInner = inner && inner.height >= look.least;
  const radius = isInner ? inner.radius : dotRadius(places, edges, look.size("dot", count));
  const rim = `stroke-width="${num(0.3 * look.size("line", count) + 0.25 * look.scale)}"`;
  const body = [];
  let last = "";
  places.forEach(([x, y], k) => {
    const paints = look.paint({ fill: colours[k] || "dot", stroke: "ground" });
    if (paints !== last) body.push(...(last ? ["</g>"] : []), `<g ${paints} ${rim}>`);
    last = paints;
    body.push(`<circle cx="${num(x)}" cy="${num(y)}" r="${num(radius)}">${title(look, k + 1, lists[k])}</circle>`);
  });
  if (last) body.push("</g>");
  if (isInner) return { lines: [...body, ...texts(places.map((at, k) => [names[k], at, inner.height]), "on-dot", look)], reach, radius };
  if (size < look.least) return { lines: body, reach, radius };
  const beside = labelPlaces(places, edges, names, radius, size);
  const ends = beside.map(([k, [x]]) => [x, (textWidth(names[k]) / 2) * size]);
  const isWide = look.names && ends.length;
  return {
    lines: [...body, ...texts(beside.map(([k, at]) => [names[k], at, size]), "number", look, true)],
    reach: isWide ? [Math.min(...ends.map(([x, half]) => x - half)), Math.max(...ends.map(([x, half]) => x + half))] : reach,
    radius,
  };
}

// Returns a picture of lines and dots with its scene, wider where names reach beyond it.
export function framed([width, height], body, { lines: dotted, reach, radius }, look, given) {
  const room = 0.25 * look.margin;
  const [left, right] = [Math.max(0, Math.ceil(room - reach[0])), Math.max(0, Math.ceil(reach[1] + room - width))];
  const all = [...body, ...dotted];
  return widened([width + right, height], all, { ...given, radius }, left);
}

// Returns a picture and its scene with room more on the left.
export function widened([width, height], body, scene, left) {
  if (!left) return [[width, height], body, scene];
  const moved = ([x, ...rest]) => [x + left, ...rest];
  const { spots, boxes } = scene;
  const pairs = scene.pairs.map((pair) => pair.map(moved));
  const shifted = { ...scene, spots: spots && spots.map(moved), boxes: boxes && boxes.map(moved), pairs };
  return [[width + left, height], [`<g transform="translate(${left})">`, ...body, "</g>"], shifted];
}

function denseDots(places, look) {
  const size = look.size("dot", places.length);
  const r = num(size);
  const circle = ([x, y]) => `M${num(x - size)} ${num(y)}a${r} ${r} 0 1 0 ${num(2 * size)} 0a${r} ${r} 0 1 0 ${num(-2 * size)} 0`;
  return `<path d="${places.map(circle).join("")}" ${look.paint({ fill: "dot" })}/>`;
}

// Returns places in pixels, with y downwards, and the width and the height of the picture.
export function placed(places, look) {
  let [left, right, low, high] = [Infinity, -Infinity, Infinity, -Infinity];
  for (const [x, y] of [...places, ...look.frame]) {
    left = Math.min(left, x);
    right = Math.max(right, x);
    low = Math.min(low, y);
    high = Math.max(high, y);
  }
  const { margin } = look;
  const unit = (look.side - 2 * margin) / Math.max(right - left, high - low, 1);
  const spots = places.map(([x, y]) => [margin + unit * (x - left), margin + unit * (high - y)]);
  return [spots, [whole(unit * (right - left) + 2 * margin), whole(unit * (high - low) + 2 * margin)]];
}

export function whole(length) {
  return Math.max(1, Math.round(length));
}
