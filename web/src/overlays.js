// What is laid over a drawing: the three trees of a wood, the paths and regions of a vertex, a labelling, and an order.

import { convexWood, pathsOf, regionsOf, regionSizes } from "./methods.js";
import { arrow, lines, num } from "./pens.js";
import { facesOf } from "./pictures.js";

export const COLOURS = ["even", "odd", "dot"]; // of the three trees

const key = (v, u) => (v < u ? `${v} ${u}` : `${u} ${v}`);

// Returns the three trees of a map's completion as trees to lay over: their parents, their roots, the faces and the outer
// one of these, and the edges of the map itself; or null where the module has none.
export function completedWood(map) {
  return map.once("completed wood", () => {
    const [order, parents] = [map.order(), map.wood()];
    if (!order || !parents) return null;
    const roots = [order.order[0], order.order[1], order.order[map.count - 1]];
    const faces = facesOf(order.lists);
    const outer = faces.findIndex((walk) => walk.length === 3 && roots.every((root) => walk.includes(root)));
    return { parents, roots, faces, outer, count: (region, paths, c) => regionSizes(faces, region)[c] - paths[(c + 2) % 3].length };
  });
}

// Returns the wood of a map's convex drawing in the same form; or null where the map has no such drawing.
export function facesWood(map) {
  return map.once("faces wood", () => {
    const { refused, places } = map.figure("convex");
    if (refused) return null;
    const parents = convexWood(map.lists, places);
    const roots = parents.map((parent) => map.faces[0].find((v) => parent[v - 1] === v && parents.some((other) => other[v - 1] !== v)));
    return { parents, roots, faces: map.faces, outer: 0, count: (region, _, c) => region[c].length };
  });
}

// Returns the paths and the regions of a vertex, and the counts that are its coordinates; null of a root and a vertex outside.
export function partsOf(wood, v) {
  if (!wood || !v || wood.faces[wood.outer].includes(v)) return null;
  const paths = pathsOf(wood.parents, v);
  const regions = regionsOf(wood.faces, paths, wood.outer);
  return { paths, regions, counts: [0, 1, 2].map((c) => wood.count(regions, paths, c)) };
}

// Lays the trees over a drawing as arrows in three colours; an edge that the map does not have itself is dotted. With a vertex
// `v` its paths are thick and its regions filled.
export function woodOverlay(map, wood, v = 0) {
  return ({ spots }, look) => {
    const own = new Set(map.edges.map(([a, b]) => key(a, b)));
    const width = 1.25 * look.size("line", map.count);
    const parts = partsOf(wood, v);
    const thick = new Set(parts ? parts.paths.flatMap((path, c) => path.slice(1).map((u, k) => `${c} ${path[k]}`)) : []);
    const seen = new Set();
    const above = [];
    wood.parents.forEach((parent, c) =>
      parent.forEach((u, k) => {
        if (u === k + 1 || (wood.roots.includes(k + 1) && wood.roots.includes(u))) return;
        seen.add(key(k + 1, u));
        // An edge of two colours has its two arrows side by side.
        const isBoth = wood.parents.some((other) => other[u - 1] === k + 1);
        const [p, q] = isBoth ? beside(spots[k], spots[u - 1], width) : [spots[k], spots[u - 1]];
        above.push(arrow(p, q, thick.has(`${c} ${k + 1}`) ? 2.6 * width : width, COLOURS[c], look, !own.has(key(k + 1, u))));
      }),
    );
    const rest = map.edges.filter(([a, b]) => !seen.has(key(a, b))).map(([a, b]) => [spots[a - 1], spots[b - 1]]);
    const colours = [];
    wood.roots.forEach((root, c) => (colours[root - 1] = COLOURS[c]));
    const below = parts ? parts.regions.flatMap((region, c) => region.map((f) => tinted(wood.faces[f], spots, COLOURS[c], look))) : [];
    return { below: [...below, ...lines(rest, look.size("line", map.count), "line", look)], above, colours, hasNoLines: true };
  };
}

function beside([x1, y1], [x2, y2], width) {
  const length = Math.hypot(x2 - x1, y2 - y1) || 1;
  const [dx, dy] = [(-(y2 - y1) / length) * 0.7 * width, ((x2 - x1) / length) * 0.7 * width];
  return [[x1 + dx, y1 + dy], [x2 + dx, y2 + dy]];
}

function tinted(walk, spots, colour, look) {
  const points = walk.map((v) => `${num(spots[v - 1][0])},${num(spots[v - 1][1])}`).join(" ");
  return `<polygon points="${points}" ${look.paint({ fill: colour })} fill-opacity="0.22"/>`;
}

// Lays a regular edge labelling over a drawing: edges that go up in one colour, and those that go right in another. Over
// rectangles an edge is a short arrow through the side that its two have in common.
export function labelOverlay(map) {
  return ({ spots, boxes }, look) => {
    const above = [];
    const width = 1.1 * look.size("line", map.count);
    map.labels().forEach((list, k) =>
      list.forEach((label, i) => {
        if (label !== "up" && label !== "right") return;
        const u = map.lists[k][i] - 1;
        const ends = boxes ? through(boxes[k], boxes[u], label === "up", 12 * look.scale) : [spots[k], spots[u]];
        above.push(arrow(...ends, width, label === "up" ? "even" : "dot", look));
      }),
    );
    return { above };
  };
}

// Returns the ends of an arrow from one box into another, upwards or to the right, through the middle of their common side.
function through([x1, y1, width1, height1], [x2, y2, width2, height2], isUp, most) {
  const middle = (a, size, b, other) => (Math.max(a, b) + Math.min(a + size, b + other)) / 2;
  if (isUp) {
    const [x, length] = [middle(x1, width1, x2, width2), Math.min(most, 0.42 * height1, 0.42 * height2)];
    return [[x, y1 + length], [x, y1 - length]];
  }
  const [y, length] = [middle(y1, height1, y2, height2), Math.min(most, 0.42 * width1, 0.42 * width2)];
  return [[x2 - length, y], [x2 + length, y]];
}

// Lays a step of a canonical order over a drawing: the vertices so far, their contour, and the edges to the one that comes.
export function orderOverlay(map, step) {
  return ({ spots }, look) => {
    const width = look.size("line", map.count);
    const at = (v) => spots[v - 1];
    const contour = step.contour.slice(1).map((v, k) => [at(step.contour[k]), at(v)]);
    const reach = step.touched.map((u) => [at(step.comes), at(u)]);
    const colours = map.lists.map((_, k) => (!step.places.has(k + 1) ? "soft" : k + 1 === step.comes ? "even" : "dot"));
    return { above: [...lines(contour, 3 * width, "odd", look), ...lines(reach, 2 * width, "even", look)], colours };
  };
}

// Lays numbers over bars: that of each height before its bar, and those of the columns beneath.
export function barsOverlay(figure) {
  return ({ boxes, pairs }, look) => {
    const size = Math.min(11 * look.scale, boxes[0][3] * 0.8);
    if (size < Math.max(look.least * 0.8, 5)) return {};
    const text = (x, y, words) =>
      `<text x="${num(x)}" y="${num(y)}" dy="0.35em" font-size="${num(size)}" text-anchor="middle" ` +
      `${look.paint({ fill: "soft" })}>${words}</text>`;
    const low = Math.max(...boxes.map(([, y, , height]) => y + height)) + size;
    const columns = new Map(figure.columns.map((x, k) => [x, pairs[k] && pairs[k][0][0]]));
    const below = [...columns].filter(([, at]) => at !== undefined).map(([x, at]) => text(at, low, x));
    const before = figure.bars.map(({ y }, k) => text(boxes[k][0] - 0.9 * size, boxes[k][1] + boxes[k][3] / 2, y + 1));
    // The widest number has two thirds of its height for a digit.
    const reach = Math.min(...boxes.map(([x]) => x)) - 0.9 * size - 0.33 * size * String(boxes.length).length;
    return { above: [...before, ...(columns.size < 60 ? below : [])], room: Math.max(0, Math.ceil(-reach)) };
  };
}
