// Pictures of figures as SVG. Shapes, places, tints and labels are those of the Python package's pictures.

import { isMap, readGraph } from "./figures.js";
import { textWidth } from "./labels.js";
import { dots, escaped, framed, lines, Look, num, placed, plain, texts, title, whole, widened } from "./pens.js";
import { STYLE } from "./style.js";

// Returns the picture of a figure: its width, its height, its SVG and its `scene`, which says where vertices and edges stand
// in it: `spots` or `boxes` of vertices, and `pairs`, the ends of edges in the order of `edgesOf`. What `given` says is as for
// `Look`; its side is by default 400 to 1000 pixels by the number of vertices.
export function picture(figure, given = {}) {
  const look = new Look({ side: defaultSide(figure.count), ...given });
  const draw = { bars: drawBars, rect: drawRects, witness: drawWitness }[figure.job] || drawGrid;
  const [[width, height], body, scene] = draw(figure, look);
  return { width, height, body: body.map((line) => line + "\n").join(""), scene };
}

// Returns a picture as a document of its own, with the plain colours of the light style.
export function pictureDocument(figure, given = {}) {
  const { width, height, body } = picture(figure, { ...given, paint: plain });
  return (
    `<svg xmlns="http://www.w3.org/2000/svg" viewBox="0 0 ${width} ${height}" width="${width}" height="${height}">\n` +
    `<rect width="${width}" height="${height}" ${plain({ fill: "ground" })}/>\n${body}</svg>\n`
  );
}

function defaultSide(count) {
  const { least, most, from, each } = STYLE.side;
  return Math.min(most, least + each * Math.max(0, count - from));
}

// Returns the edges of lists, as pairs (v, u) with v below u, in order.
export function edgesOf(lists) {
  return lists.flatMap((list, k) =>
    list
      .filter((u) => u > k + 1)
      .sort((a, b) => a - b)
      .map((u) => [k + 1, u]),
  );
}

// Returns the places by the affine map that makes the triangle of the job's grid one with three like sides. Its corners,
// from the lower left one on, are (0, 0), (2n - 4, 0) and (n - 2, n - 2) of `shift`, (1, 0), (n - 2, 1) and (0, n - 2) of
// `schnyder`, and (0, 0), (w, 0) and (0, w) of `convex`, where w does not matter.
export function equilateral(job, places) {
  if (job === "shift") return places.map(([x, y]) => [x, y * Math.sqrt(3)]);
  const most = places.length - 2;
  const parts = job === "convex" || most < 1 ? places : places.map(([x, y]) => [(x - 1) * most + y, (most - 1) * y - (x - 1)]);
  return parts.map(([across, up]) => [across + up / 2, (up * Math.sqrt(3)) / 2]);
}

function drawGrid(figure, look) {
  const isDrawing = isMap(figure);
  // A drawing that was given to be judged is shown as it is, and a round one is no triangle.
  const isMapped = look.equilateral && !figure.isGiven && figure.job !== "round";
  const [spots, box] = placed(isMapped ? equilateral(figure.job, figure.places) : figure.places, look);
  const edges = edgesOf(figure.lists).filter(([, u]) => u <= figure.count);
  const pairs = edges.map(([v, u]) => [spots[v - 1], spots[u - 1]]);
  const faces = look.faces && isDrawing && figure.count <= look.dense ? fillFaces(figure, spots, look) : [];
  const known = figure.lists.map((list) => list.filter((u) => u >= 1 && u <= figure.count));
  const scene = { spots, pairs };
  const { below = [], above = [], colours, hasNoLines } = look.overlay(scene, look);
  const line = hasNoLines ? [] : lines(pairs, look.size("line", figure.count), "line", look);
  return framed(box, [...faces, ...below, ...line, ...above], dots(spots, known, edges, look, colours), look, scene);
}

// Fills the inner faces by their lengths; where one stands within another, it comes after it. A face's walk is
// counterclockwise, and so has its area above zero, where the face is not the outer one of its part.
function fillFaces(figure, spots, look) {
  const faces = [];
  for (const face of facesOf(figure.lists)) {
    const at = face.map((v) => figure.places[v - 1]);
    const area = at.reduce((sum, [x, y], k) => sum + x * at[(k + 1) % at.length][1] - at[(k + 1) % at.length][0] * y, 0);
    if (area > 0) faces.push([area, face]);
  }
  return faces
    .sort((p, q) => q[0] - p[0])
    .map(([, face]) => {
      const points = face.map((v) => `${num(spots[v - 1][0])},${num(spots[v - 1][1])}`).join(" ");
      const colour = face.length > 10 ? "face-more" : `face-${face.length}`;
      const words = escaped(`face of ${face.length}: ${face.map((v) => look.name(v)).join(" ")}`);
      return `<polygon points="${points}" ${look.paint({ fill: colour })}><title>${words}</title></polygon>`;
    });
}

// Returns the faces of a map that have edges, each as its walk with the face on the left. The first one is that of the
// dart from vertex 1 to the first of its list, which drawings of connected maps have outside.
export function facesOf(lists) {
  const after = lists.map((list) => new Map(list.map((u, k) => [u, list[(k + 1) % list.length]])));
  const seen = lists.map(() => new Set());
  const faces = [];
  lists.forEach((list, k) => {
    for (const first of list) {
      const face = [];
      for (let [v, u] = [k + 1, first]; !seen[v - 1].has(u); [v, u] = [u, after[u - 1].get(v)]) {
        seen[v - 1].add(u);
        face.push(v);
      }
      if (face.length) faces.push(face);
    }
  });
  return faces;
}

// Draws bars and columns, each axis with a unit of its own, so that bars keep apart.
function drawBars(figure, look) {
  const { count, bars, columns } = figure;
  const most = (values) => values.reduce((most, it) => Math.max(most, it), 0);
  const [right, top] = [Math.max(1, most(bars.map(({ b }) => b)), most(columns)), most(bars.map(({ y }) => y))];
  const { scale, margin } = look;
  const room = (look.side - 2 * margin) / Math.max(count - 1, 1);
  const across = Math.min(40 * scale, (look.side - 2 * margin) / right);
  const high = count <= 64 ? 13 * scale : (1.6 * look.side) / Math.max(count - 1, 1);
  const upwards = Math.min(30 * scale, Math.max(high, room));
  const thick = Math.min(17 * scale, 0.7 * upwards);
  const spot = (x, y) => [margin + across * x, margin + upwards * (top - y)];
  const edges = edgesOf(figure.lists).slice(0, columns.length).filter(([, u]) => u <= count);
  const pairs = edges.map(([v, u], k) => [spot(columns[k], bars[v - 1].y), spot(columns[k], bars[u - 1].y)]);
  const body = lines(pairs, look.size("line", count), "line", look);
  const [numbers, boxes] = [[], []];
  body.push(`<g ${look.paint({ fill: "dot" })}>`);
  bars.forEach(({ y, a, b }, k) => {
    const [[x1, middle], [x2]] = [spot(a, y), spot(b, y)];
    const [from, width] = [x1 - 0.36 * across, Math.max(0, x2 - x1 + 0.72 * across)];
    boxes.push([from, middle - thick / 2, width, thick]);
    body.push(
      `<rect x="${num(from)}" y="${num(middle - thick / 2)}" width="${num(width)}" height="${num(thick)}" ` +
        `rx="${num(Math.min(thick, width) / 5)}">${count > look.dense ? "" : title(look, k + 1, figure.lists[k])}</rect>`,
    );
    const name = look.name(k + 1);
    const size = Math.min(13 * scale, 0.92 * thick, width / (textWidth(name) + 0.15));
    numbers.push([name, [from + width / 2, middle], size]);
  });
  const scene = { boxes, pairs };
  const { above = [], room: left = 0 } = look.overlay(scene, look);
  body.push("</g>", ...above, ...texts(look.legible(numbers), "on-dot", look));
  return widened([whole(across * right + 2 * margin), whole(upwards * Math.max(count - 1, top) + 2 * margin)], body, scene, left);
}

function drawRects(figure, look) {
  const { count, rects } = figure;
  const [spots, box] = placed(rects.flatMap(({ a, b, c, d }) => [[a, c], [b, d]]), look);
  const most = Math.min(13 * look.scale, Math.max(6 * look.scale, 1.6 * look.size("number", count)));
  const body = [`<g ${look.paint({ stroke: "line" })} stroke-width="${num(look.size("line", count))}" stroke-linejoin="round">`];
  const [numbers, boxes] = [[], []];
  tints(figure.lists).forEach((tint, k) => {
    const [[x1, y2], [x2, y1]] = [spots[2 * k], spots[2 * k + 1]];
    boxes.push([x1, y1, Math.max(0, x2 - x1), Math.max(0, y2 - y1)]);
    body.push(
      `<rect x="${num(x1)}" y="${num(y1)}" width="${num(Math.max(0, x2 - x1))}" height="${num(Math.max(0, y2 - y1))}" ` +
        `${look.paint({ fill: `tint-${tint}` })}>${count > look.dense ? "" : title(look, k + 1, figure.lists[k])}</rect>`,
    );
    const name = look.name(k + 1);
    numbers.push([name, [(x1 + x2) / 2, (y1 + y2) / 2], Math.min(most, 0.8 * (y2 - y1), (x2 - x1) / (textWidth(name) + 0.3))]);
  });
  const middles = boxes.map(([x, y, width, height]) => [x + width / 2, y + height / 2]);
  const pairs = edgesOf(figure.lists).map(([v, u]) => [middles[v - 1], middles[u - 1]]);
  const scene = { boxes, pairs, spots: middles };
  const { above = [] } = look.overlay(scene, look);
  return [box, [...body, "</g>", ...above, ...texts(look.legible(numbers), "number", look)], scene];
}

// Returns one of six tints for each vertex, other than its neighbours' where the map is plane: by least degrees from the
// end, and of these the least vertex first.
export function tints(lists) {
  const left = new Map(lists.map((list, k) => [k + 1, new Set(list.filter((u) => u >= 1 && u <= lists.length))]));
  const order = [];
  while (left.size) {
    let least = 0;
    for (const [v, beside] of left) if (!least || beside.size < left.get(least).size) least = v;
    order.push(least);
    for (const u of left.get(least)) if (left.has(u)) left.get(u).delete(least);
    left.delete(least);
  }
  const found = [];
  for (const v of order.reverse()) {
    const beside = lists[v - 1].map((u) => found[u - 1]);
    found[v - 1] = Math.max(0, [0, 1, 2, 3, 4, 5].findIndex((tint) => !beside.includes(tint)));
  }
  return found;
}

// Draws branch vertices in two rows or on a circle, paths straight between them, and the other edges thin.
function drawWitness(figure, look) {
  const { count, edges } = readGraph(figure.graph);
  const [spots, box] = placed(witnessPlaces(figure, count), look);
  const own = new Set(figure.paths.flatMap((path) => path.slice(1).map((v, k) => String([Math.min(v, path[k]), Math.max(v, path[k])]))));
  const inOrder = [...edges].sort((p, q) => p[0] - q[0] || p[1] - q[1]);
  const [ours, rest] = [true, false].map((isOwn) => inOrder.filter((edge) => own.has(String(edge)) === isOwn));
  const pairs = (list) => list.map(([u, v]) => [spots[u - 1], spots[v - 1]]);
  const line = look.size("line", count);
  const lists = Array.from({ length: count }, () => []);
  for (const [u, v] of edges) {
    lists[u - 1].push(v);
    lists[v - 1].push(u);
  }
  const colours = [];
  figure.branches.forEach((v, k) => (colours[v - 1] = figure.kind === "K33" && k > 2 ? "odd" : "even"));
  const body = [...lines(pairs(rest), line, "thin", look), ...lines(pairs(ours), 1.6 * line, "line", look)];
  return framed(box, body, dots(spots, lists, ours, look, colours), look, { spots, pairs: pairs(edgesOf(lists)) });
}

// Returns a place for each vertex of a witness's graph; those that it does not pass stand in a row below. Between two
// rows inner vertices stand at heights of their own, since paths meet half-way.
export function witnessPlaces(figure, count) {
  const turns = [0, 1, 2, 3, 4].map((k) => Math.PI / 2 - (2 * Math.PI * k) / 5);
  const corners =
    figure.kind === "K33"
      ? [0, 1, 2, 3, 4, 5].map((k) => [600 * (k % 3), k < 3 ? 800 : 0])
      : turns.map((turn) => [600 + 600 * Math.cos(turn), 600 * Math.sin(turn)]);
  const places = [];
  figure.branches.forEach((v, k) => (places[v - 1] = corners[k]));
  figure.paths.forEach((path, i) => {
    const [[x1, y1], [x2, y2]] = [places[path[0] - 1], places[path[path.length - 1] - 1]];
    path.slice(1, -1).forEach((v, k) => {
      const along = (k + 1) / (path.length - 1);
      const part = figure.kind === "K33" ? 0.3 * along + 0.15 + 0.06 * (i % 3) : along;
      places[v - 1] = [x1 + part * (x2 - x1), y1 + part * (y2 - y1)];
    });
  });
  const low = Math.min(...places.filter(Boolean).map(([, y]) => y));
  const rest = Array.from({ length: count }, (_, v) => v).filter((v) => !places[v]);
  rest.forEach((v, k) => (places[v] = [(1200 * (k + 1)) / (rest.length + 1), low - 200 - 40 * (k % 2)]));
  return places;
}
