// Pictures to take along: SVG, PNG and JSON of a figure.

import { plain } from "./pens.js";
import { edgesOf } from "./pictures.js";

// Returns a drawn picture as an SVG document; `made` was painted by `plain`.
export function svgDocument({ width, height, body }) {
  return (
    `<svg xmlns="http://www.w3.org/2000/svg" viewBox="0 0 ${width} ${height}" width="${width}" height="${height}">\n` +
    `<rect width="${width}" height="${height}" ${plain({ fill: "ground" })}/>\n${body}</svg>\n`
  );
}

// Returns a picture as PNG, `scale` pixels for one of the picture.
export async function pngOf(svg, { width, height }, scale = 2) {
  const image = new Image();
  image.src = `data:image/svg+xml;charset=utf-8,${encodeURIComponent(svg)}`;
  await image.decode();
  const canvas = Object.assign(document.createElement("canvas"), { width: width * scale, height: height * scale });
  canvas.getContext("2d").drawImage(image, 0, 0, canvas.width, canvas.height);
  return new Promise((done) => canvas.toBlob(done, "image/png"));
}

// Returns a figure as JSON: its method, its vertices with their names and places, and its edges.
export function jsonOf(figure, names) {
  const { job, lists, places, bars, rects, columns } = figure;
  const at = (k) => {
    if (places) return { x: places[k][0], y: places[k][1] };
    if (bars) return { y: bars[k].y, x1: bars[k].a, x2: bars[k].b };
    return { x1: rects[k].a, x2: rects[k].b, y1: rects[k].c, y2: rects[k].d };
  };
  const vertices = names.map((name, k) => ({ name, ...at(k), neighbours: lists[k].map((u) => names[u - 1]) }));
  const edges = edgesOf(lists).map(([v, u], k) => ({ ends: [names[v - 1], names[u - 1]], ...(columns ? { x: columns[k] } : {}) }));
  return `${JSON.stringify({ method: job, vertices, edges }, null, 1)}\n`;
}
