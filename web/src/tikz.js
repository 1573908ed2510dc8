// Figures as pictures of TikZ, the drawing package of LaTeX: the same as those of the Python package.

import { readGraph } from "./figures.js";
import { Look, MOST_WITHIN } from "./pens.js";
import { textWidth } from "./labels.js";
import { edgesOf, equilateral, facesOf, tints, witnessPlaces } from "./pictures.js";
import { STYLE } from "./style.js";

const WIDTH = 8; // of a picture's longer side, in centimetres
const TEX_COLOURS = ["line", "thin", "dot", "even", "odd", "tint-0", "tint-1", "tint-2", "tint-3", "tint-4", "tint-5"].concat(
  ["face-3", "face-4", "face-5", "face-6", "face-7", "face-8", "face-9", "face-10", "face-more"],
);
const SPECIAL = {
  "\\": "\\textbackslash{}", "~": "\\textasciitilde{}", "^": "\\textasciicircum{}",
  "<": "\\textless{}", ">": "\\textgreater{}", "|": "\\textbar{}",
};
const HEAD = "\\documentclass[tikz,border=4pt]{standalone}\n\\usepackage[utf8]{inputenc}\n";

// Returns a figure as one `tikzpicture`. What `given` says is as for `Look`.
export function tikzOf(figure, given = {}) {
  const look = new Look({ side: 1, ...given });
  const draw = { bars: texBars, rect: texRects, witness: texWitness }[figure.job] || texStraight;
  return ["\\begin{tikzpicture}", ...draw(figure, look).map((line) => `  ${line}`), "\\end{tikzpicture}", ""].join("\n");
}

// Returns a LaTeX document by itself with a picture; `own` has colours in place of the style's.
export function tikzDocument(picture, own = {}) {
  const codeOfColour = (name) => (own[name] || STYLE.light[name]).slice(1).toUpperCase();
  const colours = TEX_COLOURS.map((name) => `\\definecolor{pigale-${name}}{HTML}{${codeOfColour(name)}}`);
  const styles =
    "\\tikzset{vertex/.style={circle, fill=pigale-dot, text=white, inner sep=1pt, minimum size=8pt, font=\\tiny},\n" +
    "  point/.style={circle, fill=pigale-dot, inner sep=1.2pt}, edge/.style={draw=pigale-line, line cap=round}}\n";
  return `${HEAD}${colours.join("\n")}\n${styles}\\begin{document}\n${picture}\\end{document}\n`;
}

function texEscaped(text) {
  return text.replace(/[\\~^<>|&%$#_{}]/g, (it) => SPECIAL[it] || `\\${it}`);
}

function tex(value) {
  return String(Math.round(value * 1000) / 1000 || 0);
}

function texPlace([x, y]) {
  return `(${tex(x)},${tex(y)})`;
}

// Returns the places from (0, 0) on, so that the longer side is as long as it is to be.
function texScaled(places) {
  const span = (k) => {
    const values = places.map((place) => place[k]);
    const low = values.reduce((least, it) => Math.min(least, it), Infinity);
    return [low, values.reduce((most, it) => Math.max(most, it), -Infinity) - low];
  };
  const [[left, across], [low, up]] = [span(0), span(1)];
  const unit = WIDTH / Math.max(across, up, 1e-9);
  return places.map(([x, y]) => [unit * (x - left), unit * (y - low)]);
}

// Returns the vertices, with their names within where all are short, and else beside.
function texVertices(spots, look, colours = []) {
  const names = spots.map((_, k) => look.name(k + 1));
  const isWithin = spots.length < 100 && (!look.names || names.every((name) => textWidth(name) <= MOST_WITHIN));
  return spots.map((spot, k) => {
    const colour = colours[k] && colours[k] !== "dot" ? `, fill=pigale-${colours[k]}` : "";
    const name = texEscaped(names[k]);
    if (isWithin) return `\\node[vertex${colour}] (v${k + 1}) at ${texPlace(spot)} {${name}};`;
    const beside = name ? `, label={[font=\\tiny, inner sep=1pt]above right:{${name}}}` : "";
    return `\\node[point${colour}${beside}] (v${k + 1}) at ${texPlace(spot)} {};`;
  });
}

function texStraight(figure, look) {
  const isMapped = look.equilateral && figure.job !== "round" && !figure.isGiven;
  const spots = texScaled(isMapped ? equilateral(figure.job, figure.places) : figure.places);
  const faces = (look.faces ? facesOf(figure.lists) : []).flatMap((face) => {
    const corners = face.map((v) => spots[v - 1]);
    const next = (k) => corners[(k + 1) % corners.length];
    const area = corners.reduce((sum, [x, y], k) => sum + x * next(k)[1] - next(k)[0] * y, 0);
    const colour = face.length > 10 ? "face-more" : `face-${face.length}`;
    return area > 0 ? [`\\fill[pigale-${colour}] ${corners.map(texPlace).join(" -- ")} -- cycle;`] : [];
  });
  const edges = edgesOf(figure.lists).map(([v, u]) => `\\draw[edge] ${texPlace(spots[v - 1])} -- ${texPlace(spots[u - 1])};`);
  return [...faces, ...edges, ...texVertices(spots, look)];
}

function texBars({ bars, columns, lists }, look) {
  const most = (values) => values.reduce((found, it) => Math.max(found, it), 1);
  const across = Math.min(1, WIDTH / most([...bars.map(({ b }) => b), ...columns]));
  const up = Math.min(0.8, WIDTH / most(bars.map(({ y }) => y)));
  const edges = edgesOf(lists).map(([v, u], k) => {
    const [x, low, high] = [across * columns[k], up * bars[v - 1].y, up * bars[u - 1].y];
    return `\\draw[edge] ${texPlace([x, low])} -- ${texPlace([x, high])};`;
  });
  const thick = Math.min(0.36, 0.7 * up);
  const drawn = bars.flatMap(({ y, a, b }, k) => {
    const [left, right] = [across * (a - 0.36), across * (b + 0.36)];
    return [
      `\\fill[pigale-dot] ${texPlace([left, up * y - thick / 2])} rectangle ${texPlace([right, up * y + thick / 2])};`,
      `\\node[text=white, font=\\tiny, inner sep=0pt] at ${texPlace([(left + right) / 2, up * y])} {${texEscaped(look.name(k + 1))}};`,
    ];
  });
  return [...edges, ...drawn];
}

function texRects({ rects, lists }, look) {
  const spots = texScaled(rects.flatMap(({ a, b, c, d }) => [[a, c], [b, d]]));
  return tints(lists).map((tint, k) => {
    const [one, other] = [spots[2 * k], spots[2 * k + 1]];
    const middle = [(one[0] + other[0]) / 2, (one[1] + other[1]) / 2];
    const name = ` node[font=\\tiny] at ${texPlace(middle)} {${texEscaped(look.name(k + 1))}}`;
    return `\\draw[edge, fill=pigale-tint-${tint}] ${texPlace(one)} rectangle ${texPlace(other)}${name};`;
  });
}

function texWitness(figure, look) {
  const { count, edges } = readGraph(figure.graph);
  const spots = texScaled(witnessPlaces(figure, count));
  const own = new Set(figure.paths.flatMap((path) => path.slice(1).map((v, k) => String([Math.min(v, path[k]), Math.max(v, path[k])]))));
  const sorted = [...edges].sort((p, q) => p[0] - q[0] || p[1] - q[1]);
  const line = (style) => ([v, u]) => `\\draw[${style}] ${texPlace(spots[v - 1])} -- ${texPlace(spots[u - 1])};`;
  const colours = [];
  figure.branches.forEach((v, k) => (colours[v - 1] = figure.kind === "K33" && k > 2 ? "odd" : "even"));
  const [ours, rest] = [true, false].map((isOwn) => sorted.filter((edge) => own.has(String(edge)) === isOwn));
  return [...rest.map(line("draw=pigale-thin")), ...ours.map(line("edge, thick")), ...texVertices(spots, look, colours)];
}
