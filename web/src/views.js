// The views of a graph that is studied: each method's drawing, with what is laid over it, and what is said of it.

import { refusalOf } from "./facts.js";
import { barsOverlay, completedWood, facesWood, labelOverlay, orderOverlay, partsOf, woodOverlay } from "./overlays.js";
import { lines } from "./pens.js";
import { equilateral, picture } from "./pictures.js";

// What can be laid over the round drawing, by its word in links.
export const LAYERS = {
  "": "plain",
  wood: "Schnyder’s wood",
  faces: "the wood of faces",
  labels: "the edge labelling",
  order: "the canonical order",
};

// Says whether there is something of a kind to lay over a study's round drawing.
export function hasLayer({ map }, layer) {
  if (layer === "wood" || layer === "order") return map.calls.has("schnyder_wood") && Boolean(map.order());
  return layer === "faces" ? Boolean(facesWood(map)) : layer === "labels" ? Boolean(map.labels()) : true;
}

const METHODS = {
  round: "Round",
  schnyder: "Schnyder’s method",
  shift: "Shift method",
  convex: "Convex faces",
  bars: "Bars",
  rect: "Rectangles",
  witness: "Why it is not planar",
};

const ABOUT = {
  round: "The outer face on a circle, each other vertex between its neighbours. The program judges the places.",
  schnyder: "On the grid n−2 by n−2: three trees, and counts of vertices in regions.",
  shift: "On the grid 2n−4 by n−2: a vertex comes, and what stands beside it moves.",
  convex: "On the grid f−1 by f−1: counts of faces in regions.",
  bars: "Vertices as level bars, edges as upright lines: st-numbers upwards, the dual’s numbers along.",
  rect: "Vertices as rectangles, by a labelling of the edges.",
  witness: "Branches in colour, paths between them thick, other edges thin.",
};

// Returns the names of the views that a study has.
export function viewsOf(study) {
  return study.map ? ["round", "schnyder", "shift", "convex", "bars", "rect"] : study.witness ? ["witness"] : [];
}

export const titleOf = (view) => METHODS[view];
export const aboutOf = (view) => ABOUT[view];
export const documentOf = (view) => `../docs/PAGE.md#${titleOf(view).toLowerCase().replace(/[^a-z ]/g, "").replace(/ /g, "-")}`;

// Returns the picture of a view, with its scene, its figure, and what is said of it; or where there is none only why not.
export function viewOf(study, view, look) {
  if (view === "round") return roundView(study, look);
  if (view === "witness") {
    const figure = study.witnessFigure();
    return { figure, said: "", ...picture(figure, { ...look, names: study.given.names }) };
  }
  const figure = study.map.figure(view);
  const fitting = figure.refused && view === "rect" ? rectFace(study.map) : -1;
  if (figure.refused) return { said: refusalOf(figure, study.map.names), isRefused: true, fitting };
  const [given, said] = WAYS[view](study, figure, { ...look, names: study.map.names });
  return { figure, said, ...picture(given.figure || figure, given) };
}

// Returns the face that can be the outer one of rectangles, the quadrangle of a map whose other faces are triangles; or -1.
export function rectFace(map) {
  return map.once("rect face", () => {
    const others = map.faces.flatMap((walk, f) => (walk.length === 3 ? [] : [f]));
    const [f] = others;
    if (others.length !== 1 || map.faces[f].length !== 4) return -1;
    const turned = f ? map.outside(map.faces[f][0], map.faces[f][1]) : map;
    return turned.figure("rect").refused ? -1 : f;
  });
}

const size = (x, y) => `${x.toLocaleString("en")} by ${y.toLocaleString("en")}`;

// The look of each view, and what is said of its drawing.
const WAYS = {
  schnyder(study, figure, look) {
    const { map } = study;
    const wood = map.count <= look.dense ? completedWood(map) : null;
    const v = study.focus && study.focus.v;
    const parts = partsOf(wood, v);
    const said = parts ? counted(map, figure, parts, v, "vertices less those of a path") : size(map.count - 2, map.count - 2);
    return [{ ...look, faces: look.faces && !parts, overlay: wood ? woodOverlay(map, wood, v) : undefined }, said];
  },
  convex(study, figure, look) {
    const { map } = study;
    const v = study.focus && study.focus.v;
    const wood = map.count <= look.dense && (v || study.colours === "faces") ? facesWood(map) : null;
    const parts = partsOf(wood, v);
    const said = parts ? counted(map, figure, parts, v, "faces") : size(map.faces.length - 1, map.faces.length - 1);
    const isShown = wood && (parts || study.colours === "faces");
    return [{ ...look, faces: look.faces && !parts, overlay: isShown ? woodOverlay(map, wood, v) : undefined }, said];
  },
  shift(study, figure, look) {
    const step = study.stepNow();
    const grid = size(2 * study.map.count - 4, study.map.count - 2);
    if (!step) return [look, grid];
    return [{ ...look, ...partial(study.map, step, look) }, stepSaid(study.map, step)];
  },
  bars(study, figure, look) {
    const overlay = study.map.count <= look.dense ? barsOverlay(figure) : undefined;
    return [{ ...look, overlay }, "st-numbers beside the bars"];
  },
  rect(study, figure, look) {
    const isShown = study.map.labels() && study.map.count <= 200;
    return [{ ...look, overlay: isShown ? labelOverlay(study.map) : undefined }, isShown ? "upwards red, rightwards blue" : ""];
  },
};

// Says which counts are a vertex's coordinates.
function counted(map, figure, { counts }, v, what) {
  const [x, y] = figure.places[v - 1];
  return `${map.names[v - 1]} at (${x}, ${y}): its regions have ${counts.join(", ")} ${what}`;
}

function stepSaid(map, step) {
  const names = (vertices) => vertices.map((v) => map.names[v - 1]).join(", ");
  if (!step.comes) return `the base: ${names(step.contour)}`;
  const ways = [["by one", step.ones], ["by two", step.twos]].filter(([, list]) => list.length);
  const moves = ways.map(([words, list]) => `${names(list)} ${words}`);
  return `${names([step.comes])} comes over ${names(step.touched)}${moves.length ? `; to the right move ${moves.join(", ")}` : ""}`;
}

// Returns the look of a step: the vertices so far at their places of then, in the frame of the whole drawing.
function partial(map, step, look) {
  const here = [...step.places.keys()].sort((a, b) => a - b);
  const number = new Map(here.map((v, k) => [v, k + 1]));
  const lists = here.map((v) => map.order().lists[v - 1].filter((u) => number.has(u)).map((u) => number.get(u)));
  const places = here.map((v) => step.places.get(v));
  const own = new Set(map.edges.map(String));
  const corners = [[0, 0], [2 * map.count - 4, map.count - 2]];
  const overlay = ({ spots }, given) => {
    const width = given.size("line", map.count);
    const at = (v) => spots[number.get(v) - 1];
    const pairs = here.flatMap((v) => map.order().lists[v - 1].filter((u) => u > v && number.has(u)).map((u) => [v, u]));
    const ends = (isOwn) => pairs.filter((pair) => own.has(String(pair)) === isOwn).map(([v, u]) => [at(v), at(u)]);
    const [ours, added] = [ends(true), ends(false)];
    const contour = step.contour.slice(1).map((v, k) => [at(step.contour[k]), at(v)]);
    const reach = step.touched.map((u) => [at(step.comes), at(u)]);
    const colours = here.map((v) => (v === step.comes ? "even" : step.twos.includes(v) || step.ones.includes(v) ? "odd" : "dot"));
    const above = [...lines(contour, 3 * width, "odd", given), ...lines(reach, 2 * width, "even", given)];
    return { below: [...lines(added, 0.7 * width, "thin", given), ...lines(ours, width, "line", given)], above, colours, hasNoLines: true };
  };
  return {
    figure: { job: "shift", count: here.length, lists, places },
    names: here.map((v) => map.names[v - 1]),
    frame: look.equilateral ? equilateral("shift", corners) : corners,
    faces: false,
    overlay,
    here,
  };
}

function roundView(study, look) {
  const found = study.rounded();
  if (!found) return { said: refusalOf(study.map.figure("schnyder"), study.map.names), isRefused: true };
  const { map } = study;
  const verdict = study.verdict();
  const job = found.isRound || study.moved ? "round" : found.job;
  const figure = { job, count: map.count, lists: map.lists, places: study.moved || found.places };
  const overlay = verdict.isGood ? layer(study, look) : faulty(map, verdict);
  const made = picture(figure, { ...look, names: map.names, faces: look.faces && verdict.isGood, overlay });
  return { figure, said: verdict.words, isGood: verdict.isGood, isBad: !verdict.isGood, ...made };
}

function layer(study, look) {
  const { map, colours } = study;
  if (map.count > look.dense) return undefined;
  const v = study.focus && study.focus.v;
  if (colours === "wood" && completedWood(map)) return woodOverlay(map, completedWood(map), v);
  if (colours === "faces" && facesWood(map)) return woodOverlay(map, facesWood(map), v);
  if (colours === "labels" && map.labels()) return labelOverlay(map);
  return colours === "order" && map.order() ? orderOverlay(map, study.stepNow() || study.stepAt()) : undefined;
}

// Paints the first fault of a drawing.
function faulty(map, { vertices, edges }) {
  return ({ spots }, look) => {
    const colours = [];
    for (const v of vertices) colours[v - 1] = "even";
    const pairs = edges.map(([v, u]) => [spots[v - 1], spots[u - 1]]);
    return { above: lines(pairs, 3 * look.size("line", map.count), "even", look), colours };
  };
}
