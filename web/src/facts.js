// What is said of a graph in one line, and of a vertex, an edge or a face in the pictures.

import { plural } from "./answers.js";

// Says in words which condition of a method a map breaks, with the names of its vertices.
export function refusalOf({ refused, numbers }, names) {
  const [a, b, c] = numbers.map((v) => names[v - 1]);
  return {
    Small: "for three vertices or more",
    Genus: "for plane maps",
    NotConnected: "for connected maps",
    CutVertex: `not with the cut vertex ${a}`,
    SeparatingPair: `not with the separating pair ${a}, ${b}`,
    OuterNotQuad: "the outer face is no quadrangle",
    NotTriangle: `the face left of ${a}–${b} is no triangle`,
    SeparatingTriangle: `not with the separating triangle ${a}, ${b}, ${c}`,
    NoInner: "no vertex lies inside",
    Loop: `vertex ${a} is in its own list`,
    Repeated: `the edge ${a}–${b} stands twice`,
    BadArgument: "too large for this method",
  }[refused] || refused;
}

const MOST_KINDS = 10; // numbers that are told with their counts

// Returns how often each number stands in a list, as `5 (12 times)`, the greatest first; of many numbers only the span.
function tallied(numbers) {
  const counts = new Map();
  for (const it of [...numbers].sort((a, b) => b - a)) counts.set(it, (counts.get(it) || 0) + 1);
  const all = [...counts];
  if (all.length > MOST_KINDS) return `${all[all.length - 1][0]} to ${all[0][0]}`;
  return all.map(([it, count]) => (count > 1 ? `${it} (${count.toLocaleString("en")} times)` : `${it}`)).join(", ");
}

function listed(names, most = 12) {
  return names.slice(0, most).join(", ") + (names.length > most ? ` and ${names.length - most} more` : "");
}

// Says what a map is: its size, how it is connected, its degrees and its faces. `marked` has the vertices by which it falls
// apart, for the pictures.
export function factsOf(map) {
  const counts = map.counts();
  if (!counts) return { text: "These lists are no map.", marked: [] };
  const { n, m, f, c, genus } = counts;
  const names = (vertices) => listed(vertices.map((v) => map.names[v - 1]));
  const cuts = map.cutVertices();
  const convex = map.figure("convex");
  let [how, marked] = ["", []];
  if (c > 1) how = `${plural(c, "component")}`;
  else if (cuts.length) [how, marked] = [`connected, with the cut ${cuts.length > 1 ? "vertices" : "vertex"} ${names(cuts)}`, cuts];
  else if (genus || n < 3) how = "connected";
  else if (convex.refused === "SeparatingPair")
    [how, marked] = [`two-connected, with the separating pair ${names(convex.numbers)}`, convex.numbers];
  else if (!convex.refused) how = "three-connected";
  else how = "two-connected";
  const size = `${plural(n, "vertex", "vertices")}, ${plural(m, "edge")}, ${plural(f, "face")}`;
  const faces = map.faces.length ? ` Faces of ${tallied(map.faces.map((walk) => walk.length))}.` : "";
  const kind = genus ? `on a surface of genus ${genus}` : "planar";
  return { text: `${size}; ${kind}; ${how}. Degrees ${tallied(map.lists.map((list) => list.length))}.${faces}`, marked };
}

// Says what a graph is that has no plane map: its size, its components and its witness.
export function witnessFacts(names, edges, { kind, paths }) {
  const leader = names.map((_, k) => k);
  const top = (k) => (leader[k] === k ? k : (leader[k] = top(leader[k])));
  for (const [v, u] of edges) leader[top(v - 1)] = top(u - 1);
  const parts = new Set(names.map((_, k) => top(k))).size;
  const apart = parts > 1 ? `, ${plural(parts, "component")}` : "";
  const size = `${plural(names.length, "vertex", "vertices")}, ${plural(edges.length, "edge")}${apart}`;
  const ways = paths.map((path) => path.map((v) => names[v - 1]).join("–"));
  return `${size}; not planar: it contains a subdivision of ${kind === "K5" ? "K5" : "K3,3"}, by the paths ${ways.join(", ")}.`;
}

// Says what a vertex, an edge or a face of a map is; `rank` has the places of vertices in an order, where there is one.
export function told(map, { v, e, f }, places = null, rank = null) {
  const name = (u) => map.names[u - 1];
  if (v) {
    const list = map.lists[v - 1];
    const at = places && places[v - 1] ? ` By Schnyder’s method at (${places[v - 1].join(", ")}).` : "";
    const order = rank ? ` Number ${rank[v - 1]} of the canonical order.` : "";
    const round = list.length ? `, clockwise ${listed(list.map(name), 40)}` : "";
    return `Vertex ${name(v)}: ${plural(list.length, "neighbour")}${round}.${at}${order}`;
  }
  if (e >= 0) {
    const [a, b] = map.edges[e];
    const beside = map.faces.filter((walk) => walk.some((u, k) => [u, walk[(k + 1) % walk.length]].sort().join() === [a, b].sort().join()));
    return `Edge ${name(a)}–${name(b)}, between faces of ${beside.map((walk) => walk.length).join(" and ")}.`;
  }
  const walk = map.faces[f];
  return `Face of ${walk.length}: ${listed(walk.map(name), 40)}.${f === 0 ? " It lies outside." : " A click puts it outside."}`;
}
