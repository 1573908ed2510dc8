// Links: what the sheet of a graph shows, as the part of an address behind #, so that it can be sent on.

import { readGraphText, writeGraph6 } from "./graphs.js";

const KEYS = ["show", "out", "at", "step", "look"];

// Returns the link of a graph: its names, its edges, for a map its lists, and beside these what is shown of it (`show`), the
// dart on whose left the outer face is (`out`), a vertex (`at`), a step, and the styles (`look`), each as a string.
export function linkOf({ names, edges, lists, ...shown }) {
  const isNumbered = names.every((name, k) => name === String(k + 1));
  const isBare = new Set(edges.flat()).size === names.length;
  const parts = lists
    ? [`map=${lists.map((list) => list.join(".")).join("_")}`]
    : isNumbered || !isBare || names.some((name) => /[-,]/.test(name))
      ? [`g6=${encodeURIComponent(writeGraph6(names.length, edges))}`]
      : [`e=${edges.map((edge) => edge.map((v) => encodeURIComponent(names[v - 1])).join("-")).join(",")}`];
  if (!isNumbered && !parts[0].startsWith("e=")) parts.push(`names=${names.map(encodeURIComponent).join(",")}`);
  for (const key of KEYS) if (shown[key]) parts.push(`${key}=${encodeURIComponent(shown[key])}`);
  return `#${parts.join("&")}`;
}

// Returns what a link says: the graph as `readGraphText` does, for a map its lists, and what is shown; or null where it says
// nothing. Throws GraphFault where its graph is none.
export function readLink(hash) {
  const given = {};
  for (const part of hash.replace(/^#/, "").split("&")) {
    const at = part.indexOf("=");
    if (at > 0) given[part.slice(0, at)] = part.slice(at + 1);
  }
  const found = graphOf(given);
  if (!found) return null;
  if (given.names) found.names = given.names.split(",").map(decodeURIComponent);
  for (const key of KEYS) found[key] = given[key] ? decodeURIComponent(given[key]) : "";
  return found;
}

function graphOf({ g6, e, map }) {
  if (g6) return readGraphText(decodeURIComponent(g6));
  if (e) return { ...linkedEdges(e), format: "edges", dropped: 0 };
  if (!map) return null;
  const lists = map.split("_").map((list) => (list ? list.split(".").map(Number) : []));
  return { names: lists.map((_, k) => String(k + 1)), edges: [], lists, format: "a map", dropped: 0 };
}

// Returns the graph of edges as they stand in a link; a name keeps what it has of dashes and commas, as these are escaped.
function linkedEdges(text) {
  const paths = text.split(",").map((path) => path.split("-").map(decodeURIComponent));
  const found = readGraphText(JSON.stringify({ nodes: [], links: paths.flatMap((path) => path.slice(1).map((name, k) => [path[k], name])) }));
  return { names: found.names, edges: found.edges };
}
