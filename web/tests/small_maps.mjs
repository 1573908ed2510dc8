// Maps of few vertices for tests: connected plane maps of eight vertices from a list of graphs, and by graph6.
import fs from "node:fs";
import { readGraph } from "../src/figures.js";
import { embedded } from "../src/maps.js";

export const NAMES = (count) => Array.from({ length: count }, (_, k) => String(k + 1));

export function mapOf(calls, line, names) {
  const { count, edges } = readGraph(line);
  return embedded(calls, names || NAMES(count), edges).map;
}

const lines = fs.readFileSync(new URL("eight.g6", import.meta.url), "latin1").trim().split("\n");

// Yields a map of each graph of eight.g6: all connected planar graphs of eight vertices, which nauty lists.
export function* maps(calls) {
  for (const line of lines) yield mapOf(calls, line);
}
