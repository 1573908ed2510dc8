// Elements for Cytoscape with places at which no two edges cross: cytoscape({ elements, layout: { name: "preset" } }).
import { planarLayout } from "pigale";

const edges = [["ann", "bob"], ["bob", "cy"], ["cy", "ann"], ["ann", "dan"], ["dan", "bob"], ["dan", "cy"]];
const ids = [...new Set(edges.flat())];
const layout = await planarLayout(ids, edges.map(([source, target]) => ({ source, target })));
if (!layout.isPlanar) throw new Error(`these edges cross in any drawing: ${layout.kind} by ${JSON.stringify(layout.paths)}`);
const SIDE = 80; // pixels of the grid
export const elements = [
  ...ids.map((id) => ({ data: { id }, position: { x: SIDE * layout.places.get(id)[0], y: -SIDE * layout.places.get(id)[1] } })),
  ...edges.map(([source, target]) => ({ data: { id: `${source}-${target}`, source, target } })),
];
console.log(JSON.stringify(elements, null, 1));
