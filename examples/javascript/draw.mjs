// Draws a prism with convex faces, has the drawing judged, and writes its picture: node draw.mjs > prism.svg
import { draw, svg, verify } from "pigale";

const prism = [[2, 3, 4], [3, 1, 5], [1, 2, 6], [6, 5, 1], [4, 6, 2], [5, 4, 3]];
const [figure] = await draw([prism], "convex");
const [{ why }] = await verify([figure]);
console.error(`places ${JSON.stringify(figure.places)}: ${why}`);
console.log(svg(figure));
