// What the drawing methods do on the way, from the orders and trees that the module has: so that each step can be seen.

// Returns a step of the shift method over a canonical order of lists in clockwise order. Step k, from 0 to n - 2, has the
// first k + 2 vertices of the order: the `contour` from the first to the second vertex, what `comes`, the contour's vertices
// that it covers or touches (`touched`), those that move by one and by two (`ones`, `twos`), and `places` of all so far.
export function shiftStep(order, lists, k) {
  const [left, right, ...rest] = order;
  const places = new Map([[left, [0, 0]], [right, [2, 0]]]);
  const below = new Map([[left, [left]], [right, [right]]]); // who moves with a vertex of the contour
  let found = { contour: [left, right], comes: 0, touched: [], ones: [], twos: [] };
  rest.slice(0, k).forEach((v, number) => {
    const { contour } = found;
    const isThere = new Set(lists[v - 1]);
    const p = contour.findIndex((u) => isThere.has(u));
    const q = contour.findLastIndex((u) => isThere.has(u));
    const covered = contour.slice(p + 1, q).flatMap((u) => below.get(u));
    const ones = number ? covered : [];
    const twos = number ? contour.slice(q).flatMap((u) => below.get(u)) : [];
    for (const u of ones) places.get(u)[0] += 1;
    for (const u of twos) places.get(u)[0] += 2;
    const [[x1, y1], [x2, y2]] = [places.get(contour[p]), places.get(contour[q])];
    places.set(v, [(x1 + x2 + y2 - y1) / 2, (x2 - x1 + y1 + y2) / 2]);
    below.set(v, [v, ...covered]);
    found = { contour: [...contour.slice(0, p + 1), v, ...contour.slice(q)], comes: v, touched: contour.slice(p, q + 1), ones, twos };
  });
  return { ...found, places };
}

// Returns the three paths of a vertex: from it along the parents of each colour to a root.
export function pathsOf(parents, v) {
  return parents.map((parent) => {
    const path = [v];
    for (let u = parent[v - 1]; u !== path[path.length - 1]; u = parent[u - 1]) path.push(u);
    return path;
  });
}

// Returns the regions into which the three paths of an inner vertex part the inner faces: for each colour the numbers of the
// faces that lie opposite the colour's root. `faces` are walks, the first or `outer` of them the outer one, and `roots` the
// three ends.
export function regionsOf(faces, paths, outer = 0) {
  const edge = (v, u) => (v < u ? v * 65536 + u : u * 65536 + v);
  const cut = new Set(paths.flatMap((path) => path.slice(1).map((u, k) => edge(path[k], u))));
  const sides = new Map();
  faces.forEach((walk, f) =>
    walk.forEach((v, k) => {
      const key = edge(v, walk[(k + 1) % walk.length]);
      sides.set(key, [...(sides.get(key) || []), f]);
    }),
  );
  const region = new Map();
  const spread = (from, colour) => {
    for (const stack = [from]; stack.length; ) {
      const f = stack.pop();
      if (f === outer || region.has(f)) continue;
      region.set(f, colour);
      faces[f].forEach((v, k) => {
        const key = edge(v, faces[f][(k + 1) % faces[f].length]);
        if (!cut.has(key)) stack.push(...sides.get(key));
      });
    }
  };
  const roots = paths.map((path) => path[path.length - 1]);
  const walk = faces[outer];
  // Along the outer walk each edge between two roots belongs to the colour of the third one.
  let at = walk.indexOf(roots[0]);
  let ahead = null;
  for (let k = 0; k < walk.length; k++, at = (at + 1) % walk.length) {
    if (roots.includes(walk[at])) ahead = nextRoot(walk, at, roots);
    const [v, u] = [walk[at], walk[(at + 1) % walk.length]];
    const colour = [0, 1, 2].find((c) => roots[c] !== ahead.from && roots[c] !== ahead.to);
    if (!cut.has(edge(v, u))) for (const f of sides.get(edge(v, u))) spread(f, colour);
  }
  return [0, 1, 2].map((colour) => [...region].filter(([, it]) => it === colour).map(([f]) => f));
}

// Returns the root at a place of the outer walk, and the one that comes next on it.
function nextRoot(walk, at, roots) {
  let to = (at + 1) % walk.length;
  while (!roots.includes(walk[to])) to = (to + 1) % walk.length;
  return { from: walk[at], to: walk[to] };
}

// Returns how many vertices the faces of each region have.
export function regionSizes(faces, regions) {
  return regions.map((region) => new Set(region.flatMap((f) => faces[f])).size);
}

// Returns the wood of a convex drawing, as parents in three colours, by its places alone: a coordinate is the number of faces
// in a region, so along an edge of a colour that one rises and no other does. A root is its own parent.
export function convexWood(lists, places) {
  const most = Math.max(...places.map(([x, y]) => x + y));
  const parts = places.map(([x, y]) => [x, y, most - x - y]);
  return [0, 1, 2].map((colour) =>
    lists.map((list, k) => {
      const isUp = (u) => parts[u - 1].every((part, c) => (c === colour ? part > parts[k][c] : part <= parts[k][c]));
      return list.find(isUp) || k + 1;
    }),
  );
}

// Returns the label of each entry of the lists of a rectangular dual: "up" or "down" where the two rectangles share a level
// side, "right" or "left" where they share an upright one, and "" for the edges of the outer face.
export function rectLabels(lists, rects, outer) {
  const frame = new Set(outer.flatMap((v, k) => [`${v} ${outer[(k + 1) % 4]}`, `${outer[(k + 1) % 4]} ${v}`]));
  return lists.map((list, k) =>
    list.map((u) => {
      const [one, other] = [rects[k], rects[u - 1]];
      if (frame.has(`${k + 1} ${u}`)) return "";
      if (one.d === other.c) return "up";
      if (one.c === other.d) return "down";
      return one.b === other.a ? "right" : "left";
    }),
  );
}
