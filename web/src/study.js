// One graph that is studied: its map with the face that is outside, or its witness, and what is shown of it.

import { writeGraph6 } from "./graphs.js";
import { embedded, PlaneMap } from "./maps.js";
import { shiftStep } from "./methods.js";
import { roundDrawing } from "./round.js";

const FAULTS = { SamePlace: "stand at one place", OnEdge: "stands on the edge", Cross: "cross" };

export class Study {
  // `given` has the names and the edges of a graph, or the lists of a map, and what is to be shown of it: the dart on whose
  // left the outer face is (`out`), a vertex (`at`), a step, colours (`look`), and the view in front (`show`).
  constructor(calls, given) {
    Object.assign(this, { calls, given, focus: null, step: null, moved: null, colours: given.look || "", show: given.show || "" });
    const { names, edges, lists } = given;
    if (lists) this.first = new PlaneMap(calls, lists, names);
    else {
      const found = embedded(calls, names, edges);
      Object.assign(this, { first: found.map, witness: found.witness, refused: found.refused || "" });
    }
    this.map = this.first;
    if (!this.map) return;
    const [v, u] = (given.out || "").split("-").map(Number);
    if (this.map.lists[v - 1] && this.map.lists[v - 1].includes(u)) this.putOutside(v, u);
    else if (!lists) this.putLongestOutside();
    if (this.map.origin.includes(Number(given.at))) this.focus = { v: this.map.origin.indexOf(Number(given.at)) + 1 };
    if (given.step !== "" && given.step !== undefined) this.step = Number(given.step);
  }

  // Puts the face on the left of a dart of the map as it is now outside.
  putOutside(v, u) {
    const origin = this.focus && this.focus.v && this.map.origin[this.focus.v - 1];
    this.map = this.map.outside(v, u);
    this.moved = null;
    this.focus = origin ? { v: this.map.origin.indexOf(origin) + 1 } : null;
  }

  putFaceOutside(f) {
    const walk = this.map.faces[f];
    this.putOutside(walk[0], walk[1]);
  }

  putLongestOutside() {
    if (this.map.faces.length) this.putFaceOutside(this.map.longestFace());
  }

  putGivenOutside() {
    Object.assign(this, { map: this.first, moved: null, focus: null });
  }

  // Returns the number of the last step of the shift method, or -1 where the module has no canonical orders.
  lastStep() {
    return this.map.order() ? this.map.count - 2 : -1;
  }

  // Returns a step of the shift method, by default the last one.
  stepAt(k = this.lastStep()) {
    const { order, lists } = this.map.order();
    return shiftStep(order, lists, k);
  }

  // Returns the step that is shown, or null where the whole drawing is.
  stepNow() {
    const isWhole = this.step === null || this.step >= this.lastStep();
    return isWhole ? null : this.stepAt(Math.max(0, this.step));
  }

  // Returns the round drawing: its places, the size of its grid, and whether it `isRound` or the proved one in its stead.
  rounded() {
    return this.map.once("round", () => {
      const found = roundDrawing(this.map.lists, (places, size) => this.map.judge(places, size).name === "OK");
      if (found) return { ...found, isRound: true };
      const figure = ["convex", "schnyder"].map((job) => this.map.figure(job)).find((it) => !it.refused);
      return figure ? { places: figure.places, job: figure.job, isRound: false } : null;
    });
  }

  // Moves a vertex of the round drawing by hand.
  move(v, place) {
    this.moved ||= this.rounded().places.map((it) => [...it]);
    this.moved[v - 1] = place;
  }

  // Returns what the judge says of the round drawing: its words, and the vertices and edges of its first fault.
  verdict() {
    const found = this.rounded();
    const good = (words) => ({ words, isGood: true, vertices: [], edges: [] });
    if (!this.moved) return good(found.isRound ? "judged: yes" : `judged: no round one, so the proved drawing by ${found.job}`);
    const { name, numbers } = this.map.judgeEdges(this.moved);
    if (name === "OK" || name === "Turned") return good("judged: yes, no two edges meet");
    const names = numbers.map((v) => this.map.names[v - 1]);
    const words = {
      SamePlace: `${names[0]} and ${names[1]} ${FAULTS.SamePlace}`,
      OnEdge: `${names[0]} ${FAULTS.OnEdge} ${names[1]}–${names[2]}`,
      Cross: `${names[0]}–${names[1]} and ${names[2]}–${names[3]} ${FAULTS.Cross}`,
    }[name];
    const edges = { OnEdge: [numbers.slice(1)], Cross: [numbers.slice(0, 2), numbers.slice(2)] }[name] || [];
    const vertices = { OnEdge: numbers.slice(0, 1), SamePlace: numbers }[name] || [];
    return { words: `judged: no, ${words || name}`, isGood: false, vertices, edges };
  }

  // Returns the figure of the witness, as `readFigure` does.
  witnessFigure() {
    const { kind, paths } = this.witness;
    const { names, edges } = this.given;
    const [start, end] = [(k) => paths[k][0], (k) => paths[k][paths[k].length - 1]];
    const branches = kind === "K5" ? [start(0), end(0), end(1), end(2), end(3)] : [start(0), start(3), start(6), end(0), end(1), end(2)];
    return { job: "witness", kind, paths, branches, graph: writeGraph6(names.length, edges), count: names.length };
  }

  // Returns an edge of the witness without which the graph is planar, or null where there is none.
  looseEdge() {
    const { names, edges } = this.given;
    const own = this.witness.paths.flatMap((path) => path.slice(1).map((v, k) => [Math.min(v, path[k]), Math.max(v, path[k])]));
    return own.find(([a, b]) => embedded(this.calls, names, edges.filter(([v, u]) => v !== a || u !== b)).map) || null;
  }

  // Returns what a link has to say, so that opening it shows the same.
  shown() {
    const { given, map, first } = this;
    const shown = { ...given, show: this.show, look: this.colours, out: "", at: "", step: this.step === null ? "" : String(this.step) };
    if (!map) return shown;
    if (map !== first && map.faces.length) shown.out = `${map.origin[0]}-${map.origin[map.lists[0][0] - 1]}`;
    if (this.focus && this.focus.v) shown.at = String(map.origin[this.focus.v - 1]);
    return shown;
  }
}
