/** The neighbours of each vertex in clockwise order; vertices are numbered from 1. */
export type Lists = number[][];

/** A graph: its number of vertices, and its edges as pairs of vertices from 1. */
export interface Graph {
  n: number;
  edges: Iterable<[number, number]>;
}

/** Why a map or a graph has no answer: its first broken condition, the vertices that it names, and a sentence. */
export interface Refused {
  refused: string;
  vertices: number[];
  why: string;
}

export interface Counts {
  n: number;
  m: number;
  f: number;
  c: number;
  genus: number;
}

interface Figure {
  number: number;
  count: number;
  lists: Lists;
  /** The figure as the program writes it, which `verify` reads. */
  lines: string[];
}

/** A drawing with straight edges on an integer grid: the place of each vertex. */
export interface GridFigure extends Figure {
  job: "shift" | "schnyder" | "convex";
  places: [number, number][];
}

/** A drawing by bars: each vertex is a level bar from `a` to `b` at the height `y`, and each edge is upright in its column. */
export interface BarsFigure extends Figure {
  job: "bars";
  bars: { y: number; a: number; b: number }[];
  columns: number[];
}

/** A tiling by rectangles: each from `a` to `b` across and from `c` to `d` upwards. */
export interface RectsFigure extends Figure {
  job: "rect";
  rects: { a: number; b: number; c: number; d: number }[];
}

/** A subdivision in a graph that has no plane map: its branch vertices, and the paths that join them. */
export interface WitnessFigure {
  job: "witness";
  number: number;
  count: number;
  kind: "K5" | "K33";
  graph: string;
  branches: number[];
  paths: number[][];
  lines: string[];
}

export type AnyFigure = GridFigure | BarsFigure | RectsFigure | WitnessFigure;

export interface Verdict {
  isValid: boolean;
  /** The name of the first fault, and the vertices that it names. */
  fault: string | null;
  vertices: number[];
  why: string;
}

export interface Run {
  status: number;
  text: string;
}

/** Says that a run ended with a status above 1. */
export class PigaleError extends Error {
  status: number;
  text: string;
}

/** Loads the module, once: by default the file of this package, else bytes, a Response or a URL. */
export function ready(source?: ArrayBuffer | ArrayBufferView | Response | URL | string): Promise<unknown>;

/** Runs the program over an input of at most 16 MiB. */
export function run(words: string, input?: string | Uint8Array): Promise<Run>;

/** Counts maps of any genus. A `Uint8Array` is planar_code. */
export function count(maps: Lists[] | Uint8Array): Promise<(Counts | Refused)[]>;

/** Draws maps. */
export function draw(maps: Lists[] | Uint8Array, job?: "schnyder" | "shift" | "convex"): Promise<(GridFigure | Refused)[]>;
export function draw(maps: Lists[] | Uint8Array, job: "bars"): Promise<(BarsFigure | Refused)[]>;
export function draw(maps: Lists[] | Uint8Array, job: "rect"): Promise<(RectsFigure | Refused)[]>;

/** Finds for each graph a plane map and its drawing, or a subdivision of K5 or K3,3. A string is graph6. */
export function embed(graphs: (Graph | string)[] | string | Uint8Array): Promise<(GridFigure | WitnessFigure | Refused)[]>;

/** Judges figures, as `draw` and `embed` return them or as text. */
export function verify(figures: (AnyFigure | string)[] | string | Uint8Array): Promise<Verdict[]>;

/** Returns the picture of a figure as an SVG document. */
export function svg(figure: AnyFigure, look?: { side?: number; names?: string[]; equilateral?: boolean; faces?: boolean }): string;

/** Returns graph6 of a graph. */
export function graph6(graph: Graph): string;

export type Planar<Id> = { isPlanar: true; places: Map<Id, [number, number]>; rotations: Map<Id, Id[]> };
export type NotPlanar<Id> = { isPlanar: false; kind: "K5" | "K33"; paths: Id[][] };

/** Places the nodes of any graph so that no two links cross, or tells why there are no such places. */
export function planarLayout<Id>(
  nodes: Iterable<{ id: Id } | Id>,
  links: Iterable<{ source: { id: Id } | Id; target: { id: Id } | Id }>,
): Promise<Planar<Id> | NotPlanar<Id>>;

/** Runs the program in a worker. */
export class Runner {
  constructor(source?: ArrayBuffer | ArrayBufferView | string);
  run(words: string, input?: string | Uint8Array): Promise<Run>;
  /** Ends what runs: each run that waits fails. */
  stop(): Promise<void>;
}
