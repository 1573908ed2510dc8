// Graphs in the files of other programs: DOT of Graphviz, GraphML, and JSON of networkx and others.

// What the words of DOT are.
const GAP = /\s+|\/\/[^\n]*|\/\*[^]*?\*\/|^#[^\n]*/;
const QUOTED = /"(?:\\[^]|[^"\\])*"/;
const MARKUP = /<[^]*?>(?=\s*[;,\]}\s])/;
const MARK = /--|->|[{}[\];,=:]/;
const NAME = /[\w.\u0080-\uffff]+|-?\d*\.\d+|-\d+/;

// Splits DOT into its words: names, edges, brackets and marks, each with its line.
function dotWords(text, Fault) {
  const words = [];
  const kinds = [GAP, QUOTED, MARKUP, MARK, NAME].map(({ source }) => `(${source})`);
  const pattern = new RegExp(kinds.join("|"), "gmy");
  for (let line = 1; pattern.lastIndex < text.length; ) {
    const at = pattern.lastIndex;
    const found = pattern.exec(text);
    if (!found) throw new Fault(`“${text.slice(at, at + 20).split("\n")[0]}” is not understood.`, line);
    const [whole, gap, quoted, , mark, name] = found;
    const word = quoted ? quoted.slice(1, -1).replace(/\\(["\\])/g, "$1") : whole;
    if (!gap) words.push({ word, isName: !mark, isPlain: Boolean(name), line });
    line += whole.split("\n").length - 1;
  }
  return words;
}

// Returns the names and the pairs of a graph in DOT, of any direction; attributes are passed over.
export function readDot(text, Fault) {
  const words = dotWords(text, Fault);
  let at = words.findIndex(({ word }) => word === "{") + 1;
  const names = [];
  const pairs = [];
  const is = (word) => words[at] && !words[at].isName && words[at].word === word;
  const isWord = (word) => words[at] && words[at].isPlain && words[at].word.toLowerCase() === word;

  const passAttributes = () => {
    while (is("[")) {
      while (at < words.length && !is("]")) at++;
      at++;
    }
  };
  // Reads a vertex or a group of vertices, and returns their names.
  const readEnd = () => {
    if (isWord("subgraph")) at += words[at + 1] && words[at + 1].isName ? 2 : 1;
    if (is("{")) {
      at++;
      const found = [];
      while (at < words.length && !is("}")) found.push(...readStatement());
      at++;
      return found;
    }
    const it = words[at];
    if (!it || !it.isName) throw new Fault(`there is no vertex before “${it ? it.word : "the end"}”.`, it ? it.line : undefined);
    at++;
    if (is(":")) at += 2;
    if (is(":")) at += 2;
    names.push(it.word);
    return [it.word];
  };
  // Reads a statement up to its end, and returns the vertices that it names.
  const readStatement = () => {
    if (is(";") || is(",")) {
      at++;
      return [];
    }
    if (["graph", "node", "edge"].some(isWord)) {
      at++;
      passAttributes();
      return [];
    }
    if (words[at + 1] && words[at + 1].word === "=" && !words[at + 1].isName) {
      at += 3;
      return [];
    }
    const found = readEnd();
    for (let last = found; is("--") || is("->"); ) {
      at++;
      const next = readEnd();
      for (const one of last) for (const other of next) pairs.push([one, other]);
      found.push(...next);
      last = next;
    }
    passAttributes();
    return found;
  };
  while (at < words.length && !is("}")) readStatement();
  if (at >= words.length) throw new Fault("the last bracket } is missing.");
  if (words[at + 1]) throw new Fault("another graph follows; one at a time is read.", words[at + 1].line);
  return { names, pairs };
}

// Returns the names and the pairs of a graph in GraphML.
export function readGraphml(text, Fault) {
  const names = [];
  const pairs = [];
  const plain = text.replace(/<!--[^]*?-->/g, (it) => it.replace(/[^\n]/g, ""));
  const [, second] = plain.matchAll(/<(?:\w+:)?graph\b/g);
  if (second) throw new Fault("another graph follows; one at a time is read.", plain.slice(0, second.index).split("\n").length);
  for (const found of plain.matchAll(/<(?:\w+:)?(node|edge)\b([^>]*)>/g)) {
    const value = (name) => {
      const [, one, other] = new RegExp(`\\b${name}\\s*=\\s*(?:"([^"]*)"|'([^']*)')`).exec(found[2]) || [];
      const given = one ?? other;
      if (given === undefined) throw new Fault(`a ${found[1]} has no ${name}.`, plain.slice(0, found.index).split("\n").length);
      return unescaped(given);
    };
    if (found[1] === "node") names.push(value("id"));
    else pairs.push([value("source"), value("target")]);
  }
  return { names, pairs };
}

function unescaped(text) {
  const named = { amp: "&", lt: "<", gt: ">", quot: '"', apos: "'" };
  return text.replace(/&(?:#(\d+)|#x([\da-f]+)|(\w+));/gi, (whole, ten, sixteen, name) =>
    name ? named[name] || whole : String.fromCodePoint(ten ? Number(ten) : parseInt(sixteen, 16)),
  );
}

// Returns the graph of JSON: node-link data, lists of neighbours by name, a matrix, pairs, or { n, edges }.
export function readJson(data, Fault) {
  if (Array.isArray(data)) {
    const isRow = (row) => Array.isArray(row) && row.length === data.length && row.every((it) => it === 0 || it === 1);
    if (data.length > 2 && data.every(isRow)) {
      const pairs = data.flatMap((row, v) => row.flatMap((it, u) => (it && u >= v ? [[v + 1, u + 1]] : [])));
      return { format: "a matrix", names: data.map((_, k) => k + 1), pairs };
    }
    if (data.every(isPair)) return { format: "pairs", pairs: data.map(([one, other]) => [one, other]) };
    if (data.every(Array.isArray)) return listedNeighbours(data.map((list, v) => [v, list]));
    throw new Fault("The JSON is a list, and not of pairs, of a matrix's rows, or of neighbours.");
  }
  const links = data.links || data.edges;
  if (Array.isArray(links)) {
    const idOf = (node, k) => (node && typeof node === "object" ? (node.id ?? node.name ?? k) : node);
    const ids = data.nodes ? data.nodes.map(idOf) : Array.from({ length: data.n || 0 }, (_, k) => k + 1);
    const ends = (link) => (Array.isArray(link) ? link : [link.source ?? link.from ?? link.a, link.target ?? link.to ?? link.b]);
    const pairs = links.map(ends);
    const bad = pairs.findIndex((pair) => pair.length < 2 || pair.some((it) => it === undefined || it === null));
    if (bad >= 0) throw new Fault(`edge ${bad + 1} of the JSON has no source or no target.`);
    return { format: "JSON", names: ids, pairs };
  }
  const lists = Object.entries(data.adjacency && !Array.isArray(data.adjacency) ? data.adjacency : data);
  if (lists.every(([, list]) => Array.isArray(list) || (list && typeof list === "object"))) return listedNeighbours(lists);
  throw new Fault("The JSON has no edges: they stand under links or edges, or as lists of neighbours by name.");
}

function isPair(it) {
  return Array.isArray(it) && it.length >= 2 && it.length <= 3 && it.slice(0, 2).every((end) => ["string", "number"].includes(typeof end));
}

// Returns the graph of lists of neighbours, in each of which an edge stands for itself or with the other end's.
function listedNeighbours(lists) {
  const pairs = [];
  const seen = new Set();
  for (const [head, list] of lists)
    for (const name of Array.isArray(list) ? list : Object.keys(list)) {
      if (!seen.has(`${name} ${head}`)) pairs.push([head, name]);
      seen.add(`${head} ${name}`);
    }
  return { format: "lists of neighbours", names: lists.map(([head]) => head), pairs };
}
