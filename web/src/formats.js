// Inputs: what their first bytes say, where their records end, and lines of text as the program reads them.

import { asBytes, asText, joined, lineEnd, startsAt } from "./bytes.js";

export const PLANAR_HEADER = asBytes(">>planar_code<<");
const PLANAR_START = asBytes(">>planar_code");
const GRAPH_HEADER = asBytes(">>graph6<<");
const MORE = 62; // the first byte of a header

// Says of bytes which format they are in: `kind` is "maps", "graphs", "figures" or, with the `reason` in words, "none".
export function recognized(bytes) {
  const none = (reason) => ({ kind: "none", reason });
  const start = bytes.findIndex((it) => it !== 10 && it !== 13);
  if (start < 0) return none(bytes.length ? "It has empty lines alone." : "It is empty.");
  const head = asText(bytes.subarray(start, start + 4096));
  const header = /^>>([a-zA-Z0-9_]+) *(le|be)? *<</.exec(head);
  if (header) {
    if (header[1] === "planar_code") {
      const order = header[2] || (hasSwappedWords(bytes, header[0].length) ? "le" : "be");
      return { kind: "maps", order, name: "planar_code" };
    }
    if (header[1] === "graph6") return { kind: "graphs", name: "graph6" };
    if (header[1] === "sparse6")
      return none("This is sparse6 with a fault.");
    return none(`The header names ${header[1]}, which Pigale does not read. It reads planar_code, graph6 and its own figures.`);
  }
  if (/^(figure|count|refused|verdict|end|stop) /.test(head)) return { kind: "figures", name: "figures as text" };
  if (/^\s*(<\?xml|<!--|<svg|<!DOCTYPE|<html)/i.test(head) && !/<(\w+:)?graphml\b/.test(head))
    return none("This is a picture or a page. Pigale judges the text of a figure, which jobs write without “--form svg”.");
  if (/^(PK\x03\x04|BZh|\xfd7zXZ|7z\xbc\xaf|\x28\xb5\x2f\xfd)/.test(head) || /^%PDF|^\x89PNG/.test(head))
    return none("This is an archive or a document. Unpack it first; only gzip is unpacked here.");
  if (/^:/.test(head))
    return none("This is sparse6 with a fault.");
  if (/^[&;]/.test(head)) return none("This is digraph6 or incremental sparse6. Pigale reads undirected graphs as graph6.");
  if (bytes.includes(0)) return { kind: "maps", order: hasSwappedWords(bytes, 0) ? "le" : "be", name: "planar_code" };
  const end = lineEnd(bytes, start);
  const first = asText(bytes.subarray(start, end > 0 ? end - 1 : bytes.length)).replace(/\r$|>>graph6<<.*/, "");
  if (isGraphLine(first)) return { kind: "graphs", name: "graph6" };
  if (/^\d+ [a-z]+(,[a-z]*)+$/m.test(head))
    return none("This is the ASCII code of plantri. Run plantri without -a, so that it writes planar_code.");
  if (/^\s*[{[]/.test(head))
    return none("This JSON is no graph. “python3 python/pigale.py check FILE” of the repository has a drawing in JSON judged.");
  if (/^\s*\d+[ ,\t]+\d+\s*$/m.test(head))
    return none("This looks like a list of edges, but is no graph.");
  if (/[^\x09\x0a\x0d\x20-\x7e]/.test(head)) return { kind: "maps", order: "be", name: "planar_code" };
  return none("This text is neither a graph nor a figure. What is read is named above.");
}

// Says whether a line is as long as its first byte says, and in the bytes of graph6.
export function isGraphLine(line) {
  if (!/^[?-~]+$/.test(line)) return false;
  const wide = line[0] === "~";
  if (wide && (line.length < 4 || line[1] === "~")) return line.length > 8;
  const six = (k) => line.charCodeAt(k) - 63;
  const count = wide ? (six(1) << 12) | (six(2) << 6) | six(3) : six(0);
  return line.length === (wide ? 4 : 1) + Math.ceil((count * (count - 1)) / 12);
}

// Says whether the first record is wide and makes a map only with the lesser byte of each number first.
function hasSwappedWords(bytes, at) {
  if (bytes[at] !== 0) return false;
  return !isWideRecord(bytes, at, false) && isWideRecord(bytes, at, true);
}

function isWideRecord(bytes, at, swapped) {
  const number = (k) => (swapped ? bytes[k] | (bytes[k + 1] << 8) : (bytes[k] << 8) | bytes[k + 1]);
  const count = number(at + 1);
  let k = at + 3;
  if (!count || count > 4095) return false;
  for (let v = 0; v < count; v++) {
    for (; k + 2 <= bytes.length && number(k); k += 2) if (number(k) > count) return false;
    if (k + 2 > bytes.length) return false;
    k += 2;
  }
  return true;
}

// Returns the end of the record of planar_code that begins at `at`, or -1 where none ends there.
export function recordEnd(bytes, at, swapped = false) {
  let k = at + 1;
  if (bytes[at]) {
    for (let v = bytes[at]; v; v--) {
      k = bytes.indexOf(0, k) + 1;
      if (!k) return -1;
    }
    return k;
  }
  const number = () => (swapped ? bytes[k] | (bytes[k + 1] << 8) : (bytes[k] << 8) | bytes[k + 1]);
  const count = k + 2 <= bytes.length ? number() : 0;
  if (!count || count > 4095) return -1;
  k += 2;
  for (let v = count; v; v--) {
    while (k + 2 <= bytes.length && number()) k += 2;
    if (k + 2 > bytes.length) return -1;
    k += 2;
  }
  return k;
}

// Returns the header of planar_code that stands at `at`, as its length and the order of bytes that it names; or null.
export function planarHeader(bytes, at) {
  if (bytes[at] !== MORE || !startsAt(bytes, at, PLANAR_START)) return null;
  const found = /^>>planar_code *(le|be)? *<</.exec(asText(bytes.subarray(at, at + 256)));
  return found && { length: found[0].length, order: found[1] || "" };
}

// Returns the lines of a text that the program is to read, without their ends, and the number of the line in which each
// stands. Empty lines, a byte 13 before the end, and headers of graph6 are left out.
function* keptLines(kind, bytes) {
  for (let [at, number] = [0, 1]; at < bytes.length; number++) {
    const end = lineEnd(bytes, at);
    const next = end > 0 ? end : bytes.length;
    let to = end > 0 ? end - 1 : next;
    if (end > 0 && to > at && bytes[to - 1] === 13) to--;
    for (const line of kind === "graphs" ? betweenHeaders(bytes.subarray(at, to)) : [bytes.subarray(at, to)])
      if (line.length) yield [line, number];
    at = next;
  }
}

function* betweenHeaders(line) {
  let from = 0;
  for (let at = line.indexOf(MORE); at >= 0; at = line.indexOf(MORE, at + 1)) {
    if (!startsAt(line, at, GRAPH_HEADER)) continue;
    yield line.subarray(from, at);
    from = at + GRAPH_HEADER.length;
    at = from - 1;
  }
  yield line.subarray(from);
}

// Returns the number of the line in which the kept line `count`, from 1, stands in the text as it was given.
export function givenLine(kind, bytes, count) {
  let k = 0;
  let last = 0;
  for (const [, number] of keptLines(kind, bytes)) {
    last = number;
    if (++k === count) break;
  }
  return last + Math.max(0, count - k);
}

// Returns lines that end by one byte 10 each, without empty ones and headers, and what was mended for it, in words.
export function plainLines(kind, bytes) {
  const start = kind === "graphs" && startsAt(bytes, 0, GRAPH_HEADER) ? GRAPH_HEADER.length + (bytes[GRAPH_HEADER.length] === 10 ? 1 : 0) : 0;
  const notes = faultsOf(kind, bytes.subarray(start));
  if (!notes.length) return { bytes: bytes.subarray(start), notes };
  const pieces = [];
  const end = Uint8Array.of(10);
  for (const [line] of keptLines(kind, bytes)) pieces.push(line, end);
  return { bytes: joined(pieces), notes };
}

// Returns in words what there is to mend in lines.
function faultsOf(kind, bytes) {
  const found = new Set();
  for (let at = 0; at < bytes.length; at++) {
    if (bytes[at] === 10 && (at === 0 || bytes[at - 1] === 10)) found.add("empty lines were taken out");
    else if (bytes[at] === 13 && bytes[at + 1] === 10) found.add("carriage returns were taken out");
    else if (bytes[at] === MORE && kind === "graphs" && startsAt(bytes, at, GRAPH_HEADER))
      found.add("headers of joined files were taken out");
  }
  if (bytes.length && bytes[bytes.length - 1] !== 10) found.add("the last line was closed");
  return [...found];
}
