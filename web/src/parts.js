// Long inputs, cut between records into parts that are answered one by one.

import { asText, joined, lineCount, lineEnd } from "./bytes.js";
import { figureLines } from "./figures.js";
import { givenLine, PLANAR_HEADER, planarHeader, plainLines, recordEnd } from "./formats.js";

const MOST_BYTES = 1 << 24; // of one record

// Returns an input as parts are cut from it: its kind, its bytes, for maps the order of bytes within wide numbers, and in
// words what was mended.
export function readable(kind, order, bytes) {
  if (kind === "maps") return { kind, order, bytes, given: bytes, notes: [] };
  return { kind, given: bytes, ...plainLines(kind, bytes) };
}

// Cuts an input between records into parts of about `size` bytes, the first a quarter of that. Each part has its `input`,
// which the program is given, where it ends in the bytes of the whole (`to`), how many headers it had beside the first
// one (`headers`), and `placeOf`, which says where in the given input a bad place is that the program names in the part.
export function parts(input, size) {
  return input.kind === "maps" ? mapParts(input, size) : lineParts(input, size);
}

function* mapParts({ bytes, order }, size) {
  let [at, isSwapped] = [0, order === "le"];
  do {
    const part = new MapPart(bytes, at);
    const most = at + (at ? size : size / 4);
    while (at < bytes.length && at < most) {
      const header = planarHeader(bytes, at);
      if (header) {
        if (at) isSwapped = header.order === "le";
        part.skip(at, at + header.length);
        at += header.length;
        continue;
      }
      const end = recordEnd(bytes, at, isSwapped);
      if (isSwapped && !bytes[at]) part.swap(at, end < 0 ? bytes.length : end);
      if (end < 0) part.cutOff(at);
      at = end < 0 ? bytes.length : end;
    }
    yield part.closed(at);
  } while (at < bytes.length);
}

// Some whole records, from a place in the bytes on, behind a header.
class MapPart {
  constructor(bytes, from) {
    Object.assign(this, { bytes, kept: from, pieces: [PLANAR_HEADER], length: PLANAR_HEADER.length, headers: 0 });
    this.starts = [[this.length, from]]; // places in the input, each with that in the bytes
  }

  // Takes the bytes that are not taken yet, up to a place.
  take(to) {
    this.pieces.push(this.bytes.subarray(this.kept, to));
    this.length += to - this.kept;
    this.kept = to;
  }

  skip(from, to) {
    this.take(from);
    this.kept = to;
    if (from) this.headers++;
    this.starts.push([this.length, to]);
  }

  // Takes a wide record with the greater byte of each number first.
  swap(from, to) {
    this.take(from);
    const record = this.bytes.slice(from, to);
    for (let k = 1; k + 1 < record.length; k += 2) [record[k], record[k + 1]] = [record[k + 1], record[k]];
    this.pieces.push(record);
    this.length += to - from;
    this.kept = to;
  }

  // Takes no more of a record that does not end than the program needs to say so.
  cutOff(from) {
    const isLong = this.bytes.length - from > MOST_BYTES;
    if (this.kept > from) this.pieces.push(this.pieces.pop().subarray(0, isLong ? MOST_BYTES + 1 : undefined));
    else if (isLong) {
      this.take(from + MOST_BYTES + 1);
      this.kept = this.bytes.length;
    }
  }

  closed(to) {
    this.take(Math.max(to, this.kept));
    const { starts, headers } = this;
    const placeOf = (number) => {
      const [from, place] = starts.filter(([from]) => from <= number).pop() || [PLANAR_HEADER.length, starts[0][1]];
      return place + number - from;
    };
    return { input: joined(this.pieces), to, headers, placeOf };
  }
}

function* lineParts({ kind, bytes, given }, size) {
  const end = kind === "graphs" ? lineEnd : figureEnd;
  let [at, before] = [0, 0];
  do {
    const [from, lines] = [at, before];
    const most = from + (from ? size : size / 4);
    while (at < bytes.length && at < most) {
      const next = end(bytes, at);
      at = next > 0 ? next : bytes.length;
    }
    const input = bytes.slice(from, at);
    before += lineCount(input);
    // Graphs are counted, and figures have their lines as they were given.
    const placeOf = (number) => (kind === "graphs" ? lines + number : givenLine(kind, given, lines + number));
    yield { input, to: at, headers: 0, placeOf, lineOf: (number) => givenLine(kind, given, lines + number) };
  } while (at < bytes.length);
}

// Returns the end of the figure or the note that begins at `at`.
function figureEnd(bytes, at) {
  let end = lineEnd(bytes, at);
  if (end < 0) return -1;
  const words = asText(bytes.subarray(at, Math.min(end - 1, at + 60))).split(" ");
  if (words[0] !== "figure") return end;
  for (let left = figureLines(words); left > 0 && end > 0; left--) end = end < bytes.length ? lineEnd(bytes, end) : -1;
  return end;
}
