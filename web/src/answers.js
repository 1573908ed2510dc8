// The program's text: the numbers of records in it, and what its refusals and verdicts say in words.

import { blocksOf, figureLines } from "./figures.js";

// Counts a text's answers: how many `records` it answers, how many are `refused`, how it stops, if it does, and its `text`
// without the last line. Where memory ran out on the way there is no last line, and a figure that is not whole is left out.
export function tally(text) {
  const cut = text.lastIndexOf("\n", text.length - 2) + 1;
  const last = text.slice(cut, -1).split(" ");
  if (last[0] === "end" && text.endsWith("\n"))
    return { records: Number(last[2]), refused: Number(last[4]), stop: null, text: text.slice(0, cut) };
  const isTold = last[0] === "stop" && text.endsWith("\n");
  const lines = isTold ? text.slice(0, cut) : wholeBlocks(text);
  const records = (lines.match(/^(figure|count|refused|verdict) /gm) || []).length;
  return { records, refused: null, stop: isTold ? last.slice(1) : [], text: lines };
}

// Returns the lines of a text up to the last one that closes a block.
function wholeBlocks(text) {
  const closed = text.slice(0, text.lastIndexOf("\n") + 1);
  const head = closed.lastIndexOf("\nfigure ") + 1;
  const [last] = blocksOf(closed.slice(head));
  const isWhole = !last || !last[0].startsWith("figure ") || last.length > figureLines(last[0].split(" "));
  return isWhole ? closed : closed.slice(0, head);
}

// Returns lines in which the first record has the number `base` + 1.
export function numbered(lines, base) {
  return base ? lines.replace(/^(figure|count|refused|verdict) (\d+)/gm, (_, word, number) => `${word} ${Number(number) + base}`) : lines;
}

export function plural(count, noun, more = noun + "s") {
  return `${count.toLocaleString("en")} ${count === 1 ? noun : more}`;
}

// Says in words what a line that is no figure says.
export function said(line) {
  const [word, , ...rest] = line.split(" ");
  if (word === "count") {
    const [n, m, f, c, genus] = [1, 3, 5, 7, 9].map((k) => Number(rest[k]));
    const parts = c > 1 ? `, ${plural(c, "component")}` : "";
    return `${plural(n, "vertex", "vertices")}, ${plural(m, "edge")}, ${plural(f, "face")}${parts}, ${genus ? `genus ${genus}` : "plane"}`;
  }
  if (word === "refused") return refusal(rest[1], rest.slice(2));
  if (word === "verdict") return verdict(rest[0], rest.slice(1));
  return line;
}

function refusal(name, [a, b, c]) {
  return {
    OutOfRange: `no map: the list of vertex ${a} names ${b}, and there is no such vertex`,
    Loop: `no simple map: vertex ${a} is in its own list`,
    Repeated: `no simple map: the list of vertex ${a} names ${b} twice`,
    OneSided: `no map: the list of vertex ${a} names ${b}, and that of ${b} does not name ${a}`,
    Small: `too small: it has ${plural(Number(a), "vertex", "vertices")}`,
    Genus: `not in the plane: the map lies on a surface of genus ${a}`,
    NotConnected: "not connected",
    CutVertex: `vertex ${a} is a cut vertex`,
    SeparatingPair: `vertices ${a} and ${b} are a separating pair`,
    OuterNotQuad: "the outer face, on the left of the first edge of vertex 1, is no quadrangle",
    NotTriangle: `the face on the left of the edge from ${a} to ${b} is no triangle`,
    SeparatingTriangle: `the triangle ${a}, ${b}, ${c} separates other vertices`,
    NoInner: "no vertex lies inside of the outer quadrangle",
  }[name] || `refused: ${name}`;
}

function verdict(name, [a, b, c, d]) {
  return {
    yes: "valid",
    OutOfGrid: `vertex ${a} stands outside the grid`,
    SamePlace: `vertices ${a} and ${b} stand at one place`,
    OnEdge: `vertex ${a} stands on the edge ${b}–${c}`,
    Cross: `the edges ${a}–${b} and ${c}–${d} cross`,
    Turned: `the neighbours of vertex ${a} stand in another order than its list says`,
    Inside: `the edge from ${a} to ${b} lies on another outer face than the first edge of vertex 1`,
    BadShape: "it has not the lines that such a figure has",
    BadHeight: `the height of vertex ${a} is out of range, or that of a lesser vertex`,
    BadBar: `the bar of vertex ${a} is turned round or out of range`,
    BadColumn: `the column of the edge ${a}–${b} leaves the bar of an end`,
    Through: `the edge ${a}–${b} goes through the bar of ${c}`,
    Bent: `the inner face with ${a}, ${b}, ${c} bends inwards at ${b}`,
    OuterBent: "the outer face is no triangle",
    BadRect: `the rectangle of vertex ${a} is empty or out of range`,
    Meet: `the rectangles of ${a} and ${b} overlap`,
    Gap: "the rectangles leave a gap",
    Contact: `${a} and ${b} share a side and are not adjacent, or are adjacent and share none`,
    NoFrame: "the outer face is no quadrangle",
    Frame: `the rectangle of vertex ${a} does not lie along its side of the frame`,
    BadBranch: `branch ${a} is no vertex, or is named twice`,
    NotEdge: `path ${a} takes no edge of the graph after its vertex ${b}`,
    Shared: a === b ? `path ${a} passes vertex ${c} twice, or it is a branch` : `paths ${a} and ${b} both pass vertex ${c}`,
  }[name] || name;
}

// Says in words why a run stopped before the end of its input.
export function stopped(kind, [name, at]) {
  const byte = Number(at).toLocaleString("en");
  if (name === "EndInRecord")
    return Number(at) <= 15
      ? "No whole record of planar_code stands at the beginning. The input is in another format, or is cut off."
      : `The input ends inside the record that begins at byte ${byte}. It was cut off, or something follows the last record.`;
  if (name === "BadCount")
    return `The record at byte ${byte} has a number of vertices out of range, which is 1 to 4,095. Its numbers may have the lesser byte first: choose that above.`;
  if (name === "BadLine")
    return kind === "graphs"
      ? `Line ${byte} is no graph in graph6. A line of sparse6 begins with a colon, and needs nauty-copyg -g first.`
      : `Line ${byte} is not what a figure has there. Coordinates are whole, and words are parted by one space.`;
  if (name === "Limit")
    return kind === "graphs"
      ? `The graph of line ${byte} has more than 255 vertices.`
      : `A number of line ${byte} is out of range. Vertices are numbered from 1 to 4,095, and coordinates reach to 1,048,576.`;
  if (name === "EndInFigure") return `The text ends inside the figure that begins at line ${byte}. It has fewer lines than its first line says.`;
  if (name === "TooLong") return "One record has more than 16 MiB.";
  return name ? `It stopped: ${name} ${at || ""}` : "There is not enough memory for the next record. What was answered before stands below.";
}
