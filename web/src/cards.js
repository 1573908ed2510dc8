// The cards: a page of records, each with its pictures, and one picture enlarged.

import { plural, said } from "./answers.js";
import { $, copy, element, page, saveFile } from "./dom.js";
import { codeOf, readFigure, readGraph } from "./figures.js";
import { variable } from "./pens.js";
import { edgesOf, picture, pictureDocument } from "./pictures.js";

export const NOUNS = { maps: "map", graphs: "graph", figures: "figure" };
const DENSE = 600; // vertices from which on a picture is made of few paths, without numbers
const CARD = { side: 240, least: 7.5, fine: 1.4, dense: DENSE / 2 }; // how pictures in cards look

function perPage() {
  const { answers, list } = page;
  if (answers.jobs.every((job) => job === "count")) return 100;
  const { blocks, source } = answers.record(list[page.from] || 0);
  const size = Math.max(...Object.values(blocks).map((lines) => (lines || []).length), source ? source.length : 0);
  return size > DENSE ? 2 : answers.jobs.length > 1 ? 8 : 24;
}

export function showRecords() {
  const { answers, list } = page;
  const each = list.length ? perPage() : 1;
  const to = Math.min(list.length, page.from + each);
  page.to = to;
  const noun = NOUNS[answers.kind];
  $("pager").hidden = answers.records <= 1;
  $("jump").hidden = list.length <= each;
  $("back").hidden = $("on").hidden = list.length <= each;
  $("back").disabled = page.from === 0;
  $("on").disabled = to === list.length;
  $("record").max = answers.records;
  $("range").textContent = !list.length
    ? "none"
    : `${(page.from + 1).toLocaleString("en")}–${to.toLocaleString("en")} of ${list.length.toLocaleString("en")}`;
  watcher.disconnect();
  $("records").className = answers.jobs.length > 1 ? "" : answers.jobs[0] === "count" ? "lines" : "one";
  $("records").replaceChildren(...list.slice(page.from, to).map((number) => shownRecord(number, noun)));
}

// Makes pictures when they come near the screen.
const watcher = new IntersectionObserver(
  (seen) => {
    for (const { isIntersecting, target } of seen)
      if (isIntersecting) {
        watcher.unobserve(target);
        target.draw();
      }
  },
  { rootMargin: "400px" },
);

function svgOf(figure, words) {
  const { width, height, body } = picture(figure, { ...page.look, ...CARD, paint: variable });
  return `<svg viewBox="0 0 ${width} ${height}" role="img" aria-label="${words}">${body}</svg>`;
}

// Makes the pictures that are not made yet, as printing wants them all.
export function drawAll() {
  watcher.disconnect();
  for (const shot of document.querySelectorAll(".shot")) if (!shot.firstChild) shot.draw();
}

function shownRecord(number, noun) {
  const { blocks, source } = page.answers.record(number);
  const box = element("article", "", { className: "record" });
  const cards = element("div", "", { className: "cards" });
  const reasons = new Map();
  const [above, notes] = [[], []];
  let words = "";
  for (const [job, lines] of Object.entries(blocks)) {
    if (!lines) continue;
    if (lines[0].startsWith("count ")) words = said(lines[0]);
    else if (lines[0].startsWith("refused ")) {
      const reason = said(lines[0]);
      reasons.set(reason, [...(reasons.get(reason) || []), job]);
    } else if (lines[0].startsWith("verdict ")) {
      reasons.set(said(lines[0]), []);
    } else {
      const figure = readFigure(lines);
      cards.append(card(figure, number));
      const witness = figure.kind === "K5" ? "K5" : "K3,3";
      if (figure.job === "witness") words = `not planar: it contains a subdivision of ${witness}`;
      else if (job === "embed") words = `planar: ${sizeOf(figure)}`;
      else words ||= sizeOf(figure);
    }
  }
  box.append(element("h3", `${noun[0].toUpperCase()}${noun.slice(1)} ${(number + 1).toLocaleString("en")}${words ? `: ${words}` : ""}`));
  for (const [reason, jobs] of reasons) {
    // One job of several that does not fit is no fault of the record.
    const isPart = jobs.length && jobs.length < Object.keys(blocks).length;
    const words = isPart ? `Not for ${jobs.join(", ")}: ${reason}.` : `${reason[0].toUpperCase()}${reason.slice(1)}.`;
    const line = element("p", words, { className: isPart ? "other" : reason === "valid" ? "" : "no" });
    (isPart ? notes : above).push(line);
  }
  box.append(...above);
  if (source) {
    const figure = readFigure(source);
    if (figure) cards.append(card({ ...figure, isGiven: true }, number));
  }
  if (cards.children.length) box.append(cards);
  box.append(...notes);
  return box;
}

function sizeOf(figure) {
  return `${plural(figure.count, "vertex", "vertices")}, ${plural(edgesOf(figure.lists).length, "edge")}`;
}

function caption(figure) {
  if (figure.job === "witness") return `subdivision of ${figure.kind === "K5" ? "K5" : "K3,3"}`;
  const most = (values) => values.reduce((most, it) => Math.max(most, it), 0);
  const [x, y] = figure.places
    ? [0, 1].map((k) => most(figure.places.map((place) => place[k])))
    : figure.bars
      ? [most(figure.bars.map((it) => it.b)), most(figure.bars.map((it) => it.y))]
      : [most(figure.rects.map((it) => it.b)), most(figure.rects.map((it) => it.d))];
  return `${figure.job}, ${x.toLocaleString("en")} by ${y.toLocaleString("en")}`;
}

function card(figure, number) {
  const box = element("figure");
  const words = caption(figure);
  const isOne = page.answers.kind !== "figures" && page.calls.has("schnyder");
  const onclick = () => (isOne ? open(figure, number) : enlarge(figure, number));
  const shot = element("button", "", { type: "button", className: "shot", onclick });
  shot.setAttribute("aria-label", `${isOne ? "Open" : "Enlarge"} ${words}`);
  shot.draw = () => {
    try {
      shot.innerHTML = svgOf(figure, words);
    } catch {
      shot.textContent = "No picture: the figure names a vertex that it does not have.";
    }
  };
  watcher.observe(shot);
  const foot = element("figcaption", words);
  const acts = element("span", "", { className: "acts" });
  acts.append(
    element("button", "Copy text", { type: "button", onclick: ({ target }) => copy(figure.lines.join("\n") + "\n", target) }),
    element("button", "Save SVG", { type: "button", onclick: () => saveSvg(figure, number) }),
  );
  if (page.answers.kind === "graphs" && figure.lists) {
    const name = `The map of graph ${(number + 1).toLocaleString("en")}`;
    acts.append(element("button", "Draw in all ways", { type: "button", onclick: () => page.take([{ bytes: codeOf(figure.lists), name }]) }));
  }
  foot.append(acts);
  box.append(shot, foot);
  return box;
}

// Opens the sheet of a record, with the view of its picture in front.
function open(figure, number) {
  const title = `${NOUNS[page.answers.kind]} ${(number + 1).toLocaleString("en")}`;
  const graph = figure.job === "witness" ? readGraph(figure.graph) : { count: figure.count, edges: edgesOf(figure.lists) };
  const names = Array.from({ length: graph.count }, (_, k) => String(k + 1));
  const lists = figure.lists ? { lists: figure.lists } : {};
  const show = page.answers.kind === "maps" ? figure.job : "";
  page.open({ names, edges: graph.edges, ...lists, show }, `${title[0].toUpperCase()}${title.slice(1)} of ${page.input.name}`);
  scrollTo(0, 0);
}

export function saveSvg(figure, number) {
  saveFile([pictureDocument(figure, page.look)], `${figure.job}-${number + 1}.svg`);
}

// Shows one figure large, and larger.
function enlarge(figure, number) {
  page.large = { figure, number, zoom: 1 };
  $("name").textContent = `${NOUNS[page.answers.kind]} ${(number + 1).toLocaleString("en")}: ${caption(figure)}`;
  $("large").showModal();
  redraw();
}

export function redraw() {
  const { figure, zoom } = page.large;
  const sheet = $("sheet");
  const room = Math.max(200, Math.min(sheet.clientWidth, sheet.clientHeight) - 24);
  try {
    const fine = 1 / Math.sqrt(zoom);
    const look = { ...page.look, side: room * zoom, least: 7, fine, dense: DENSE * zoom, paint: variable };
    const { width, height, body } = picture(figure, look);
    const scale = zoom * Math.min((sheet.clientWidth - 24) / width, (sheet.clientHeight - 24) / height);
    const size = `viewBox="0 0 ${width} ${height}" width="${width * scale}" height="${height * scale}"`;
    sheet.innerHTML = `<svg ${size} role="img" aria-label="${$("name").textContent}">${body}</svg>`;
  } catch {
    sheet.textContent = "No picture: the figure names a vertex that it does not have.";
  }
  $("smaller").disabled = zoom <= 1;
  $("larger").disabled = zoom >= 16;
}

export function zoom(by) {
  const sheet = $("sheet");
  const [x, y] = [(sheet.scrollLeft + sheet.clientWidth / 2) / sheet.scrollWidth, (sheet.scrollTop + sheet.clientHeight / 2) / sheet.scrollHeight];
  page.large.zoom = Math.min(16, Math.max(1, page.large.zoom * by));
  redraw();
  sheet.scrollTo(x * sheet.scrollWidth - sheet.clientWidth / 2, y * sheet.scrollHeight - sheet.clientHeight / 2);
}
