// The sheet of one graph: all its views side by side, what is said of it, and what its reader chooses.

import { $, copy, element, page } from "./dom.js";
import { factsOf, told, witnessFacts } from "./facts.js";
import { linkOf } from "./links.js";
import { Study } from "./study.js";
import { rectFace, viewsOf } from "./views.js";
import { makeView, markAll, redrawView, SPARSE } from "./view_cards.js";

// why a graph has neither a map nor a witness
const WHY = {
  BadArgument: "it has more vertices than the program takes",
  Small: "it has fewer than three vertices",
  NoMemory: "there is not enough memory",
};
const HELP = "Point at a vertex, an edge or a face. A click on a face puts it outside, and a vertex of the round drawing can be dragged.";
const MOST_LINK = 60000; // letters of an address that is kept
const CHOICES = 4095; // vertices and faces that are named for choice, at most

// Opens the sheet of a graph: `given` is as for `Study`, and `title` what it is called.
export function openSheet(given, title) {
  const study = new Study(page.calls, given);
  Object.assign(page, { study, title });
  $("one").hidden = false;
  $("found").hidden = $("run").hidden = true;
  $("one-name").textContent = title;
  $("records-back").hidden = !page.answers;
  showStudy();
}

export function closeSheet() {
  $("one").hidden = true;
  page.study = null;
  history.replaceState(null, "", location.pathname + location.search);
}

// Shows a study anew, as behind a change of its map.
export function showStudy() {
  const { study } = page;
  const hasMap = Boolean(study.map);
  for (const id of ["vertex-way", "outer-way", "names-way"]) $(id).hidden = !hasMap;
  for (const id of ["ways-one", "told"]) $(id).hidden = !hasMap;
  for (const id of ["longest", "given"]) $(id).hidden = !hasMap || study.map.faces.length < 2;
  $("facts").textContent = factsNow(study);
  if (hasMap) showChoices(study);
  showLoose(study);
  $("views").replaceChildren(...viewsOf(study).map((view) => makeView(study, view)));
  $("views").classList.toggle("single", viewsOf(study).length < 2);
  tell();
  keepLink();
}

function factsNow(study) {
  if (study.map) {
    study.marked = factsOf(study.map).marked;
    return factsOf(study.map).text;
  }
  const { names, edges } = study.given;
  if (study.witness) return witnessFacts(names, edges, study.witness);
  return `No drawing: ${WHY[study.refused] || study.refused}.`;
}

// Says which edge of a witness can go, so that the graph is planar.
function showLoose(study) {
  $("loose").hidden = true;
  if (!study.witness) return;
  const edge = study.looseEdge();
  const { names, edges } = study.given;
  $("loose").hidden = false;
  $("loose").textContent = "No single edge can go so that it is planar.";
  if (!edge) return;
  const called = edge.map((v) => names[v - 1]).join("–");
  $("loose").textContent = `Without the edge ${called} it is planar. `;
  const rest = edges.filter(([v, u]) => v !== edge[0] || u !== edge[1]);
  const leave = () => openSheet({ ...study.given, edges: rest, out: "", at: "", show: "" }, `${page.title}, without ${called}`);
  $("loose").append(element("button", "Leave it out", { type: "button", onclick: leave }));
}

function showChoices({ map, focus }) {
  const option = (text, value, isChosen) => element("option", text, { value, selected: isChosen });
  const isFew = map.count <= CHOICES;
  const vertices = isFew ? map.names.map((name, k) => option(name, k + 1, focus && focus.v === k + 1)) : [];
  $("vertex").replaceChildren(option("none", "0", !focus), ...vertices);
  const faces = map.faces.slice(0, CHOICES);
  const words = (walk) => walk.slice(0, 8).map((v) => map.names[v - 1]).join(" ") + (walk.length > 8 ? " …" : "");
  const fitting = rectFace(map);
  $("outer").replaceChildren(...faces.map((walk, f) => option(`${words(walk)}${f === fitting ? " (for rectangles)" : ""}`, f, f === 0)));
  $("names").value = map.names.every((name, k) => name === String(map.origin[k])) ? "" : namesGiven(map).join(", ");
}

// Returns the names in the order of the numbers that were given.
function namesGiven(map) {
  const names = [];
  map.origin.forEach((number, k) => (names[number - 1] = map.names[k]));
  return names;
}

// Tells of what is in focus, or of what is under the pointer, and marks it in all views.
export function tell(thing = page.study && page.study.focus) {
  const { study } = page;
  if (!study || !study.map) return;
  const order = study.map.order();
  const rank = order && thing && thing.v ? rankOf(order.order) : null;
  const drawn = study.map.figure("schnyder");
  $("told").textContent = thing ? told(study.map, thing, drawn.places, rank) : HELP;
  markAll(study, thing);
}

function rankOf(order) {
  const rank = [];
  order.forEach((v, k) => (rank[v - 1] = k + 1));
  return rank;
}

// Chooses a vertex, an edge or none, or puts a face outside.
export function choose(thing) {
  const { study } = page;
  if (thing && thing.f >= 0) {
    if (thing.f === 0) return;
    study.putFaceOutside(thing.f);
    showStudy();
    return;
  }
  study.focus = thing;
  $("vertex").value = thing && thing.v ? thing.v : "0";
  if (study.map && study.map.count <= SPARSE) for (const view of viewsOf(study)) redrawView(study, view);
  tell();
  keepLink();
}

// Keeps what is shown in the address of the page.
export function keepLink() {
  const { study } = page;
  const link = linkOf(study.shown());
  history.replaceState(null, "", link.length < MOST_LINK ? link : location.pathname + location.search);
}

export function listenToSheet() {
  page.sheet = { tell, choose, keepLink };
  $("records-back").onclick = () => {
    closeSheet();
    $("found").hidden = $("run").hidden = false;
  };
  $("longest").onclick = () => (page.study.putLongestOutside(), showStudy());
  $("given").onclick = () => (page.study.putGivenOutside(), showStudy());
  $("link").onclick = ({ target }) => copy(location.href.split("#")[0] + linkOf(page.study.shown()), target);
  $("print").onclick = () => print();
  $("vertex").onchange = ({ target }) => choose(Number(target.value) ? { v: Number(target.value) } : null);
  $("outer").onchange = ({ target }) => choose({ f: Number(target.value) });
  $("names").onchange = ({ target }) => rename(target.value);
  for (const choice of document.querySelectorAll("[data-tone]")) {
    const name = choice.dataset.tone;
    choice.value = getComputedStyle(document.documentElement).getPropertyValue(`--${name}`).trim();
    choice.oninput = () => {
      page.tones[name] = choice.value;
      $("views").style.setProperty(`--${name}`, choice.value);
    };
  }
}

// Gives the vertices names, in the order of their numbers; those that are not named keep their numbers.
function rename(text) {
  const { study } = page;
  const names = text.split(",").map((it) => it.trim());
  study.given = { ...study.given, names: study.given.names.map((_, k) => names[k] || String(k + 1)) };
  for (const map of new Set([study.map, study.first])) map.names = map.origin.map((number) => names[number - 1] || String(number));
  showStudy();
}
