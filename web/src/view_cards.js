// The cards of a sheet: one for each view, with its picture, what is said of it, and what can be done there.

import { $, copy, element, page, saveFile } from "./dom.js";
import { plain, variable } from "./pens.js";
import { jsonOf, pngOf, svgDocument } from "./saving.js";
import { Scene } from "./scenes.js";
import { tikzDocument, tikzOf } from "./tikz.js";
import { aboutOf, documentOf, hasLayer, LAYERS, rectFace, titleOf, viewOf } from "./views.js";

export const SPARSE = 600; // vertices from which on a picture has neither numbers nor what is laid over
const SIDE = { small: 400, large: 860 }; // pixels of a picture, also of one in front
const LATE = 1200; // vertices from which on the round drawing is made when it is asked for
const PLAY = 700; // milliseconds for a step

const viewCards = () => [...document.querySelectorAll(".view")];
const cardOf = (view) => viewCards().find((card) => card.dataset.view === view);

// Returns the card of a view, whose picture is made when it comes near the screen.
export function makeView(study, view) {
  const card = element("figure", "", { className: "view" });
  card.dataset.view = view;
  const head = element("figcaption");
  const onclick = () => toFront(study, view);
  const title = element("button", titleOf(view), { type: "button", className: "title", title: "Larger or smaller", onclick });
  head.append(title, element("span", aboutOf(view), { className: "said" }));
  const pane = element("div", "", { className: "pane", tabIndex: 0 });
  pane.setAttribute("role", "group");
  pane.setAttribute("aria-label", `${titleOf(view)}: arrow keys go over vertices, with shift over faces; Enter puts a face outside`);
  card.append(head, pane, controls(study, view), acts(study, view));
  card.draw = () => {
    const isLate = view === "round" && study.map.count > LATE && !study.isAsked;
    if (!isLate) return redrawView(study, view);
    const ask = () => ((study.isAsked = true), redrawView(study, view));
    pane.replaceChildren(element("button", "Draw it round", { type: "button", onclick: ask }));
  };
  listen(study, view, card, pane);
  if (study.show === view) card.classList.add("front");
  viewWatcher.observe(card);
  return card;
}

const viewWatcher = new IntersectionObserver(
  (seen) => {
    for (const { isIntersecting, target } of seen)
      if (isIntersecting) {
        viewWatcher.unobserve(target);
        if (target.draw) target.draw();
      }
  },
  { rootMargin: "300px" },
);

// Makes the pictures of all cards, as printing wants them.
export function drawViews() {
  for (const card of viewCards()) if (card.draw && !card.scene) card.draw();
}

function lookOf(study, view, side) {
  return { side, ...page.look, least: 8, fine: 1.15, dense: SPARSE, paint: variable };
}

// Draws a view anew where its card has been drawn, and says what is said of it.
export function redrawView(study, view) {
  const card = cardOf(view) || null;
  if (!card || study !== page.study) return;
  const side = card.classList.contains("front") ? SIDE.large : SIDE.small;
  const made = viewOf(study, view, lookOf(study, view, side));
  const said = card.querySelector(".said");
  said.textContent = made.said || aboutOf(view);
  said.className = `said ${made.isRefused || made.isBad ? "no" : made.isGood ? "yes" : ""}`;
  card.classList.toggle("refused", Boolean(made.isRefused));
  card.figure = made.figure;
  const pane = card.querySelector(".pane");
  card.scene = null;
  if (made.fitting > 0) {
    const names = study.map.faces[made.fitting].map((v) => study.map.names[v - 1]).join(" ");
    said.append(" ", element("button", `Put ${names} outside`, { type: "button", onclick: () => page.sheet.choose({ f: made.fitting }) }));
  }
  if (made.isRefused) return pane.replaceChildren();
  const { width, height, body } = made;
  pane.innerHTML = `<svg viewBox="0 0 ${width} ${height}" role="img" aria-label="${titleOf(view)}">${body}<g class="mark"></g></svg>`;
  card.size = { width, height };
  card.scene = study.map && !(view === "shift" && study.stepNow()) ? new Scene(made.scene, study.map) : null;
  mark(card, study, study.focus);
}

// Marks a thing in all views, beside those by which the map falls apart.
export function markAll(study, thing) {
  for (const card of viewCards()) mark(card, study, thing);
}

function mark(card, study, thing) {
  const layer = card.querySelector("g.mark");
  if (!layer || !card.scene) return;
  const isRound = card.dataset.view === "round";
  const apart = isRound ? (study.marked || []).map((v) => card.scene.spot(v)).join("") : "";
  const fitting = isRound && rectFace(study.map) > 0 ? card.scene.mark({ f: rectFace(study.map) }) : "";
  layer.innerHTML = `<g class="fits">${fitting}</g><g class="apart">${apart}</g>${thing ? card.scene.mark(thing) : ""}`;
}

function toFront(study, view) {
  study.show = study.show === view ? "" : view;
  for (const card of viewCards()) {
    const isFront = card.dataset.view === study.show;
    if (isFront !== card.classList.contains("front")) {
      card.classList.toggle("front", isFront);
      redrawView(study, card.dataset.view);
    }
  }
  if (study.show) cardOf(view).scrollIntoView({ block: "nearest" });
  page.sheet.keepLink();
}

// Returns a place in the picture for one on the screen, and how many of its pixels one of the screen is.
function placeOf(card, { clientX, clientY }) {
  const svg = card.querySelector("svg");
  const box = svg.getBoundingClientRect();
  const unit = Math.max(card.size.width / box.width, card.size.height / box.height);
  const [left, top] = [box.left + (box.width - card.size.width / unit) / 2, box.top + (box.height - card.size.height / unit) / 2];
  return [[(clientX - left) * unit, (clientY - top) * unit], unit];
}

function listen(study, view, card, pane) {
  let held = 0;
  pane.onpointermove = (event) => {
    if (!card.scene) return;
    const [place, unit] = placeOf(card, event);
    if (held) return drag(study, card, held, place);
    const thing = card.scene.at(place, unit);
    pane.classList.toggle("over", Boolean(thing));
    page.sheet.tell(thing || study.focus);
  };
  pane.onpointerleave = () => held || page.sheet.tell(study.focus);
  pane.onpointerdown = (event) => {
    if (!card.scene || view !== "round") return;
    held = card.scene.vertexAt(placeOf(card, event)[0], 9 * placeOf(card, event)[1]);
    if (!held) return;
    study.focus = { v: held };
    card.frame = frameOf(study, card);
    pane.setPointerCapture(event.pointerId);
    event.preventDefault();
  };
  pane.onpointerup = () => {
    if (held && study.moved) redrawView(study, view);
    held = 0;
  };
  pane.onclick = (event) => {
    if (!card.scene || card.isDragged) return (card.isDragged = false);
    const thing = card.scene.at(...placeOf(card, event));
    page.sheet.choose(thing && study.focus && thing.v && thing.v === study.focus.v ? null : thing);
  };
  pane.onkeydown = (event) => walkBy(study, event);
}

// Returns how places of the round drawing become those of its picture: by a unit and two moves. Of all vertices the first and
// the one that is farthest from it tell.
function frameOf(study, card) {
  const now = study.moved || study.rounded().places;
  const { spots } = card.scene;
  const apart = (places, k) => Math.hypot(places[k][0] - places[0][0], places[k][1] - places[0][1]);
  const far = now.reduce((best, _, k) => (apart(now, k) > apart(now, best) ? k : best), 0);
  const unit = apart(spots, far) / apart(now, far);
  return { unit, left: spots[0][0] - unit * now[0][0], top: spots[0][1] + unit * now[0][1] };
}

function drag(study, card, v, [x, y]) {
  const found = study.rounded();
  if (!study.moved) {
    // A proved drawing in its stead is shown as it is from now on.
    study.move(v, found.places[v - 1]);
    redrawView(study, "round");
    card.frame = frameOf(study, card);
  }
  const { unit, left, top } = card.frame;
  card.isDragged = true;
  const size = found.size || Math.max(...found.places.flat());
  const whole = (value) => Math.max(Math.round(-size / 50), Math.min(Math.round(1.02 * size), Math.round(value)));
  study.move(v, [whole((x - left) / unit), whole((top - y) / unit)]);
  redrawView(study, "round");
  card.frame = frameOf(study, card);
  $("back-round").hidden = false;
}

// Goes over vertices, or with shift over faces, by the arrow keys.
function walkBy(study, event) {
  const step = { ArrowRight: 1, ArrowDown: 1, ArrowLeft: -1, ArrowUp: -1 }[event.key];
  if (event.key === "Enter" && study.face >= 0) return page.sheet.choose({ f: study.face });
  if (event.key === "Escape") return page.sheet.choose(null);
  if (!step || !study.map) return;
  event.preventDefault();
  if (event.shiftKey) {
    study.face = ((study.face ?? -1) + step + study.map.faces.length) % study.map.faces.length;
    return page.sheet.tell({ f: study.face });
  }
  const v = study.focus && study.focus.v ? study.focus.v : step > 0 ? 0 : 1;
  page.sheet.choose({ v: ((v - 1 + step + study.map.count) % study.map.count) + 1 });
}

// Returns what a view is steered by: the steps of the shift method, or the way back from a drag.
function controls(study, view) {
  const box = element("div", "", { className: "controls" });
  if (view === "round") {
    const layers = Object.entries(LAYERS).filter(([layer]) => hasLayer(study, layer));
    const choice = element("select", "", { id: "layer", title: "What is laid over the drawing" });
    choice.ariaLabel = "Over the round drawing";
    choice.append(...layers.map(([value, text]) => element("option", text, { value, selected: value === study.colours })));
    choice.onchange = () => {
      study.colours = choice.value;
      for (const it of ["round", "convex"]) redrawView(study, it);
      page.sheet.keepLink();
    };
    if (layers.length > 1) box.append(choice);
    const back = element("button", "Undo the moves", { type: "button", id: "back-round", hidden: !study.moved });
    back.onclick = () => ((study.moved = null), (back.hidden = true), redrawView(study, "round"), page.sheet.tell(study.focus));
    box.append(back);
  }
  if (view !== "shift" || study.map.count > SPARSE || study.lastStep() < 0) return box;
  const most = study.lastStep();
  const range = element("input", "", { type: "range", id: "step", min: 0, max: most, value: study.step ?? most });
  range.setAttribute("aria-label", "Step of the canonical order");
  const go = (step) => {
    study.step = Math.max(0, Math.min(most, step));
    range.value = study.step;
    for (const it of ["shift", "round"]) if (it === "shift" || study.colours === "order") redrawView(study, it);
    page.sheet.keepLink();
  };
  range.oninput = () => go(Number(range.value));
  const button = (text, ariaLabel, onclick) => box.append(element("button", text, { type: "button", ariaLabel, onclick }));
  button("◀", "One step back", () => go((study.step ?? most) - 1));
  box.append(range);
  button("▶", "One step on", () => go((study.step ?? most) + 1));
  button("Play", "Play", () => play(study, go, most));
  return box;
}

function play(study, go, most) {
  clearInterval(page.playing);
  go((study.step ?? most) >= most ? 0 : study.step);
  page.playing = setInterval(() => {
    if (study !== page.study || study.step >= most) return clearInterval(page.playing);
    go(study.step + 1);
  }, Math.max(60, Math.min(PLAY, 20000 / most)));
}

function acts(study, view) {
  const box = element("div", "", { className: "acts" });
  const button = (text, act) => box.append(element("button", text, { type: "button", onclick: act }));
  const names = () => (study.map ? study.map.names : study.given.names);
  const own = { paint: (paints) => plain(paints, page.tones), dense: Infinity, least: 0 };
  const made = () => viewOf(study, view, { ...lookOf(study, view, Number($("side").value) || SIDE.large), ...own });
  const name = `${view}.`;
  button("SVG", () => saveFile([svgDocument(made())], `${name}svg`));
  button("PNG", async () => saveFile([await pngOf(svgDocument(made()), made())], `${name}png`));
  button("TikZ", () => saveFile([tikzDocument(tikzOf(made().figure, { ...page.look, names: names() }), page.tones)], `${name}tex`));
  if (view !== "witness") button("JSON", () => saveFile([jsonOf(made().figure, names())], `${name}json`));
  button("Copy", ({ target }) => copy(svgDocument(made()), target));
  box.append(element("a", "method", { href: documentOf(view), title: "What is defined and proved of it" }));
  return box;
}
