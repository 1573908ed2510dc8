// Runs of a job over the input that the page has, and what is shown of them as they go on.

import { plural } from "./answers.js";
import { asText, lineCount } from "./bytes.js";
import { NOUNS, showRecords } from "./cards.js";
import { $, copy, element, page, saveFile } from "./dom.js";
import { parts } from "./parts.js";
import { Answers } from "./results.js";

const ALL = "all";
const JOBS = {
  maps: ["count", "shift", "schnyder", "bars", "convex", "rect"],
  graphs: ["embed"],
  figures: ["verify"],
};
const HINTS = {
  all: "Counts each map, and draws it in each way that fits it.",
  count: "Vertices, edges, faces, components and genus of each map.",
  shift: "Straight edges on the grid 2n−4 by n−2, by the shift method of de Fraysseix, Pach and Pollack.",
  schnyder: "Straight edges on the grid n−2 by n−2, by Schnyder’s method.",
  bars: "Vertices as level bars, edges as upright lines between bars that see each other. For maps without cut vertex.",
  convex: "Straight edges and convex faces on the grid f−1 by f−1. For three-connected maps.",
  rect: "Vertices as rectangles that tile one. For maps of triangles within a quadrangle, of which none separates.",
  embed: "A drawing without crossings, or a subdivision of K5 or K3,3, which says that there is none.",
  verify: "Whether a figure is valid, or its first fault.",
};
const PART = 1 << 17; // bytes of an input that are answered at a time
const MANY = 1 << 18; // bytes from which on one job is taken unless all are asked for

function capital(word) {
  return word[0].toUpperCase() + word.slice(1);
}

// Shows the jobs of the input's kind, one of them chosen.
export function showJobs() {
  const names = page.kind === "maps" ? [ALL, ...JOBS.maps] : JOBS[page.kind];
  const chosen = page.job[page.kind] || (page.kind === "maps" && page.size > MANY ? "schnyder" : names[0]);
  $("jobs").replaceChildren($("jobs").firstElementChild);
  for (const name of names) {
    const label = element("label", name === ALL ? "all that fit" : name);
    label.prepend(element("input", "", { type: "radio", name: "job", value: name, checked: name === chosen }));
    $("jobs").append(label);
  }
}

// Ends a run without a word.
export function stopRun() {
  page.turn++;
  if (page.isRunning) page.machine.stop();
  page.isRunning = false;
}

// Answers the parts of all inputs, one by one, until `isOver`; `shown` is called behind each.
async function answerParts(answers, isOver, shown) {
  let [from, base] = [0, 0];
  for (const file of answers.inputs) {
    const before = answers.records;
    for (const part of parts(file, PART)) {
      const texts = {};
      for (const name of answers.jobs) {
        const { text } = await page.machine.answer(name, part.input.slice());
        if (isOver()) return;
        texts[name] = asText(text);
      }
      answers.add(part, texts, file, from, base);
      shown();
      if (answers.stop) return;
    }
    from += file.bytes.length;
    base += { maps: file.given.length, graphs: answers.records - before, figures: lineCount(file.given) }[answers.kind];
  }
  answers.isWhole = true;
}

// Runs the chosen job over the whole input, part by part.
export async function runJob() {
  const job = document.querySelector("[name=job]:checked").value;
  stopRun();
  const turn = page.turn;
  const answers = new Answers(page.kind, job === ALL ? JOBS.maps : [job], page.inputs);
  const began = performance.now();
  Object.assign(page, { answers, filter: "all", isAsked: false, from: 0, isRunning: true, shown: 0 });
  $("hint").textContent = HINTS[job];
  $("fault").textContent = "";
  $("progress").hidden = true;
  const slow = setTimeout(() => ($("progress").hidden = turn !== page.turn || !page.isRunning), 150);
  const isOver = () => turn !== page.turn;
  try {
    await answerParts(answers, isOver, () => showProgress(answers, began));
  } catch (fault) {
    const noun = NOUNS[answers.kind];
    answers.why = `${capital(noun)} ${(answers.records + 1).toLocaleString("en")} and what follows are not answered: ${fault.message}.`;
  }
  clearTimeout(slow);
  if (isOver()) return;
  page.isRunning = false;
  $("progress").hidden = true;
  showStatus(performance.now() - began);
  show();
}

function showProgress(answers, began) {
  $("bar").value = answers.size ? answers.done / answers.size : 1;
  const at = performance.now();
  const isFirst = answers.parts.length === 1;
  if (!isFirst && at - page.shown <= 250) return;
  showStatus(at - began);
  if (isFirst) show();
  showTotals();
  page.shown = at;
}

function showStatus(time) {
  const { answers } = page;
  const records = plural(answers.records, NOUNS[answers.kind]);
  const seconds = time < 950 ? `${Math.max(1, Math.round(time))} ms` : `${(time / 1000).toFixed(1)} s`;
  const share = Math.floor((100 * answers.done) / Math.max(1, answers.size));
  const were = answers.headers === 1 ? "was" : "were";
  const joined = answers.headers ? ` ${plural(answers.headers, "header")} of joined files ${were} passed over.` : "";
  $("status").textContent = page.isRunning ? `${records} so far, ${share} % of the input, ${seconds}` : `${records} in ${seconds}.${joined}`;
  $("fault").textContent = answers.why;
}

// Ends a run where it is, and shows what was answered.
export function halt() {
  if (!page.isRunning) return;
  stopRun();
  $("progress").hidden = true;
  show();
  $("status").textContent = `Stopped after ${plural(page.answers.records, NOUNS[page.answers.kind])}.`;
}

// Shows the answers so far: totals, and a page of records.
export function show() {
  const { answers } = page;
  $("found").hidden = !answers.records && !answers.parts.length;
  if (!page.isRunning && answers.records > 24 && !page.isAsked && answers.jobs.some((job) => job !== "count")) page.filter = "drawn";
  $("filter").value = page.filter;
  page.list = answers.kept(page.filter);
  if (!page.list.length && page.filter !== "all" && !page.isAsked) {
    $("filter").value = page.filter = "all";
    page.list = answers.kept("all");
  }
  showTotals();
  showRecords();
}

function showTotals() {
  const { answers } = page;
  const rows = answers.jobs.map((job) => {
    const refused = [...answers.refused[job]].sort((p, q) => q[1] - p[1]);
    const count = refused.reduce((sum, it) => sum + it[1], 0);
    const good = { count: "counted", verify: "valid" }[job] || (job === "embed" ? "answered" : "drawn");
    const named = refused.map(([name, it]) => (refused.length > 1 ? `${name} ${it.toLocaleString("en")}` : name)).join(", ");
    const why = count ? `, ${count.toLocaleString("en")} ${job === "verify" ? "with a fault" : "refused"}: ${named}` : "";
    const row = element("div", "", { className: "total" });
    const words = element("span");
    words.append(element("strong", job), `: ${(answers.records - count).toLocaleString("en")} ${good}${why}`);
    const text = (act) => act(answers.pieces(job), `${job}.txt`);
    const copied = (button) => text((pieces) => copy(pieces.join(""), button));
    row.append(
      words,
      element("button", "Copy", { type: "button", title: `Copy the text of ${job}`, onclick: ({ target }) => copied(target) }),
      element("button", "Save", { type: "button", title: `Save the text of ${job}`, onclick: () => text(saveFile) }),
    );
    return row;
  });
  $("totals").replaceChildren(...rows);
}
