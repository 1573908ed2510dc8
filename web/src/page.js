// The page: takes inputs, has them answered, and listens to what its reader does.

import { plural } from "./answers.js";
import { asBytes, asText, startsAt } from "./bytes.js";
import { Calls } from "./calls.js";
import { drawAll, redraw, saveSvg, showRecords, zoom } from "./cards.js";
import { $, copy, element, page } from "./dom.js";
import { Engine } from "./engine.js";
import { madeMap } from "./figures.js";
import { recognized } from "./formats.js";
import { GraphFault, readGraphText, sparse6Lines } from "./graphs.js";
import { readLink } from "./links.js";
import { Machine } from "./machine.js";
import { readable } from "./parts.js";
import { halt, runJob, show, showJobs, stopRun } from "./runs.js";
import { closeSheet, listenToSheet, openSheet, showStudy } from "./sheet.js";
import { drawViews } from "./view_cards.js";

const GZIP = [0x1f, 0x8b];
const MOST_TEXT = 1 << 22; // bytes of a text that is read as a graph
const WAIT = 200; // milliseconds behind a key until what is typed is drawn

async function unpacked(bytes) {
  const stream = new Blob([bytes]).stream().pipeThrough(new DecompressionStream("gzip"));
  return new Uint8Array(await new Response(stream).arrayBuffer());
}

function fromBase64(text) {
  return Uint8Array.from(atob(text.trim()), (it) => it.charCodeAt(0));
}

// Takes files, each with its `bytes` and its `name`, as one input.
async function take(files) {
  page.input = { files: [], name: files.map(({ name }) => name).join(", ") };
  $("format").value = "";
  const found = [];
  for (const { bytes, name } of files) {
    const isPacked = startsAt(bytes, 0, GZIP);
    const plain = isPacked ? await unpacked(bytes).catch(() => bytes) : bytes;
    found.push({ name, bytes: plain, notes: plain === bytes ? [] : ["unpacked"] });
  }
  page.input.files = found;
  page.graphFault = null;
  fold(page.input.name);
  found.forEach(unfoldSparse6);
  if (found.length === 1 && recognized(found[0].bytes).kind === "none" && openGraph(found[0])) return;
  closeSheet();
  $("run").hidden = false;
  await readAs("");
}

// Turns a file of several lines of sparse6 into graph6.
function unfoldSparse6(file) {
  try {
    const lines = /^(>>sparse6<<)?:/.test(asText(file.bytes.subarray(0, 20))) && sparse6Lines(asText(file.bytes));
    if (!lines) return;
    file.bytes = asBytes(lines);
    file.notes.push("turned from sparse6 into graph6");
  } catch (fault) {
    if (!(fault instanceof GraphFault)) throw fault;
    page.graphFault = fault;
  }
}

// Folds the input to a line, so that the answers stand in sight.
function fold(name) {
  $("input").open = false;
  $("fold").textContent = `Input: ${name}. Open to give another one.`;
  document.body.classList.add("used");
  scrollTo(0, 0);
}

// Opens the sheet of a text that is one graph, or says that it is none.
function openGraph({ bytes, name }) {
  if (bytes.length > MOST_TEXT || !hasSheet()) return false;
  try {
    const graph = readGraphText(new TextDecoder().decode(bytes));
    page.answers = null;
    openSheet(graph, graphTitle(graph, name));
    return true;
  } catch (fault) {
    if (!(fault instanceof GraphFault)) throw fault;
    page.graphFault = fault;
    return false;
  }
}

// Says whether the module has the calls that a sheet is made of.
function hasSheet() {
  return ["embed", "schnyder", "check"].every((name) => page.calls.has(name));
}

function graphTitle({ format, dropped }, name) {
  return `${name}, read as ${format}${dropped ? `; ${plural(dropped, "loop or repeated edge", "loops or repeated edges")} left out` : ""}`;
}

// Reads the input as its first bytes say, or as `asked`: a kind, and for maps the order of bytes.
async function readAs(asked) {
  const { files } = page.input;
  const [kind, order] = asked.split(" ");
  const named = $("format").selectedOptions[0].textContent;
  const known = files.map(({ bytes }) => (kind ? { kind, order, name: named } : recognized(bytes)));
  const first = known.findIndex((it) => it.kind !== "none");
  stopRun();
  $("found").hidden = true;
  $("fault").textContent = "";
  $("status").textContent = "";
  $("jobs").hidden = $("hint").hidden = $("progress").hidden = first < 0;
  if (first < 0) {
    $("input").open = true;
    $("source").textContent = files.map(({ name, bytes }) => `${name}: ${plural(bytes.length, "byte")}.`).join(" ");
    const asGraph = files.length === 1 && page.graphFault && page.graphFault.line ? ` As a graph: ${page.graphFault.message}` : "";
    $("fault").textContent = known.map(({ reason }, k) => (files.length > 1 ? `${files[k].name}: ${reason}` : reason)).join(" ") + asGraph;
    return;
  }
  page.kind = known[first].kind;
  page.inputs = [];
  const words = files.map((file, k) => taken(file, known[k], kind));
  page.size = page.inputs.reduce((sum, { bytes }) => sum + bytes.length, 0);
  $("source").textContent = words.join(" ");
  showJobs();
  await runJob();
}

// Adds a file to the inputs where it is of the first one's kind, and says of it what was read, or that it was left out.
function taken({ name, bytes, notes }, found, isAsked) {
  const size = plural(bytes.length, "byte");
  if (found.kind !== page.kind) {
    const reason = found.reason || `It has ${found.name}, and the first file ${page.kind}.`;
    return `${name} is left out: ${reason}`;
  }
  const input = { name, ...readable(found.kind, found.order, bytes) };
  page.inputs.push(input);
  const mended = [...notes, ...input.notes];
  const order = found.order === "le" ? ", lesser byte first" : "";
  const what = isAsked ? `read as ${found.name}` : `${found.name}${order}`;
  return `${name}: ${size}, ${what}${mended.length ? ` (${mended.join("; ")})` : ""}.`;
}

function turnTo(from) {
  page.from = Math.max(0, Math.min(from, page.list.length - 1));
  showRecords();
}

function listenToInputs() {
  $("choose").onclick = () => $("file").click();
  $("file").onchange = async () => {
    await takeFiles($("file").files);
    $("file").value = "";
  };
  $("read").onclick = () => takeText($("paste").value);
  $("paste").oninput = () => {
    clearTimeout(page.waits);
    page.waits = setTimeout(drawTyped, WAIT);
  };
  $("make").onsubmit = (event) => {
    event.preventDefault();
    const [size, number] = [Number($("size").value), Number($("number").value)];
    take([{ bytes: madeMap(size, number), name: `A triangulation of ${size.toLocaleString("en")} vertices` }]);
  };
  document.onpaste = (event) => {
    const { files } = event.clipboardData;
    if (files.length) takeFiles(files);
    else if (!/^(TEXTAREA|INPUT)$/.test(event.target.tagName)) takeText(event.clipboardData.getData("text/plain"));
  };
  document.ondragover = (event) => {
    event.preventDefault();
    document.body.classList.add("over");
  };
  document.ondragleave = ({ relatedTarget }) => relatedTarget || document.body.classList.remove("over");
  document.ondrop = (event) => {
    event.preventDefault();
    document.body.classList.remove("over");
    const { files } = event.dataTransfer;
    if (files.length) takeFiles(files);
    else takeText(event.dataTransfer.getData("text/plain"));
  };
  for (const { label, name, data } of JSON.parse($("samples").textContent)) {
    const button = element("button", label, { type: "button", onclick: () => take([{ bytes: fromBase64(data), name }]) });
    $("examples").append(button);
  }
}

// Draws what is typed where it is one graph, and says so where it is none; the box stays open.
function drawTyped() {
  const text = $("paste").value.trim();
  const { kind } = recognized(asBytes(text));
  $("typed").textContent = "";
  if (!text || !hasSheet() || kind === "figures" || (kind === "graphs" && text.includes("\n"))) return;
  try {
    const graph = readGraphText(text);
    page.answers = null;
    document.body.classList.add("used");
    openSheet(graph, graphTitle(graph, "What is typed"));
  } catch (fault) {
    $("typed").textContent = fault.message;
  }
}

// Opens the sheet that the address of the page names.
function openLink() {
  if (!location.hash || location.hash === "#about" || !hasSheet()) return;
  try {
    const given = readLink(location.hash);
    if (!given) return;
    page.answers = null;
    fold("a link");
    openSheet(given, given.lists ? "A map by link" : "A graph by link");
  } catch (fault) {
    $("run").hidden = false;
    $("fault").textContent = `The link is not understood: ${fault.message}`;
  }
}

function listenToRuns() {
  $("format").onchange = () => page.input && readAs($("format").value);
  $("jobs").onchange = ({ target }) => {
    page.job[page.kind] = target.value;
    runJob();
  };
  for (const id of ["equilateral", "faces"])
    for (const one of ["", "-one"])
      $(id + one).onchange = ({ target }) => {
        page.look[id] = target.checked;
        $(id).checked = $(`${id}-one`).checked = target.checked;
        if (page.study) showStudy();
        if (page.answers) showRecords();
      };
  $("stop").onclick = halt;
  $("filter").onchange = () => {
    Object.assign(page, { filter: $("filter").value, isAsked: true, from: 0 });
    show();
  };
  $("back").onclick = () => turnTo(page.from - (page.to - page.from || 1));
  $("on").onclick = () => turnTo(page.to);
  $("go").onclick = () => {
    const at = page.list.findIndex((number) => number >= Number($("record").value) - 1);
    turnTo(at < 0 ? page.list.length - 1 : at);
  };
  $("record").onkeydown = ({ key }) => key === "Enter" && $("go").click();
}

function listenToPictures() {
  $("smaller").onclick = () => zoom(0.5);
  $("larger").onclick = () => zoom(2);
  $("copy").onclick = ({ target }) => copy(page.large.figure.lines.join("\n") + "\n", target);
  $("save").onclick = () => saveSvg(page.large.figure, page.large.number);
  $("close").onclick = () => $("large").close();
  document.onkeydown = ({ key }) => {
    if ($("large").open && (key === "+" || key === "-")) zoom(key === "+" ? 2 : 0.5);
    else if (key === "Escape" && !$("large").open) halt();
  };
  addEventListener("beforeprint", () => (drawAll(), drawViews()));
}

function takeText(text) {
  return take([{ bytes: asBytes(text.trimStart()), name: "The text" }]);
}

async function takeFiles(given) {
  try {
    const files = [...given].map(async (file) => ({ bytes: new Uint8Array(await file.arrayBuffer()), name: file.name }));
    if (files.length) await take(await Promise.all(files));
  } catch (fault) {
    $("run").hidden = false;
    $("fault").textContent = `The file could not be read: ${fault.message}`;
  }
}

// Starts the program, which stands packed in this page.
async function begin() {
  try {
    const module = await unpacked(fromBase64($("module").textContent));
    page.machine = new Machine(module, $("worker").textContent);
    // Some browsers run no module of this size beside the worker; then there are no sheets.
    page.calls = new Calls(await Engine.of(module).catch(() => ({ calls: {} })));
    Object.assign(page, { take, open: openSheet });
    listenToInputs();
    listenToRuns();
    listenToPictures();
    listenToSheet();
    openLink();
    addEventListener("hashchange", openLink);
    document.body.dataset.ready = "yes";
  } catch (fault) {
    $("run").hidden = false;
    $("fault").textContent = `The program could not start: ${fault.message}. It needs a browser of 2023 or later.`;
  }
}

// Returns the program's answer to words and to an input in base64, its text in base64 too: for tests.
async function answered(words, input) {
  const { status, text } = await page.machine.answer(words, fromBase64(input));
  return [status, btoa(asText(text).replace(/[^\x00-\xff]/g, "?"))];
}

begin();
