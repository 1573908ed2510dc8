// Tests the package as its user has it, over the module of release/ or the one that is named: node npm/test.mjs [MODULE]
import assert from "node:assert/strict";
import { spawnSync } from "node:child_process";
import fs from "node:fs";
import { fileURLToPath } from "node:url";
import zlib from "node:zlib";
import { prepare } from "./prepare.mjs";

prepare(...process.argv.slice(2));
const { count, draw, embed, graph6, PigaleError, planarLayout, ready, run, Runner, svg, verify } = await import("./index.js");
const path = (name) => fileURLToPath(new URL(name, import.meta.url));

// the program's answers to all runs whose words have no space
const runs = JSON.parse(zlib.gunzipSync(fs.readFileSync(path("../release/answers.json.gz"))));
const engine = await ready();
let [compared, differ] = [0, 0];
for (const { words, input, status, text } of runs) {
  if (words.some((word) => !word || word.includes(" "))) continue;
  const found = engine.answer(words.join(" "), Buffer.from(input, "base64"));
  compared++;
  if (found.status === status && Buffer.from(found.text).equals(Buffer.from(text, "base64"))) continue;
  differ++;
  console.log(`npm: another answer than the program's: ${words.join(" ")} on ${input.length} characters`);
}
console.log(`npm: ${compared} runs compared with the program, ${differ} differ`);
assert.equal(differ, 0);

const triangle = [[2, 3], [3, 1], [1, 2]];
const prism = [[2, 3, 4], [3, 1, 5], [1, 2, 6], [6, 5, 1], [4, 6, 2], [5, 4, 3]];
assert.deepEqual(await count([triangle]), [{ n: 3, m: 3, f: 2, c: 1, genus: 0 }]);
assert.equal((await count([[[2], []]]))[0].refused, "OneSided");
for (const job of ["schnyder", "shift", "convex", "bars"]) {
  const [figure] = await draw([prism], job);
  assert.equal(figure.count, 6);
  assert.deepEqual(await verify([figure]), [{ isValid: true, fault: null, vertices: [], why: "valid" }]);
  assert.match(svg(figure), /^<svg [^]*<\/svg>\n$/);
}
assert.equal((await draw([prism], "rect"))[0].refused, "NotTriangle");
const crossing = (await draw([prism]))[0];
crossing.lines[1] = crossing.lines[1].replace(/at \d+ \d+/, "at 99 99");
assert.equal((await verify([crossing]))[0].isValid, false);
const [witness, drawn] = await embed(["D~{", { n: 4, edges: [[1, 2], [2, 3], [3, 4], [4, 1]] }]);
assert.equal(witness.kind, "K5");
assert.equal(drawn.places.length, 4);
assert.equal(graph6({ n: 4, edges: [[1, 2], [3, 4], [1, 3], [2, 4], [1, 4], [2, 3]] }), "C~");
assert.throws(() => graph6({ n: 3, edges: [[1, 4]] }), RangeError);
await assert.rejects(count(new Uint8Array([5])), (fault) => fault instanceof PigaleError && fault.status === 3 && /cut off/.test(fault.message));
await assert.rejects(draw([triangle], "nothing"), (fault) => fault instanceof PigaleError && fault.status === 2);
assert.equal((await run("gen --size 5 --number 3")).status, 0);

const nodes = ["ann", "bob", "dan", "eve"].map((id) => ({ id }));
const links = [["ann", "bob"], ["bob", "eve"], ["eve", "ann"], ["dan", "ann"]].map(([source, target]) => ({ source, target: nodes.find(({ id }) => id === target) }));
const layout = await planarLayout(nodes, [...links, links[0], { source: "dan", target: "dan" }]);
assert.ok(layout.isPlanar && new Set([...layout.places.values()].map(String)).size === 4);
assert.deepEqual([...layout.rotations.get("dan")], ["ann"]);
const all = ["a", "b", "c", "d", "e"];
const full = await planarLayout(all, all.flatMap((source) => all.filter((target) => target > source).map((target) => ({ source, target }))));
assert.ok(!full.isPlanar && full.kind === "K5" && full.paths.every((it) => it.length === 2));
assert.deepEqual([...(await planarLayout(["a", "b"], [{ source: "b", target: "a" }])).rotations.get("a")], ["b"]);
await assert.rejects(planarLayout(["a", "b", "c"], [{ source: "a", target: "z" }]), /z, which is no node/);

const runner = new Runner();
assert.deepEqual(await runner.run("gen --size 5 --number 3"), await run("gen --size 5 --number 3"));
const long = assert.rejects(runner.run("gen --size 4095 --number 1"), /stopped/);
await runner.stop();
await long;
assert.equal((await runner.run("count", "x")).status, 3);
await runner.stop();

const program = (words, input) => spawnSync(process.execPath, [path("cli.js"), ...words], { input });
const platonic = fs.readFileSync(path("../examples/platonic.plc"));
for (const [words, status] of [[["count"], 0], [["convex", "--form", "svg"], 0], [["rect"], 1], [["count", ""], 2], [["gen", "--size", "7", "--number", "1"], 0], [["embed"], 3]]) {
  const found = program(words, platonic);
  const { text } = words.includes("") ? { text: "stop BadWords\n" } : await run(words.join(" "), words[0] === "gen" ? "" : platonic);
  assert.deepEqual([found.status, found.stdout.toString()], [status, text]);
}
console.log("npm: the calls, the runner and the program in node answer as they should");
