// The engine: what it answers, and that it goes on after a refusal of memory and after a fault.
import assert from "node:assert/strict";
import test from "node:test";
import { Engine, EngineFault } from "../src/engine.js";
import { limited } from "./limited.mjs";
import { bytesOf, moduleBytes, textOf, triangles } from "./module.mjs";

const PAGES = 1200;

test("a job is answered as the program answers it", async () => {
  const engine = await Engine.of(moduleBytes());
  const { status, text } = engine.answer("count", triangles(2));
  assert.equal(status, 0);
  assert.equal(textOf(text), "count 1 n 3 m 3 f 2 c 1 genus 0\ncount 2 n 3 m 3 f 2 c 1 genus 0\nend records 2 refused 0\n");
  assert.equal(engine.answer("embed", bytesOf("C~~\n")).status, 3);
});

test("a text that is longer than the first room comes whole", async () => {
  const engine = await Engine.of(moduleBytes());
  const wanted = textOf(engine.answer("shift", triangles(9)).text);
  engine.capacity = 16;
  engine.makeRoom = ((make) => (size) => size === 32 * triangles(9).length || make.call(engine, size))(engine.makeRoom);
  assert.equal(textOf(engine.answer("shift", triangles(9)).text), wanted);
  assert.equal(engine.capacity, wanted.length);
});

test("memory that is refused is told, and the next input is answered", async () => {
  const engine = await Engine.of(limited(moduleBytes(), PAGES));
  for (const job of ["count", "schnyder"]) {
    const { status } = engine.answer(job, triangles(400000));
    assert.ok([5, 6].includes(status), `${job} says that memory ran out`);
    assert.equal(engine.answer("count", triangles(3)).status, 0);
  }
});

test("an input for which there is no memory is a fault with a sentence", async () => {
  const engine = await Engine.of(limited(moduleBytes(), PAGES));
  assert.throws(
    () => engine.answer("count", new Uint8Array(1 << 27)),
    (fault) => fault instanceof EngineFault && fault.isMemory && /not enough memory for the input/.test(fault.message),
  );
  assert.equal(engine.answer("count", triangles(3)).status, 0);
});

test("no address passes 32 bits, however often memory is asked for", async () => {
  const engine = await Engine.of(moduleBytes());
  const found = [];
  for (let k = 0; k < 8; k++) found.push(Number(engine.calls.memory_for(1n << 29n)));
  assert.ok(found.every((at) => at + 2 ** 29 <= 2 ** 32));
  assert.ok(found.includes(0));
});

test("a trap is a fault with a sentence, and the next input is answered", async () => {
  const engine = await Engine.of(moduleBytes());
  engine.calls = { ...engine.calls, pigale_run: () => { throw new WebAssembly.RuntimeError("unreachable"); } };
  assert.throws(() => engine.answer("count", triangles(1)), /the program ended with a fault \(unreachable\)/);
  assert.equal(engine.answer("count", triangles(3)).status, 0);
});

test("the old room for texts stands until there is a new one", async () => {
  const engine = await Engine.of(limited(moduleBytes(), PAGES));
  const before = engine.text;
  assert.equal(engine.makeRoom(1 << 28), false);
  assert.equal(engine.text, before);
  assert.equal(engine.answer("count", triangles(3)).status, 0);
});
