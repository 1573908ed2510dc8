#!/usr/bin/env node
// The program in node: npx pigale JOB [OPTION] < FILE. Bytes and statuses are the program's.
import { readFileSync } from "node:fs";
import { ready } from "./index.js";

const [BAD_WORDS, READ_FAULT, WRITE_FAULT, NO_MEMORY] = [2, 4, 5, 6];
const MOST_READ = (1 << 24) + 1; // bytes that the program looks at
const engine = await ready(readFileSync(new URL("lib/pigale.wasm", import.meta.url)));

function answer(words, input) {
  try {
    return engine.answer(words, input);
  } catch {
    return { status: NO_MEMORY, text: new Uint8Array() };
  }
}

async function readAll() {
  const [pieces, isFailed] = [[], { now: false }];
  let length = 0;
  try {
    for await (const piece of process.stdin) {
      pieces.push(piece);
      length += piece.length;
      if (length >= MOST_READ) break;
    }
  } catch {
    isFailed.now = true;
  }
  return [Buffer.concat(pieces).subarray(0, MOST_READ), isFailed.now];
}

// No word of a job is empty or has a space; the answer to no words is that to bad ones.
const given = process.argv.slice(2);
const words = given.some((word) => !word || word.includes(" ")) ? "" : given.join(" ");
// bad words, and a job without input, are answered before anything is read
let { status, text } = answer(words, new Uint8Array());
if (status !== BAD_WORDS && !given.includes("gen")) {
  const [input, isFailed] = await readAll();
  ({ status, text } = answer(words, input));
  if (isFailed) [status, text] = [READ_FAULT, text.subarray(0, text.lastIndexOf(10, text.length - 2) + 1)];
}
process.stdout.on("error", () => process.exit(WRITE_FAULT));
process.stdout.write(text, () => process.exit(status));
