// Answers the runs of a Runner, in a worker of a browser or a thread of node.
import { ready, run } from "./index.js";

const isWeb = typeof globalThis.WorkerGlobalScope !== "undefined";
const port = isWeb ? globalThis : (await import(/* webpackIgnore: true */ /* @vite-ignore */ "node:worker_threads")).parentPort;

async function answer({ id, words, input, source }) {
  try {
    await ready(source);
    port.postMessage({ id, ...(await run(words, input)) });
  } catch (fault) {
    port.postMessage({ id, fault: String(fault?.message || fault) });
  }
}

if (isWeb) port.onmessage = ({ data }) => answer(data);
else port.on("message", answer);
