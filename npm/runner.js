// Runs in a worker, so that a page or a server goes on meanwhile, and a run can be stopped.

export class Runner {
  // `source` is what `ready` takes, where the module is not the file of this package: bytes or a URL.
  constructor(source) {
    Object.assign(this, { source, waiting: new Map(), last: 0 });
    this.worker = null;
  }

  async start() {
    const url = new URL("worker.js", import.meta.url);
    if (globalThis.Worker) {
      const worker = new Worker(new URL("worker.js", import.meta.url), { type: "module" });
      worker.onmessage = ({ data }) => this.take(data);
      worker.onerror = (event) => this.fail(new Error(event.message || "the worker ended"));
      return worker;
    }
    const { Worker: Thread } = await import(/* webpackIgnore: true */ /* @vite-ignore */ "node:worker_threads");
    const worker = new Thread(url);
    worker.on("message", (data) => this.take(data));
    worker.on("error", (fault) => this.fail(fault));
    worker.unref();
    return worker;
  }

  // Runs the program over an input, a text or bytes. Returns its status and its text.
  run(words, input = "") {
    this.worker ||= this.start();
    const [id, worker] = [++this.last, this.worker];
    return new Promise((...ways) => {
      this.waiting.set(id, ways);
      worker.then((it) => {
        it.ref?.();
        it.postMessage({ id, words, input, source: this.source });
      }, ways[1]);
    });
  }

  take({ id, status, text, fault }) {
    const [answered, failed] = this.waiting.get(id) || [];
    this.waiting.delete(id);
    if (!this.waiting.size) this.worker?.then((it) => it.unref?.());
    if (fault) failed?.(new Error(fault));
    else answered?.({ status, text });
  }

  fail(fault) {
    for (const [, failed] of this.waiting.values()) failed(fault);
    this.waiting.clear();
    this.worker = null;
  }

  // Ends what runs: each run that waits fails. The next one starts a worker anew.
  async stop() {
    const worker = this.worker;
    this.fail(new Error("the run was stopped"));
    await (await worker)?.terminate();
  }
}
