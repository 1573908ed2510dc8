// Runs the program in a worker beside the page, so that a long run leaves the page at hand and can be stopped.

export class Machine {
  // `module` is the WebAssembly module's bytes, and `script` what the worker runs.
  constructor(module, script) {
    Object.assign(this, { module, script, asked: new Map(), last: 0 });
    this.start();
  }

  start() {
    const url = URL.createObjectURL(new Blob([this.script], { type: "text/javascript" }));
    this.worker = new Worker(url);
    this.worker.onmessage = ({ data }) => {
      const [answered, failed] = this.asked.get(data.id) || [];
      this.asked.delete(data.id);
      if (!answered) return;
      if (data.fault) failed(new Error(data.fault));
      else answered({ status: data.status, text: new Uint8Array(data.text) });
    };
    // A worker that ended answers nothing more: another one takes its place.
    this.worker.onerror = (event) => {
      const left = [...this.asked.values()];
      this.stop();
      for (const [, failed] of left) failed(new Error(event.message || "the browser ended it"));
    };
    this.worker.postMessage({ module: this.module });
  }

  // Answers a job over an input, which the worker takes over.
  answer(words, input) {
    const id = ++this.last;
    return new Promise((...ways) => {
      this.asked.set(id, ways);
      const own = input.byteLength === input.buffer.byteLength ? input : input.slice();
      this.worker.postMessage({ id, words, input: own.buffer }, [own.buffer]);
    });
  }

  // Ends what runs, and starts anew.
  stop() {
    this.worker.terminate();
    this.asked.clear();
    this.start();
  }
}
