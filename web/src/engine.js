// Runs Pigale in memory: the WebAssembly module's call `pigale_run`, with its input and its text in the module's memory.

const NO_MEMORY = [5, 6]; // the statuses of a run for which there was not enough memory
const TEXT = 1 << 16; // bytes of room for a text at first

// Says that a run has no answer, and why: `isMemory` is whether there was not enough memory.
export class EngineFault extends Error {
  constructor(message, isMemory) {
    super(message);
    this.name = "EngineFault";
    this.isMemory = isMemory;
  }
}

// Each run that ends without an answer leaves a fresh instance of the module behind, so the next one is answered.
export class Engine {
  // Returns an engine over the bytes of the module.
  static async of(bytes) {
    return new Engine(await WebAssembly.compile(bytes));
  }

  constructor(module) {
    this.module = module;
    this.start();
  }

  start() {
    this.calls = new WebAssembly.Instance(this.module, {}).exports;
    this.text = this.room(TEXT);
    this.capacity = TEXT;
    this.length = this.room(8);
  }

  // Returns the status and the text of the job that `words` name, over the bytes `input`. Throws EngineFault where the
  // run ends without an answer.
  answer(words, input) {
    try {
      const found = this.run(new TextEncoder().encode(words), input);
      if (NO_MEMORY.includes(found.status)) this.start();
      return found;
    } catch (fault) {
      this.start();
      if (fault instanceof EngineFault) throw fault;
      const isMemory = fault instanceof RangeError;
      throw new EngineFault(isMemory ? "there is not enough memory" : `the program ended with a fault (${fault.message})`, isMemory);
    }
  }

  run(words, input) {
    const [name, given] = [this.put(words), this.put(input)];
    // Most texts have less than 32 bytes for a byte of the input; a longer one is asked for again.
    this.makeRoom(32 * input.length);
    let status, length;
    for (;;) {
      const numbers = [name, words.length, given, input.length, this.text, this.capacity, this.length].map(BigInt);
      status = this.calls.pigale_run(...numbers);
      length = Number(new DataView(this.calls.memory.buffer).getBigUint64(this.length, true));
      if (length <= this.capacity) break;
      if (!this.makeRoom(length)) throw new EngineFault("there is not enough memory for the text of the answer", true);
    }
    this.calls.memory_back(BigInt(name));
    this.calls.memory_back(BigInt(given));
    return { status, text: new Uint8Array(this.calls.memory.buffer, this.text, length).slice() };
  }

  // Makes room for a text of `size` bytes, or says that there is none; then the old room stands.
  makeRoom(size) {
    if (size <= this.capacity) return true;
    const at = this.find(size);
    if (!at) return false;
    this.calls.memory_back(BigInt(this.text));
    this.text = at;
    this.capacity = size;
    return true;
  }

  // Returns the address of fresh memory for `size` bytes, or 0.
  find(size) {
    return Number(this.calls.memory_for(BigInt(size)));
  }

  room(size) {
    const at = this.find(size);
    if (!at) throw new EngineFault("there is not enough memory for the input", true);
    return at;
  }

  // Returns the address of a copy of `bytes` in the module's memory.
  put(bytes) {
    const at = this.room(bytes.length + 1);
    new Uint8Array(this.calls.memory.buffer, at, bytes.length).set(bytes);
    return at;
  }
}
