// The typed calls of the module: plain arrays go in and out, and no text. `include/pigale.h` says what each promises.

// The names of statuses by their numbers, as the program's refusals and verdicts have them.
const STATUS = {
  0: "OK", 1: "OutOfRange", 2: "Loop", 3: "Repeated", 4: "OneSided", 5: "Small", 6: "Genus", 7: "NotConnected",
  8: "CutVertex", 9: "SeparatingPair", 10: "OuterNotQuad", 11: "NotTriangle", 12: "SeparatingTriangle", 13: "NoInner",
  16: "NoMemory", 17: "BadArgument", 20: "NoVertex", 21: "SelfLoop", 22: "Twice", 32: "OutOfGrid", 33: "SamePlace",
  34: "OnEdge", 35: "Cross", 36: "Turned", 37: "Inside",
  40: "Bent", 41: "OuterBent", 48: "BadShape", 49: "BadHeight", 50: "BadBar", 51: "BadColumn", 52: "Through",
  54: "Turned", 64: "BadRect", 65: "Meet", 66: "Gap", 67: "Contact", 68: "NoFrame", 69: "Frame", 80: "K5", 81: "K33",
};
// How many of the numbers beside a status are vertices; of `Small` and `Genus` the first is a count.
const VERTICES = { 1: 1, 2: 1, 3: 2, 4: 2, 8: 1, 9: 2, 11: 2, 12: 3, 32: 1, 33: 2, 34: 3, 35: 4, 36: 1, 37: 2 };

export class Calls {
  // `engine` runs the module; it is the one that answers texts, or one of the calls' own.
  constructor(engine) {
    this.engine = engine;
  }

  // Says whether the module has a call.
  has(name) {
    return typeof this.engine.calls[`pigale_${name}`] === "function";
  }

  // Calls `name` with arrays, each as its address and its length, or as its address alone where it `isOne` thing, and with
  // whole numbers of 32 bits. What the call writes comes back in the arrays. Returns the status as `name`, and the numbers
  // beside it as `numbers`, with vertices from 1.
  call(name, ...given) {
    const { engine } = this;
    const found = new Uint32Array(4);
    const kept = [];
    try {
      const words = given.flatMap((it) => {
        if (typeof it === "number") return [it];
        const length = it.pairs ? it.length / 2 : it.length;
        return it.isOne ? [lend(engine, it, kept)] : [lend(engine, it, kept), BigInt(length)];
      });
      const status = engine.calls[`pigale_${name}`](...words, lend(engine, found, kept));
      for (const [at, array] of kept) {
        bytesIn(array).set(new Uint8Array(engine.calls.memory.buffer, at, array.byteLength));
        engine.calls.memory_back(BigInt(at));
      }
      const isCount = status === 5 || status === 6;
      const numbers = isCount ? [found[0]] : [...found].slice(0, VERTICES[status] || 0).map((v) => v + 1);
      if (status === 1) numbers.push(found[1] + 1);
      return { name: STATUS[status] || String(status), numbers };
    } catch (fault) {
      engine.start();
      throw fault;
    }
  }
}

// Copies an array into the module's memory, and returns its address.
function lend(engine, array, kept) {
  const at = engine.put(bytesIn(array));
  kept.push([at, array]);
  return BigInt(at);
}

function bytesIn(array) {
  return new Uint8Array(array.buffer, array.byteOffset, array.byteLength);
}

// Returns lists of vertices from 1 as the arrays that calls take.
export function arraysOf(lists) {
  let sum = 0;
  const ends = BigUint64Array.from(lists, (list) => BigInt((sum += list.length)));
  return [ends, Uint16Array.from(lists.flat(), (u) => u - 1)];
}

// Returns the lists of vertices from 1 of such arrays.
export function listsOf(ends, entries) {
  let from = 0;
  return Array.from(ends, (end) => {
    const list = Array.from(entries.subarray(from, Number(end)), (u) => u + 1);
    from = Number(end);
    return list;
  });
}

// Returns edges, pairs of vertices from 1, as the array that calls take: by the lesser end and then by the greater.
export function edgeArray(edges) {
  const sorted = edges.map(([u, v]) => (u < v ? [u, v] : [v, u])).sort((p, q) => p[0] - q[0] || p[1] - q[1]);
  return Object.assign(Uint16Array.from(sorted.flat(), (v) => v - 1), { pairs: true });
}
