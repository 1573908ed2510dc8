// What a run over an input has answered so far, part by part.

import { numbered, stopped, tally } from "./answers.js";
import { asText } from "./bytes.js";
import { blocksOf, figuresOf } from "./figures.js";

export class Answers {
  // `inputs` are the texts or codes of files, one behind another, all of one kind.
  constructor(kind, jobs, inputs) {
    Object.assign(this, { kind, jobs, inputs, parts: [], records: 0, headers: 0, done: 0, stop: null, why: "", isWhole: false });
    this.size = inputs.reduce((sum, it) => sum + it.bytes.length, 0);
    this.refused = Object.fromEntries(jobs.map((job) => [job, new Map()]));
  }

  // Adds the texts of a part of input `file`, whose bytes begin at `from` in all inputs. A bad place is told by its
  // number from `base` on in the text, and by its own in words.
  add(part, texts, file, from, base) {
    const kept = { first: this.records, count: 0, texts: {}, refused: {}, source: this.kind === "figures" ? asText(part.input) : "" };
    for (const job of this.jobs) {
      const { records, stop, text } = tally(texts[job]);
      kept.count = records;
      kept.texts[job] = numbered(text, this.records);
      kept.refused[job] = new Uint8Array(records);
      let k = 0;
      for (const [, word, one, two] of text.matchAll(/^(figure|count|refused|verdict) \d+ (\S+)(?: (\S+))?/gm)) {
        const name = word === "refused" ? two : word === "verdict" && one !== "yes" ? one : "";
        if (name) {
          kept.refused[job][k] = 1;
          this.refused[job].set(name, (this.refused[job].get(name) || 0) + 1);
        }
        k++;
      }
      if (stop) this.end(part, stop, file, base);
    }
    this.parts.push(kept);
    this.records += kept.count;
    this.headers += part.headers;
    this.done = from + part.to;
  }

  // Notes that the run stops in a part, and why.
  end(part, [name, number], file, base) {
    const place = number === undefined ? undefined : part.placeOf(Number(number));
    this.stop = place === undefined ? [name] : [name, base + place];
    const line = number === undefined || this.kind === "maps" ? place : part.lineOf(Number(number));
    const where = this.inputs.length > 1 && place !== undefined ? `In ${file.name}: ` : "";
    this.why = where + stopped(this.kind, [name, line]);
  }

  // Returns the whole text of a job's answers, as the program writes it.
  pieces(job) {
    const refused = [...this.refused[job].values()].reduce((sum, it) => sum + it, 0);
    const stop = this.stop && this.stop[0] ? `stop ${this.stop.join(" ")}\n` : "";
    const last = this.isWhole ? `end records ${this.records} refused ${refused}\n` : stop;
    return [...this.parts.map((part) => part.texts[job]), last];
  }

  // Returns the numbers of the records that a filter keeps, from 0.
  kept(filter) {
    const found = [];
    const drawing = this.jobs.filter((job) => job !== "count");
    for (const part of this.parts)
      for (let k = 0; k < part.count; k++) {
        const isKept =
          filter === "all" ||
          (filter === "drawn" ? drawing.some((job) => !part.refused[job][k]) : this.jobs.some((job) => part.refused[job][k]));
        if (isKept) found.push(part.first + k);
      }
    return found;
  }

  // Returns a record's block of each job, and for `verify` the figure that was judged.
  record(number) {
    let [low, high] = [0, this.parts.length];
    while (high - low > 1) {
      const middle = (low + high) >> 1;
      if (this.parts[middle].first <= number) low = middle;
      else high = middle;
    }
    const part = this.parts[low];
    if (this.open !== part) {
      this.open = part;
      this.blocks = Object.fromEntries(this.jobs.map((job) => [job, blocksOf(part.texts[job])]));
      this.sources = part.source ? figuresOf(part.source) : [];
    }
    const k = number - part.first;
    return { blocks: Object.fromEntries(this.jobs.map((job) => [job, this.blocks[job][k]])), source: this.sources[k] };
  }
}
