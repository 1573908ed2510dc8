// Judges drawings by one program that stays: a class Session, and a thousand drawings of a house.
//
//   node session.mjs PROGRAM [NUMBER]
import { spawn } from "node:child_process";
import { createInterface } from "node:readline";

export class Session {
    constructor(program) {
        this.program = program;
        this.left = 0; // bytes that the program still reads
    }

    start() {
        this.running = spawn(this.program, ["verify"], { stdio: ["pipe", "pipe", "inherit"] });
        this.running.stdin.on("error", () => {}); // it stopped, and its last line says why
        this.lines = createInterface({ input: this.running.stdout })[Symbol.asyncIterator]();
        this.left = 1 << 24;
    }

    /** The verdict on a figure, whose lines are closed: what stands behind the figure's number. */
    async verify(figure) {
        if (figure.length > this.left) this.close();
        if (!this.running) this.start();
        this.left -= Math.min(this.left, figure.length);
        this.running.stdin.write(figure, "ascii");
        const { value: line } = await this.lines.next();
        if (line === undefined || line.startsWith("stop")) {
            this.close();
            throw new Error(`the program has no verdict: ${line}`);
        }
        return line.split(" ").slice(2).join(" ");
    }

    /** Ends the program. A later verdict starts another one. */
    close() {
        this.running?.stdin.end();
        this.running = undefined;
        this.left = 0;
    }
}

// the half of the directions, clockwise from west, in which one lies; no direction comes last
const half = ([x, y]) => (x === 0 && y === 0 ? 2 : y > 0 || (y === 0 && x < 0) ? 0 : 1);

/** A drawing as a figure of `shift`, with vertices of degree zero above it, so that nobody asks for the outer face. */
export function figureOf(points, edges) {
    const left = Math.min(...points.map(([x]) => x)), low = Math.min(...points.map(([, y]) => y));
    const places = points.map(([x, y]) => [x - left, y - low]);
    const width = Math.max(...places.map(([x]) => x)), height = Math.max(...places.map(([, y]) => y));
    const lists = places.map(() => []);
    for (const [a, b] of edges) {
        lists[a].push(b);
        lists[b].push(a);
    }
    lists.forEach((list, v) => {
        const to = (u) => [places[u][0] - places[v][0], places[u][1] - places[v][1]];
        list.sort((a, b) => half(to(a)) - half(to(b)) || to(a)[0] * to(b)[1] - to(a)[1] * to(b)[0]);
    });
    const count = Math.max(places.length + 1, Math.floor((width + 5) / 2), height + 3);
    while (places.length < count) places.push([places.length - lists.length, count - 2]);
    const rows = places.map(([x, y], v) => [`${v + 1} at ${x} ${y}:`, ...(lists[v] ?? []).map((u) => u + 1)].join(" "));
    return [`figure 1 shift ${count}`, ...rows, ""].join("\n");
}

const [program = "pigale", number = "1000"] = process.argv.slice(2);
const house = [[0, 1], [1, 2], [2, 3], [3, 0], [3, 4], [4, 2]];
const session = new Session(program);
const found = {};
let z = 1;
const next = () => ((z = (Math.imul(z, 1103515245) + 12345) >>> 0) >>> 16) % 12;
for (let k = 0; k < Number(number); k++) {
    const points = Array.from({ length: 5 }, () => [next(), next()]);
    const name = (await session.verify(figureOf(points, house))).split(" ")[0];
    found[name] = (found[name] ?? 0) + 1;
}
session.close();
for (const name of Object.keys(found).sort()) console.log(`${name} ${found[name]}`);
