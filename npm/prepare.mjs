// Puts what the package shares with the page into lib/: the scripts that package.json exports, with those that they import,
// and the module. `node prepare.mjs [MODULE]`; by default the module is that of release/.
import fs from "node:fs";
import { fileURLToPath } from "node:url";

const here = new URL(".", import.meta.url);
const sources = new URL("../web/src/", here);
const IMPORT = /^import [^;]* from "\.\/([a-z_]+\.js)";$/gm;

export function prepare(module = fileURLToPath(new URL("../release/pigale.wasm", here))) {
  const lib = new URL("lib/", here);
  fs.rmSync(lib, { recursive: true, force: true });
  fs.mkdirSync(lib);
  const { exports } = JSON.parse(fs.readFileSync(new URL("package.json", here), "utf8"));
  const waiting = Object.values(exports).map((path) => /^\.\/lib\/(.*\.js)$/.exec(path)).filter(Boolean).map((found) => found[1]);
  const taken = new Set();
  for (let name; (name = waiting.pop()); ) {
    if (taken.has(name)) continue;
    taken.add(name);
    const text = fs.readFileSync(new URL(name, sources), "utf8");
    fs.writeFileSync(new URL(name, lib), text);
    for (const [, other] of text.matchAll(IMPORT)) waiting.push(other);
  }
  fs.copyFileSync(module, new URL("pigale.wasm", lib));
  fs.copyFileSync(new URL("../LICENSE", here), new URL("LICENSE", here));
}

if (process.argv[1] === fileURLToPath(import.meta.url)) prepare(...process.argv.slice(2));
