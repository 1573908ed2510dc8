// The WebAssembly module that the page has, and bytes and text, for tests.
import fs from "node:fs";
import zlib from "node:zlib";

const page = process.env.PIGALE_PAGE || new URL("../pigale.html", import.meta.url);

// The page's own module, or the one of the file that PIGALE_MODULE names.
export function moduleBytes() {
  if (process.env.PIGALE_MODULE) return new Uint8Array(fs.readFileSync(process.env.PIGALE_MODULE));
  const [, text] = /<script type="text\/plain" id="module">([^<]*)<\/script>/.exec(fs.readFileSync(page, "utf8"));
  return new Uint8Array(zlib.gunzipSync(Buffer.from(text, "base64")));
}

export function textOf(bytes) {
  return Buffer.from(bytes).toString("latin1");
}

export function bytesOf(text) {
  return Uint8Array.from(Buffer.from(text, "latin1"));
}

// Returns planar_code of `count` triangles.
export function triangles(count) {
  const code = new Uint8Array(15 + 10 * count);
  code.set(bytesOf(">>planar_code<<"));
  for (let at = 15; at < code.length; at += 10) code.set([3, 2, 3, 0, 3, 1, 0, 1, 2, 0], at);
  return code;
}
