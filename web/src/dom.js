// What the scripts of the page share: its elements, its state, copying and saving.

export const $ = (id) => document.getElementById(id);

// `machine` runs the program, `input` is what it was given, `answers` is what it said, `list` has the numbers of the records
// that are looked through, and `from` and `to` say which of these are on the screen. `look` says how drawings look, and `tones`
// has the colours that the reader chose. `calls` are the module's typed calls, `study` is what the sheet shows, and `sheet` has
// what it does on behalf of its cards.
export const page = {
  machine: null, input: null, answers: null, filter: "all", list: [], from: 0, to: 0, turn: 0, job: {},
  look: { equilateral: true, faces: true }, tones: {},
};

export function element(tag, text = "", more = {}) {
  return Object.assign(document.createElement(tag), { textContent: text, ...more });
}

export async function copy(text, button) {
  try {
    await navigator.clipboard.writeText(text);
  } catch {
    const area = element("textarea", text);
    document.body.append(area);
    area.select();
    document.execCommand("copy");
    area.remove();
  }
  const was = button.textContent;
  button.textContent = "Copied";
  setTimeout(() => (button.textContent = was), 1200);
}

const TYPES = { svg: "image/svg+xml", png: "image/png", json: "application/json" };

// Saves pieces of text or bytes as a file, whose type its name tells.
export function saveFile(pieces, name) {
  const url = URL.createObjectURL(new Blob(pieces, { type: TYPES[name.split(".").pop()] || "text/plain" }));
  element("a", "", { href: url, download: name }).click();
  setTimeout(() => URL.revokeObjectURL(url), 60000);
}
