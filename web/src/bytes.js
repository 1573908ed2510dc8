// Bytes and text: the one as the other, joined, and cut into lines.

export function asBytes(text) {
  return new TextEncoder().encode(text);
}

export function asText(bytes) {
  return new TextDecoder("windows-1252").decode(bytes);
}

export function joined(pieces) {
  const whole = new Uint8Array(pieces.reduce((sum, piece) => sum + piece.length, 0));
  let at = 0;
  for (const piece of pieces) {
    whole.set(piece, at);
    at += piece.length;
  }
  return whole;
}

// Says whether `wanted` stands in `bytes` from `at` on.
export function startsAt(bytes, at, wanted) {
  return wanted.every((byte, k) => bytes[at + k] === byte);
}

export function lineCount(bytes) {
  let count = 0;
  for (let at = bytes.indexOf(10); at >= 0; at = bytes.indexOf(10, at + 1)) count++;
  return count;
}

// Returns the place behind the line that begins at `at`, or -1 where that is not closed.
export function lineEnd(bytes, at) {
  return bytes.indexOf(10, at) + 1 || -1;
}
