// A module of WebAssembly with less memory, for tests in node and in a browser.

// Returns a module whose memory has at most `pages` pages of 65,536 bytes.
export function limited(bytes, pages) {
  for (let at = 8; at < bytes.length; ) {
    const [size, from] = readNumber(bytes, at + 1);
    if (bytes[at] === 5) {
      const [least] = readNumber(bytes, from + 2);
      const body = [1, 1, ...numberBytes(least), ...numberBytes(pages)];
      return Uint8Array.from([...bytes.subarray(0, at), 5, ...numberBytes(body.length), ...body, ...bytes.subarray(from + size)]);
    }
    at = from + size;
  }
  throw new Error("the module has no memory");
}

// Returns the number in LEB128 that begins at a place, and the place behind it.
function readNumber(bytes, at) {
  for (let [number, shift] = [0, 0]; ; shift += 7) {
    const byte = bytes[at++];
    number += (byte & 127) * 2 ** shift;
    if (byte < 128) return [number, at];
  }
}

function numberBytes(number) {
  return number < 128 ? [number] : [(number & 127) | 128, ...numberBytes(number >>> 7)];
}
