// Answers the page's runs beside the page, so that a long one leaves it at hand and can be stopped.

import { Engine } from "./engine.js";

let engine;
onmessage = async ({ data }) => {
  try {
    if (data.module) engine = Engine.of(data.module);
    else {
      const { status, text } = (await engine).answer(data.words, new Uint8Array(data.input));
      postMessage({ id: data.id, status, text: text.buffer }, [text.buffer]);
    }
  } catch (fault) {
    postMessage({ id: data.id, fault: String(fault.message || fault) });
  }
};
