// Runs the proved program `causal`, compiled to WebAssembly, over inputs in memory:
//
//   const causal = await load(bytes);
//   causal.run(["separate", "g.dag"], { "g.dag": "dag { A -> B }" }); // {status, out, err}

const encoder = new TextEncoder();
const decoder = new TextDecoder();
const bytesOf = (text) => (typeof text === "string" ? encoder.encode(text) : text);

/** @typedef {{status: number, out: string, err: string}} Answer */

/** Makes the program ready. @param {BufferSource} bytes the module */
export async function load(bytes) {
  const module = new WebAssembly.Module(bytes);
  let exports;

  /**
   * Runs a command line of the program `causal`.
   * @param {string[]} words @param {Record<string, string | Uint8Array>} inputs by name
   * @param {number} room the bytes that an answer may have before it is asked for again with more
   * @returns {Answer}
   */
  function run(words, inputs = {}, room = 1 << 16) {
    exports ??= new WebAssembly.Instance(module, {}).exports;
    try {
      return call(exports, words, inputs, room);
    } catch (e) {
      exports = undefined; // an instance in which a call was cut off isn't used again
      throw e;
    }
  }

  return { run };
}

function call(exports, words, inputs, room) {
  const { memory, malloc, free } = exports;
  const texts = [...words, ...Object.entries(inputs).flat()].map(bytesOf);
  const length = texts.reduce((sum, text) => sum + text.length, 0);
  const places = [];
  const place = (size) => {
    const at = malloc(size + 16) >>> 0;
    if (!at) throw new Error("no memory");
    places.push(at);
    return at;
  };
  try {
    const bytes = place(length), spans = place(SPAN * texts.length), sizes = place(SPAN);
    for (;;) {
      const out = place(room), err = place(room);
      lay(memory, texts, bytes, spans);
      const inputsAt = spans + SPAN * words.length, inputCount = (texts.length - words.length) / 2;
      const status = exports.causal_run(bytes, length, spans, words.length, inputsAt, inputCount, out, room, err, room, sizes);
      if (status === 9) throw new Error("a word is not UTF-8");
      if (status === 10) throw new Error("no memory for the words");
      const [wrote, said] = new Uint32Array(memory.buffer, sizes, 2);
      const text = (at, size) => decoder.decode(new Uint8Array(memory.buffer, at, size));
      if (Math.max(wrote, said) <= room) return { status, out: text(out, wrote), err: text(err, said) };
      room = Math.max(wrote, said);
    }
  } finally {
    places.forEach((at) => free(at));
  }
}

const SPAN = 8; // bytes of a span, or of a pair of sizes

/** Lays the texts behind one another, and where each begins and ends. */
function lay(memory, texts, bytes, spans) {
  const all = new Uint8Array(memory.buffer), ends = new Uint32Array(memory.buffer, spans, 2 * texts.length);
  let at = 0;
  texts.forEach((text, i) => {
    all.set(text, bytes + at);
    ends[2 * i] = at;
    ends[2 * i + 1] = at += text.length;
  });
}
