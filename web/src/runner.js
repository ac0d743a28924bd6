/** @typedef {{status: number, out: string, err: string, ms: number}} Answer */

const GIVEN_UP = { status: -1, out: "", err: "causal: given up, a newer question came", ms: 0 };

/** The proved program in a worker, so that the page never stands still; or another worker, which starts when asked. */
export class Runner {
  #worker;
  #source;
  #packed;
  #next = 0;
  #waiting = new Map(); // id -> {resolve, since}
  #files = new Map();
  #batch = null; // questions of this turn of the page, by the diagram's text: one message for each text

  /**
   * @param {string} source the worker's script
   * @param {string} [packed] the module, gzip in base64
   */
  constructor(source, packed) {
    this.#source = URL.createObjectURL(new Blob([source], { type: "text/javascript" }));
    this.#packed = packed;
    if (packed) this.#start();
  }

  #start() {
    this.#worker = new Worker(this.#source);
    this.#worker.onmessage = ({ data }) => {
      this.#waiting.get(data.id)?.resolve(data);
      this.#waiting.delete(data.id);
    };
    if (this.#packed) this.#worker.postMessage({ packed: this.#packed });
    for (const [name, text] of this.#files) this.#worker.postMessage({ name, text });
  }

  #send(message) {
    const id = this.#next++;
    if (!this.#worker) this.#start();
    return new Promise((resolve) => {
      this.#waiting.set(id, { resolve, since: performance.now() });
      this.#worker.postMessage({ id, ...message });
    });
  }

  /** Keeps a file that questions may name. */
  put(name, text) {
    this.#files.set(name, text);
    this.#worker.postMessage({ name, text });
  }

  /** Runs one command line about a diagram. @returns {Promise<Answer>} */
  ask(text, words) {
    if (!this.#batch) {
      this.#batch = new Map();
      queueMicrotask(() => this.#flush());
    }
    return new Promise((resolve) => {
      if (!this.#batch.has(text)) this.#batch.set(text, []);
      this.#batch.get(text).push({ words, resolve });
    });
  }

  #flush() {
    const batch = this.#batch;
    this.#batch = null;
    for (const [text, asked] of batch) {
      this.#send({ text, questions: asked.map((q) => q.words) }).then(({ answers }) =>
        asked.forEach(({ resolve }, i) => resolve(answers?.[i] ?? GIVEN_UP)),
      );
    }
  }

  /** Has something computed beside the program's answers; an empty object where it was given up. */
  compute(message) {
    return this.#send(message);
  }

  /** Places for a graph's outline; null where they take longer. @returns {Promise<Map<string, {x: number, y: number}> | null>} */
  async arrange(outline, ms) {
    const late = setTimeout(() => this.giveUpAfter(0), ms);
    const { places } = await this.#send({ outline });
    clearTimeout(late);
    return places ? new Map(places) : null;
  }

  /** Ends calls that have taken longer than this, and begins with a fresh worker. */
  giveUpAfter(ms) {
    const oldest = Math.min(...[...this.#waiting.values()].map((w) => w.since));
    if (!this.#waiting.size || performance.now() - oldest < ms) return;
    this.#worker.terminate();
    const left = [...this.#waiting.values()];
    this.#waiting.clear();
    this.#start();
    for (const { resolve } of left) resolve({});
  }
}
