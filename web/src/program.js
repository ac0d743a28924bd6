import { AS_JSON } from "./names.js";
import { saidOf } from "./objects.js";

const KEPT = 8;

/** What the program answers about one text. Each question is asked once. */
export class Reading {
  #runner;
  #answers = new Map();

  constructor(runner, text) {
    this.#runner = runner;
    this.text = text;
  }

  /** @param {string[]} words @returns {Promise<import("./runner.js").Answer>} */
  ask(words) {
    const key = JSON.stringify(words);
    if (!this.#answers.has(key)) {
      const answer = this.#runner.ask(this.text, words);
      this.#answers.set(key, answer);
      answer.then(({ status }) => status < 0 && this.#answers.delete(key));
    }
    return this.#answers.get(key);
  }

  /** The answer as an object. @param {string[]} words @returns {Promise<import("./objects.js").Said>} */
  async read(words) {
    return saidOf(await this.ask([...words, AS_JSON]));
  }

  forget(name) {
    for (const key of this.#answers.keys()) if (JSON.parse(key).includes(name)) this.#answers.delete(key);
  }
}

/** The program with what it said of the last few texts. */
export class Program {
  #runner;
  #readings = new Map();

  constructor(runner) {
    this.#runner = runner;
  }

  /** @returns {Reading} */
  of(text) {
    const reading = this.#readings.get(text) ?? new Reading(this.#runner, text);
    this.#readings.delete(text);
    this.#readings.set(text, reading);
    if (this.#readings.size > KEPT) this.#readings.delete(this.#readings.keys().next().value);
    return reading;
  }

  /** Gives the program a second input, as text or bytes; what was said of an earlier one is forgotten. */
  put(name, text) {
    this.#runner.put(name, text);
    for (const reading of this.#readings.values()) reading.forget(name);
  }

  /** Asks about a text that isn't shown; nothing is kept. @returns {Promise<import("./runner.js").Answer>} */
  ask(text, words) {
    return this.#runner.ask(text, words);
  }

  compute(message) {
    return this.#runner.compute(message);
  }

  giveUpAfter(ms) {
    this.#runner.giveUpAfter(ms);
  }
}
