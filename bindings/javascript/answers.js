/* The promises of a session: each is answered once, at the latest where the session is over. */

export class Answers {
  #open = new Set();
  #held = new Map(); // of answers that wait until something holds
  #wake;
  #over; // why no more is answered

  /** `wake` is called for each promise: an answer is due from then on. */
  constructor(wake) {
    this.#wake = wake;
  }

  /** Returns a promise. `begin` is given how it is answered, by `resolve` or `reject`; what it throws is the answer, too. */
  promise(begin) {
    return new Promise((resolve, reject) => {
      const end = (way) => (value) => {
        this.#open.delete(answer);
        this.#held.delete(answer);
        way(value);
      };
      const answer = { resolve: end(resolve), reject: end(reject) };
      this.#open.add(answer);
      this.#wake();
      try {
        begin(answer);
      } catch (error) {
        answer.reject(error);
      }
    });
  }

  /** Returns a promise that something holds. */
  until(holds) {
    return this.promise((answer) => this.hold(answer, holds, answer.resolve));
  }

  /** Has `end`, which answers, be called once something holds. Once the session is over, what doesn't hold by then never will. */
  hold(answer, holds, end) {
    if (holds()) end();
    else if (this.#over) answer.reject(this.#over);
    else this.#held.set(answer, { holds, end });
  }

  /** Answers those that wait for something which holds by now. */
  settle() {
    for (const { holds, end } of this.#held.values()) {
      if (holds()) end();
    }
  }

  rejectAll(error) {
    this.#over = error;
    for (const answer of this.#open) answer.reject(error);
  }

  get size() {
    return this.#open.size;
  }
}

/** Those who wait for something that has a number. */
export class ByNumber {
  #waiting = new Map();

  add(number, answer) {
    this.#waiting.set(number, [...(this.#waiting.get(number) ?? []), answer]);
  }

  get isEmpty() {
    return this.#waiting.size === 0;
  }

  /** Returns those who wait for this number, and no more do. */
  take(number) {
    const answers = this.#waiting.get(number) ?? [];
    this.#waiting.delete(number);
    return answers;
  }
}
