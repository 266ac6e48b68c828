// Asks the worker, one page after another, and ends it where one takes too long.

// How long one page may take, in milliseconds.
const PATIENCE = 10000;
const SLOW = "not read: it takes more than ten seconds";

class Asking {
  // `script` is the text of the worker, `module` the bytes of naplps.wasm.
  constructor(script, module) {
    this.address = URL.createObjectURL(new Blob([script], { type: "text/javascript" }));
    Object.assign(this, { module, worker: null, waiting: [], asked: null, number: 0 });
  }

  // What the worker answers; those that are `first` come before others that wait. One that isn't wanted any more in its
  // turn isn't asked: it has the answer null.
  ask(question, isFirst = false, isWanted = () => true) {
    return new Promise((done) => {
      const it = { question: { ...question, number: ++this.number }, done, isWanted };
      if (isFirst) this.waiting.unshift(it);
      else this.waiting.push(it);
      this.next();
    });
  }

  start() {
    this.worker = new Worker(this.address);
    this.worker.onmessage = ({ data }) => this.take(data);
    this.worker.onerror = (event) => {
      event.preventDefault();
      this.end({ fault: event.message || "the reader ended" });
    };
    this.worker.postMessage({ number: 0, module: this.module });
  }

  next() {
    if (this.asked) return;
    while (this.waiting.length && !this.waiting[0].isWanted()) this.waiting.shift().done(null);
    if (!this.waiting.length) return;
    if (!this.worker) this.start();
    this.asked = this.waiting.shift();
    this.timer = setTimeout(() => this.end({ fault: SLOW, isSlow: true }), PATIENCE);
    this.worker.postMessage(this.asked.question);
  }

  take(data) {
    if (data.fault && !data.number) this.end(data);
    if (this.asked && data.number === this.asked.question.number) this.answer(data);
  }

  answer(data) {
    const { done } = this.asked;
    clearTimeout(this.timer);
    this.asked = null;
    done(data);
    this.next();
  }

  // Ends the worker; the next question has a new one.
  end(data) {
    this.worker.terminate();
    this.worker = null;
    if (this.asked) this.answer(data);
  }
}

export { Asking };
