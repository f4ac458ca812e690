// The worker, asked one thing after another. It can be stopped in the middle: then a new one takes its place.

export class RuleWorker {
  constructor(module) {
    this.module = module;
    this.waiting = new Map();
    this.next = 0;
    this.start();
  }

  start() {
    this.worker = new Worker('worker.js', { type: 'module' });
    this.worker.onmessage = ({ data }) => this.answered(data.id, data);
    this.worker.onerror = fault => this.stop(`fisca: ${fault.message || 'the worker failed'}`);
    this.worker.postMessage({ module: this.module });
  }

  /** Runs the words of a command line over a text, rule files and files of tests: what it wrote, told and ended with. */
  task(words, text, files, tests = []) {
    const id = this.next++;
    return new Promise(done => {
      this.waiting.set(id, done);
      this.worker.postMessage({ id, words: ['fisca', ...words], text, files, tests });
    });
  }

  answered(id, answer) {
    this.waiting.get(id)?.(answer);
    this.waiting.delete(id);
  }

  /** Ends what is running: all that waits is answered by this line. */
  stop(told = 'fisca: stopped') {
    this.worker.terminate();
    for (const id of [...this.waiting.keys()]) this.answered(id, { status: 7, out: '', told });
    this.start();
  }
}
