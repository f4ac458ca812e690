// The commands in a worker: the module, and what it is asked. Node takes the class Rules from here too.

const OUTCOMES = ['done', 'no message', 'no room', 'no memory', 'help', 'usage'];
const OUT_OF_MEMORY = 'fisca: out of memory';
const encoder = new TextEncoder(), decoder = new TextDecoder();

/** The bytes of a text or of a file, one behind another, and where each ends. */
function message(parts) {
  const all = parts.map(part => (typeof part === 'string' ? encoder.encode(part) : part));
  const ends = new BigUint64Array(all.length);
  let end = 0;
  all.forEach((part, i) => { end += part.length; ends[i] = BigInt(end); });
  const bytes = new Uint8Array(end);
  all.forEach((part, i) => bytes.set(part, Number(ends[i]) - part.length));
  return { bytes, ends };
}

/** The module, of which an instance that trapped or has no more memory is left for a new one. */
export class Rules {
  constructor(module) {
    this.module = module;
    this.instance = null;
  }

  /** Runs the words of a command line over the text of their file, the rule files, [path, text] each, and files of tests: what it wrote, told and ended with. */
  task(words, text, files, tests = []) {
    try {
      this.instance ??= new WebAssembly.Instance(this.module, {});
      const parts = message([...words, text, ...tests.flat(), ...files.flat()]), counts = [words.length, tests.length];
      let answer = this.asked(parts, counts, 1 << 20);
      if (answer.size) answer = this.asked(parts, counts, answer.size);
      if (answer.status === 6) this.instance = null;
      return answer;
    } catch (fault) {
      this.instance = null;
      return faultOf(fault);
    }
  }

  /** Asks the module with so much room for the answer; where it wants more, it is told how much. */
  asked({ bytes, ends }, counts, size) {
    const { fisca_task, room, give_back, memory } = this.instance.exports;
    const taken = [];
    const place = length => {
      const at = room(BigInt(length));
      if (at === 0n) throw new RangeError(OUT_OF_MEMORY);
      taken.push(at);
      return Number(at);
    };
    try {
      const [message_at, ends_at, out_at, reply_at] = [bytes.length + 1, ends.byteLength, size, 32].map(place);
      new Uint8Array(memory.buffer, message_at, bytes.length).set(bytes);
      new BigUint64Array(memory.buffer, ends_at, ends.length).set(ends);
      const numbers = [message_at, bytes.length, ends_at, ends.length, ...counts, out_at, size, reply_at];
      fisca_task(...numbers.map(BigInt));
      const [outcome, status, written, told] = Array.from(new BigUint64Array(memory.buffer, reply_at, 4), Number);
      if (OUTCOMES[outcome] === 'no room') return { size: written + told };
      return answer(OUTCOMES[outcome], status, new Uint8Array(memory.buffer, out_at, size), written, told);
    } finally {
      for (const at of taken) give_back(at);
    }
  }
}

// what is told where the module trapped, where the stack of the browser did not suffice, or where it gave no memory
function faultOf(fault) {
  const isStack = /stack|recursion/i.test(fault.message), isMemory = !isStack && fault instanceof RangeError;
  return isMemory ? { status: 6, out: '', told: OUT_OF_MEMORY } : { status: 7, out: '', told: `fisca: the module stopped: ${fault.message}` };
}

/** What a page is told, as a program tells it. */
function answer(outcome, status, room, written, told) {
  const text = (from, to) => decoder.decode(room.slice(from, to));
  switch (outcome) {
    case 'done': return { status, out: text(0, written), told: text(written, written + told) };
    case 'help': return { status: 0, out: text(0, written), told: '' };
    case 'usage': return { status: 2, out: '', told: text(0, written).replace(/\n$/, '') };
    case 'no memory': return { status: 6, out: '', told: OUT_OF_MEMORY };
    default: return { status: 5, out: '', told: 'fisca: a file is no text' };
  }
}

// in a worker: each message has a number and what is asked; a run is told of in parts
if (typeof WorkerGlobalScope !== 'undefined' && self instanceof WorkerGlobalScope) {
  let rules = null;
  self.onmessage = async ({ data: { id, module, words, text, files, tests } }) => {
    if (module) rules = new Rules(module);
    else postMessage({ id, ...rules.task(words, text, files, tests) });
  };
}
