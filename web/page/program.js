// The program in a worker: it answers one call at a time, and a call can be stopped.
const encoder = new TextEncoder(), decoder = new TextDecoder();

export class Program {
  #newWorker;
  #module = null;
  #worker;
  #number = 0;
  #answer = null;
  #onUnloaded;

  // `first` is a worker that loads the program, `early` what it has told so far, and `newWorker` makes one that waits for the program; `onUnloaded` is
  // called with why it cannot be loaded.
  constructor({first, early = [], newWorker}, onUnloaded) {
    this.#newWorker = newWorker;
    this.#onUnloaded = onUnloaded;
    this.#listen(first);
    for (const data of early) queueMicrotask(() => this.#hear(data));
  }

  get isLoaded() { return this.#module !== null; }

  get isBusy() { return this.#answer !== null; }

  // The loaded program in a worker of its own.
  another() {
    const other = new Program({first: this.#newWorker(), newWorker: this.#newWorker}, this.#onUnloaded);
    other.#give(this.#module);
    return other;
  }

  // The answer to a call, {status, out, err, milliseconds} with texts; {fault} where it was cut short, and {isStopped} where it was stopped.
  call({words, files, input}) {
    this.stop();
    const bytes = Object.fromEntries(Object.entries(files).map(([name, text]) => [name, encoder.encode(text)]));
    return new Promise(resolve => {
      this.#answer = resolve;
      this.#worker.postMessage({number: ++this.#number, words, files: bytes, input: encoder.encode(input)});
    });
  }

  // Ends the call that goes on, if one does. A worker that still loads the program goes on with that, and its answer is left.
  stop() {
    if (!this.isBusy) return;
    if (this.isLoaded) {
      this.#worker.terminate();
      this.#listen(this.#newWorker());
      this.#give(this.#module);
    }
    this.#end({isStopped: true});
  }

  #give(module) {
    this.#module = module;
    this.#worker.postMessage({module});
  }

  // A worker that was ended may still be heard of; it is not listened to.
  #listen(worker) {
    this.#worker = worker;
    worker.onmessage = ({data}) => { if (worker === this.#worker) this.#hear(data); };
    worker.onerror = event => {
      if (worker === this.#worker) this.#end({fault: event.message ?? 'the worker failed', out: '', err: ''});
    };
  }

  #hear(data) {
    if (data.module) this.#module = data.module;
    else if (data.unloaded) this.#onUnloaded(data.unloaded);
    else if (data.number === this.#number) this.#end({...data, out: decoder.decode(data.out), err: decoder.decode(data.err)});
  }

  #end(answer) {
    const resolve = this.#answer;
    this.#answer = null;
    resolve?.(answer);
  }
}
