// The two programs, each in a worker of its own, so that they run beside each other and beside the page.

class BadInput extends Error {}         // what is wrong, in one line
class Refused extends BadInput {}       // a line in which a program refuses a file
class Stopped extends BadInput {}       // the user, or the time that a call may take, ended it

const STATUS_OF_TRAP = -1;

// A module with a memory of 64 bits, which a browser either knows or not.
function knowsMemory64() {
  const smallest = [0, 97, 115, 109, 1, 0, 0, 0, 5, 3, 1, 4, 1];
  return typeof WebAssembly === "object" && typeof DecompressionStream === "function" && WebAssembly.validate(new Uint8Array(smallest));
}

// What is kept in the page as base64 of gzip.
function unpackedBytes(base64) {
  const bytes = Uint8Array.fromBase64 ? Uint8Array.fromBase64(base64) : Uint8Array.from(atob(base64), x => x.charCodeAt(0));
  return new Response(new Blob([bytes]).stream().pipeThrough(new DecompressionStream("gzip"))).arrayBuffer();
}

class Program {
  // `id` is that of the element with the module. It is compiled once; a worker that takes the place of a stopped one gets it too.
  constructor(name, id) {
    this.name = name;
    this.calls = [];                    // in the order in which the worker answers them
    this.stops = 0;                     // how often it was stopped
    this.module = unpackedBytes(byId(id).textContent.trim()).then(bytes => WebAssembly.compile(bytes));
    this.module.catch(() => 0);         // each call reports it
  }

  async begun() {
    const module = await this.module;
    if (this.worker) return this.worker;
    const address = URL.createObjectURL(new Blob([byId("worker").textContent], {type: "text/javascript"}));
    this.worker = new Worker(address);
    this.worker.onmessage = ({data}) => this.take(data);
    this.worker.onerror = fault => this.stop("the program doesn't start: " + (fault.message || "the browser refuses the worker"));
    this.worker.postMessage({module});
    return this.worker;
  }

  take(data) {
    if (data.memory === undefined) this.calls.shift().done(data);
    else this.calls[0]?.tell(data.memory);
  }

  // Ends what is under way; the next call begins with a new worker.
  stop(why) {
    this.stops++;
    this.worker?.terminate();
    this.worker = null;
    for (const call of this.calls.splice(0)) call.refuse(new Stopped(why));
  }

  // What a call ends with: {status, out, err, ms}. `files` are texts, or bytes, by their names; `tell` is told now and then how
  // many bytes of memory the run has.
  async call(words, files, {seconds = 0, tell = () => 0} = {}) {
    const before = this.stops, worker = await this.begun();
    if (this.stops !== before) throw new Stopped("stopped");
    return new Promise((done, refuse) => {
      const timer = seconds ? setTimeout(() => this.stop(`the run takes longer than ${seconds} seconds`), seconds * 1000) : 0;
      const ended = act => x => { clearTimeout(timer); act(x); };
      this.calls.push({tell, done: ended(done), refuse: ended(refuse)});
      worker.postMessage({words, files});
    });
  }

  // The text of a call that must be accepted.
  async tell(words, files, how) {
    const {status, out, err} = await this.call(words, files, how);
    if (status === STATUS_OF_TRAP) throw new BadInput(`${this.name}: ${err}`);
    if (status) throw new Refused(err.trim().split("\n").at(-1) || `${this.name} ended with status ${status}`);
    return out;
  }
}
