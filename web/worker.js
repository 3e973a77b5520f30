"use strict";
// Runs a program beside the page. The first message is its compiled module; each further one is a call. A call takes a fresh
// instance, so that it finds the memory that the program expects. The module has a memory of 64 bits (memory64): lengths and
// addresses are BigInts there.

const BETWEEN = 150;                    // milliseconds from one message of how much memory a run has to the next
let module = null;

class OutOfMemory extends Error {}

// Bytes in the memory of an instance, with a zero behind them; gives their address.
function placed(exports, bytes) {
  const at = exports.room(BigInt(bytes.length));
  if (!at) throw new OutOfMemory("no memory for the files");
  new Uint8Array(exports.memory.buffer, Number(at), bytes.length).set(bytes);
  return at;
}

// The status of a call, and the bytes that it writes: [to standard output, to standard error]. A program writes when its run is
// at its end; before, how much memory it has is all that is known of it.
function run(words, files, tellMemory) {
  const written = [[], []], utf8 = new TextEncoder();
  let told = performance.now();
  const put = (where, at, size) => written[where - 1].push(new Uint8Array(exports.memory.buffer, Number(at), Number(size)).slice());
  const tell = bytes => {
    if (performance.now() - told < BETWEEN) return;
    told = performance.now();
    tellMemory(Number(bytes));
  };
  const {exports} = new WebAssembly.Instance(module, {page: {put, tell}});
  for (const word of ["sdd1", ...words]) {
    if (!exports.add_word(placed(exports, utf8.encode(word)))) throw new Error("too many words");
  }
  for (const [name, content] of Object.entries(files)) {
    const bytes = typeof content === "string" ? utf8.encode(content) : content;
    if (!exports.add_file(placed(exports, utf8.encode(name)), placed(exports, bytes), BigInt(bytes.length))) throw new Error("too many files");
  }
  return {status: exports.go(), written};
}

// The text of some pieces of bytes; a letter may be cut between two of them.
function textOf(pieces) {
  const decoder = new TextDecoder("utf-8", {ignoreBOM: true});
  return pieces.map(x => decoder.decode(x, {stream: true})).join("") + decoder.decode();
}

// A program that is stopped from within (an index past an end, no stack) throws; the page reports it as a status that no
// program has.
function answer(words, files, tellMemory) {
  const begin = performance.now();
  try {
    const {status, written} = run(words, files, tellMemory), [out, err] = written.map(textOf);
    return {status, out, err, ms: performance.now() - begin};
  } catch (fault) {
    return {status: -1, out: "", err: fault instanceof OutOfMemory || fault instanceof RangeError ? "no memory" : "the program ended: " + fault.message, ms: 0};
  }
}

onmessage = ({data}) => {
  if (data.module) module = data.module;
  else postMessage(answer(data.words, data.files, memory => postMessage({memory})));
};
