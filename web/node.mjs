#!/usr/bin/env node
// A program as WebAssembly on a command line, run by the very script that runs it in the page (worker.js).
//
//     node [--experimental-wasm-memory64] web/node.mjs MODULE WORD ..     files that words name are read
//     node [--experimental-wasm-memory64] web/node.mjs --serve            calls as lines of JSON, for node.py
//
// Node before 24 needs the flag. A line of JSON is {module, words, files: {name: base64}}; its answer {status, out, err}, the
// last two as base64. The file with an empty name is the standard input.

import fs from "node:fs";
import readline from "node:readline";
import vm from "node:vm";

const modules = new Map();
Object.assign(globalThis, {onmessage: null, postMessage: () => 0});
vm.runInThisContext(fs.readFileSync(new URL("worker.js", import.meta.url), "utf8"), {filename: "worker.js"});

// The status, and the bytes that are written to standard output and to standard error.
function call(path, words, files) {
  if (!modules.has(path)) modules.set(path, new WebAssembly.Module(fs.readFileSync(path)));
  globalThis.onmessage({data: {module: modules.get(path)}});
  try {
    const {status, written} = globalThis.run(words, files, () => 0);
    return {status, written: written.map(x => Buffer.concat(x))};
  } catch (fault) {
    return {status: -1, written: [Buffer.alloc(0), Buffer.from(fault.stack + "\n")]};
  }
}

function filesNamed(words) {
  const found = words.filter(x => fs.existsSync(x) && fs.statSync(x).isFile());
  return Object.fromEntries(found.map(x => [x, fs.readFileSync(x)]));
}

if (process.argv[2] === "--serve") {
  for await (const line of readline.createInterface({input: process.stdin})) {
    const {module, words, files} = JSON.parse(line);
    const given = Object.fromEntries(Object.entries(files).map(([name, text]) => [name, Buffer.from(text, "base64")]));
    const {status, written: [out, err]} = call(module, words, given);
    process.stdout.write(JSON.stringify({status, out: out.toString("base64"), err: err.toString("base64")}) + "\n");
  }
} else if (process.argv[2] && !process.argv[2].startsWith("-")) {
  const [path, ...words] = process.argv.slice(2), {status, written} = call(path, words, filesNamed(words));
  fs.writeSync(1, written[0]);
  fs.writeSync(2, written[1]);
  process.exitCode = status < 0 ? 70 : status;
} else {
  console.error("node.mjs MODULE WORD ..   or   node.mjs --serve");
  process.exitCode = 2;
}
