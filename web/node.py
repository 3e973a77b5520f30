"""Programs as WebAssembly, called under node: a process that serves all calls.

    with Node() as node:
        status, err, out = node.program("sdd1.wasm").answer(["check", "cat"], {"cat": b".."})
"""
import base64
import json
import os
import shutil
import subprocess

import repository  # noqa: F401
from sdd.model.files import BadInput

HERE = os.path.dirname(os.path.abspath(__file__))
KNOWS = "process.exit(WebAssembly.validate(new Uint8Array([0, 97, 115, 109, 1, 0, 0, 0, 5, 3, 1, 4, 1])) ? 0 : 1)"
FLAGS = [[], ["--experimental-wasm-memory64"]]      # the second before node 24


class NoNode(BadInput):
    """Why there is no node that can run the programs."""


def node_words():
    """The words that begin a node which knows memories of 64 bits."""
    path = shutil.which("node")
    if path is None:
        raise NoNode("there is no node here (Debian: apt-get install nodejs)")
    for flags in FLAGS:
        if subprocess.run([path, *flags, "-e", KNOWS], stdout=subprocess.DEVNULL, stderr=subprocess.DEVNULL).returncode == 0:
            return [path, *flags]
    raise NoNode("this node knows no memory of 64 bits: 20 is the first that does")


class Node:
    def __init__(self):
        self.process = subprocess.Popen(node_words() + [os.path.join(HERE, "node.mjs"), "--serve"], stdin=subprocess.PIPE, stdout=subprocess.PIPE)

    def __enter__(self):
        return self

    def __exit__(self, *_):
        self.process.stdin.close()
        self.process.wait()
        self.process.stdout.close()

    def program(self, path):
        if not os.path.isfile(path):
            raise BadInput("%s: no such module; web/modules.py makes it" % path)
        return Program(self, os.path.abspath(path))

    def call(self, module, words, files):
        given = {name: base64.b64encode(data).decode() for name, data in files.items()}
        self.process.stdin.write(json.dumps({"module": module, "words": words, "files": given}).encode() + b"\n")
        self.process.stdin.flush()
        line = self.process.stdout.readline()
        if not line:
            raise BadInput("node ended")
        answer = json.loads(line)
        return answer["status"], base64.b64decode(answer["err"]), base64.b64decode(answer["out"])


class Program:
    """Answers calls as the natively built programs of tools/answers.py do."""

    def __init__(self, node, module):
        self.node, self.module = node, module

    def answer(self, words, files):
        return self.node.call(self.module, words, files)
