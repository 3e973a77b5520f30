"""Time, memory, instructions and output of one call of a program: a part of benchmark.py.

The system tells the memory of a process as at least that of the one which started it, and Python has more than
`sdd1` needs. So a shell starts the program and ends, and the program is waited for here.
"""
import ctypes
import hashlib
import os
import re
import shutil
import subprocess
import threading
from typing import NamedTuple

import sdd_path  # noqa: F401
from sdd.model.files import BadInput

SET_CHILD_SUBREAPER = 36                    # of prctl(2): who is left by its parent becomes a child of this process
START = 'exec 3<&0; { read go <&3; exec "$@" 3<&-; } >"$OUT" 2>"$ERRORS" & echo $!'
COUNTER = ["valgrind", "--tool=callgrind", "--callgrind-out-file=/dev/null"]
COLLECTED = re.compile(r"Collected : (\d+)")


class Measured(NamedTuple):
    seconds: float
    megabytes: float
    text: str               # a digest of what was printed
    events: int             # the number of the last event that is reported; None where none is
    fault: str


class Room:
    """A folder for what programs print, and the most seconds that a call may take."""

    def __init__(self, folder, seconds):
        self.out, self.errors, self.log = (os.path.join(folder, x) for x in ("out", "errors", "log"))
        self.seconds = seconds
        ctypes.CDLL(None).prctl(SET_CHILD_SUBREAPER, 1, 0, 0, 0)

    def start(self, words):
        """The number of a process that runs these words, started by a shell that has ended."""
        if shutil.which(words[0]) is None:
            raise BadInput("%s doesn't run: no such program" % words[0])
        gate, go = os.pipe()
        found = subprocess.run(["sh", "-c", START, "sh"] + words, stdin=gate, stdout=subprocess.PIPE, check=True,
                               env=dict(os.environ, OUT=self.out, ERRORS=self.errors))
        os.close(gate)
        os.write(go, b"\n")
        os.close(go)
        return int(found.stdout)

    def wait(self, pid):
        """Its status, what it used, and whether it was ended for its time."""
        late = threading.Timer(self.seconds, os.kill, (pid, 9))
        late.start()
        try:
            _, status, used = os.wait4(pid, 0)
        except BaseException:
            os.kill(pid, 9)
            raise
        finally:
            is_late = not late.is_alive()
            late.cancel()
        return os.waitstatus_to_exitcode(status), used, is_late

    def measure(self, words):
        """Runs it once; what it printed is read behind the clock."""
        status, used, is_late = self.wait(self.start(words))
        digest, events = hashlib.sha256(), None
        with open(self.out, "rb") as f:
            for line in f:
                digest.update(line)
                number = line.split(b" ", 1)[0]
                events = int(number) if number.isdigit() else events
        with open(self.errors, encoding="utf-8", errors="replace") as f:
            reported = f.readline().strip()
        fault = "over %d s" % self.seconds if is_late else (reported or "status %d" % status) if status else ""
        return Measured(used.ru_utime + used.ru_stime, used.ru_maxrss / 1024, digest.hexdigest(), events, fault)

    def least(self, words, runs):
        """The least time and memory of several runs, with the rest of the first."""
        first, *others = [self.measure(words)]
        while not first.fault and len(others) < runs - 1:
            others.append(self.measure(words))
        every = [first] + others
        return first._replace(seconds=min(x.seconds for x in every), megabytes=min(x.megabytes for x in every))

    def instructions(self, words):
        """How many the program carries out, without the system's own; None where nobody counts them, or it takes too long."""
        if shutil.which(COUNTER[0]) is None:
            return None
        status, _, _ = self.wait(self.start(COUNTER + ["--log-file=%s" % self.log] + words))
        with open(self.log, encoding="utf-8", errors="replace") as f:
            found = COLLECTED.search(f.read())
        return int(found[1]) if found and status == 0 else None
