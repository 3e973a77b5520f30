#!/usr/bin/env python3
"""Runs a command of the gate and prints what each crate took of it, in processor time and memory.

    tools/measure_gate.py [--log FILE] [--into FILE] [-- COMMAND ..]

COMMAND is `rt ci` if left out, at the top of the repository. While it runs, the processes below it are looked at
twice a second; what a process did after the last look is missing, half a second at most. A process belongs to the
crate that its words name, or else those of the nearest process above it that names one.

The table has a line for each crate: processor minutes of its proof with the building of its library, of its edits that
must be refused, and of its programs (clang, and what it built, as it runs); and the most memory that one process had.
Above it are the sums, the time from start to end, and all processor time, which the system counts itself.
What an earlier run on the machine has passed isn't proved again, and so takes nothing. Ends with the command's status.
"""
import argparse
import os
import re
import resource
import subprocess
import sys
import threading
import time

TICKS = os.sysconf("SC_CLK_TCK")
PAUSE = 0.5
KINDS = ["proof", "edits", "programs"]
RUNNING = re.compile(r"/rt-run-[^/]*/bin/(\w+?)(_tests)?$")


def parents():
    """Who started whom: of each process its parent, by their numbers."""
    found = {}
    for name in os.listdir("/proc"):
        if name.isdigit():
            try:
                with open("/proc/%s/stat" % name, "rb") as it:
                    found[int(name)] = int(it.read().rpartition(b")")[2].split()[1])
            except OSError:
                pass
    return found


def line_to(root, pid, above):
    """The processes from this one up to the one below the root; none where it isn't below the root."""
    line = []
    while pid in above and pid != root:
        line.append(pid)
        pid = above[pid]
    return line if pid == root else []


def crate_of(words):
    """The crate that the words of a process name, or None."""
    if "--crate-name" in words[:-1]:
        return words[words.index("--crate-name") + 1]
    running = next(filter(None, map(RUNNING.search, words)), None)
    return running[1] if running else None


def words_of(pid):
    try:
        with open("/proc/%d/cmdline" % pid, "rb") as it:
            return it.read().decode(errors="replace").split("\0")
    except OSError:
        return []


def look(line):
    """What the first process of the line is doing for which crate, its processor seconds and memory; None where for none."""
    crate = next(filter(None, (crate_of(words_of(pid)) for pid in line)), None)
    if crate is None:
        return None
    with open("/proc/%d/stat" % line[0], "rb") as it:
        fields = it.read().rpartition(b")")[2].split()
    seconds = (int(fields[11]) + int(fields[12])) / TICKS
    room, own = os.readlink("/proc/%d/cwd" % line[0]), words_of(line[0])
    is_program = "/rt-run-" in room or os.path.basename(own[0]).startswith("clang")
    kind = "edits" if "/rt-edit-" in room else "programs" if is_program else "proof"
    return crate, kind, seconds, int(fields[21]) * os.sysconf("SC_PAGE_SIZE"), fields[19]


class Sampler(threading.Thread):
    """Looks at the processes below one until it is asked to stop."""

    def __init__(self, root):
        super().__init__(daemon=True)
        self.root, self.seen, self.is_over = root, {}, threading.Event()

    def run(self):
        while not self.is_over.wait(PAUSE):
            above = parents()
            for pid in above:
                line = line_to(self.root, pid, above)
                try:
                    found = look(line) if line else None
                except (OSError, ValueError, IndexError):
                    continue
                if found:
                    crate, kind, seconds, memory, started = found
                    key = pid, started
                    most = max(memory, self.seen.get(key, (0, 0, 0, 0))[3])
                    self.seen[key] = crate, kind, seconds, most

    def table(self):
        rows = {}
        for crate, kind, seconds, memory in self.seen.values():
            row = rows.setdefault(crate, dict.fromkeys(KINDS + ["memory"], 0))
            row[kind] += seconds
            row["memory"] = max(row["memory"], memory)
        return rows


def minutes_of(row, kind):
    return "%.1f" % (row[kind] / 60) if row[kind] else "-"


def text_of(rows, seconds, overall, command, status):
    """The table as a page; SECONDS from start to end, and OVERALL of the processors."""
    sums = {kind: sum(row[kind] for row in rows.values()) for kind in KINDS}
    lines = ["# What the gate takes", "",
             "Made by `tools/measure_gate.py` from one run of `%s` (status %d) on %d processors, %s. What an earlier run on the machine"
             " has passed isn't proved again: where there was one, its crates are missing below." % (
                 " ".join(command), status, os.cpu_count(), time.strftime("%Y-%m-%d")), "",
             "| | minutes |", "|---|---|", "| from start to end | %.0f |" % (seconds / 60)]
    reported = [("processor time, all", overall), ("of it proofs, with the building of libraries", sums["proof"]),
            ("of it edits that must be refused", sums["edits"]), ("of it compiling and running programs", sums["programs"])]
    lines += ["| %s | %.0f |" % (what, each / 60) for what, each in reported]
    lines += ["", "Processor minutes of each crate, and the most memory that one process had, in GB:", "",
              "| crate | proof | edits | programs | memory |", "|---|---|---|---|---|"]
    for crate, row in sorted(rows.items(), key=lambda it: -sum(it[1][kind] for kind in KINDS)):
        lines.append("| `%s` | %s | %.1f |" % (crate, " | ".join(minutes_of(row, kind) for kind in KINDS), row["memory"] / 1e9))
    most = max((row["memory"] for row in rows.values()), default=0)
    lines.append("| all | %s | %.1f |" % (" | ".join(minutes_of(sums, kind) for kind in KINDS), most / 1e9))
    return "\n".join(lines) + "\n"


def main(words):
    own, _, command = words, None, []
    if "--" in words:
        own, command = words[: words.index("--")], words[words.index("--") + 1 :]
    parser = argparse.ArgumentParser(description=__doc__, formatter_class=argparse.RawDescriptionHelpFormatter)
    parser.add_argument("--log", help="where the command's own lines go; else they are shown")
    parser.add_argument("--into", help="where the table goes; else it is shown")
    options = parser.parse_args(own)
    command = command or ["rt", "ci"]
    began = time.time()
    try:
        log = open(options.log, "w", encoding="utf-8", newline="\n") if options.log else None
        started = subprocess.Popen(command, stdin=subprocess.DEVNULL, stdout=log, stderr=subprocess.STDOUT if log else None)
    except OSError as fault:
        print("measure_gate.py: %s: %s" % (fault.filename or command[0], fault.strerror), file=sys.stderr)
        return 2
    sampler = Sampler(started.pid)
    sampler.start()
    status = started.wait()
    sampler.is_over.set()
    sampler.join()
    used = resource.getrusage(resource.RUSAGE_CHILDREN)
    page = text_of(sampler.table(), time.time() - began, used.ru_utime + used.ru_stime, command, status)
    if options.into:
        with open(options.into, "w", encoding="utf-8", newline="\n") as it:
            it.write(page)
    else:
        print(page, end="")
    return status


if __name__ == "__main__":
    sys.exit(main(sys.argv[1:]))
