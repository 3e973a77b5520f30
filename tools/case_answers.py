"""What the cases of make_cases.py should print: from the reference, and by the rules for calls that fail."""
import sys

from answers import Program, reference_answer

NO_LIMIT = 2**64
ROOM = 1 << 20
READ_FAULT, WRITE_FAULT = (6, b"read fault\n"), (7, b"write fault\n")


class Outside:
    """What a call answers: from the reference, and by the rules for calls that fail.

    A file of n bytes takes n + 2 calls of a shelf that gives one byte a read: one opens it, and the last
    finds its end. The catalogue is read first; where it has a fault, the workload isn't read, and where that
    has one, the report isn't. A sink that takes m bytes a call takes the next m in each call, until one fails
    or takes none.
    """

    def __init__(self, command):
        self.ask = Program("the reference", command).answer if command else reference_answer
        self.known = {}

    def reference(self, words, files):
        key = (tuple(words), tuple(sorted(files.items())))
        if key not in self.known:
            self.known[key] = self.ask(words, files)
        return self.known[key]

    def answer(self, case, files, shelf_fails, out_fails):
        status, reported, text = self.reference(case.call(), files)
        if shelf_fails:
            if case.number("reads", 0) != 1:
                sys.exit("%s: what fails is known only where a read gives one byte" % case.name)
            if shelf_fails <= shelf_calls(case.call(), files, status):
                (status, reported), text = READ_FAULT, b""
        taken = fed(text, case.number("out-takes", NO_LIMIT), case.number("out-room", ROOM), out_fails)
        if taken != text:
            status, reported = WRITE_FAULT
        reported = fed(reported, case.number("err-takes", NO_LIMIT), case.number("err-room", ROOM), case.number("err-fails", 0))
        return status, reported, taken


def shelf_calls(words, files, status):
    """How many calls of the shelf, one byte a read, come to the end of the files that are read."""
    named = words[1:{3: 2, 4: 3}.get(status)]
    return sum(len(files[x]) + 2 for x in named)


def fed(text, most, room, fails):
    """What a sink takes of a text."""
    taken = call = 0
    while taken < len(text):
        call += 1
        n = min(most, room - taken, len(text) - taken)
        if call == fails or n == 0:
            break
        taken += n
    return text[:taken]


def front(data, lines):
    """The first lines of the bytes."""
    return b"".join(data.splitlines(keepends=True)[:lines]) if b"\r" not in data else sys.exit("a return in a file that is cut")


def runs(outside, case):
    """The number and the answer of each run."""
    shelf_fails, out_fails = case.number("shelf-fails", 0), case.number("out-fails", 0)
    if not case.each:
        yield 0, outside.answer(case, case.files, shelf_fails, out_fails)
    elif case.each.startswith("cut-byte "):
        name = case.each[9:]
        for k in range(len(case.files[name]) + 1):
            yield k, outside.answer(case, dict(case.files, **{name: case.files[name][:k]}), shelf_fails, out_fails)
    elif case.each.startswith("cut "):
        name = case.each[4:]
        data = case.files[name]
        for k in range(data.count(b"\n") + 1):
            files = dict(case.files)
            files[name] = data if k == data.count(b"\n") else front(data, k)
            yield k, outside.answer(case, files, shelf_fails, out_fails)
    else:
        for k in range(1, 10000):
            if case.each == "shelf-call":
                got = outside.answer(case, case.files, k, out_fails)
                last = got[0] != 6
            else:
                got = outside.answer(case, case.files, shelf_fails, k)
                last = got[0] != 7
            yield k, got
            if last:
                return


def answer_lines(answer):
    status, reported, text = answer
    lines = ["status %d" % status]
    for mark, data in (("!", reported), ("|", text)):
        pieces = data.decode().split("\n")
        lines += [mark + x for x in pieces[:-1]]
        if pieces[-1]:
            lines.append(">" + pieces[-1])
    return lines


def expected_lines(outside, case):
    if case.expected:
        return case.expected
    lines, group = [], []
    for number, answer in list(runs(outside, case)) + [(None, None)]:
        if group and group[0][1] != answer:
            first, last = group[0][0], group[-1][0]
            if case.each:
                lines.append("run %d" % first if first == last else "runs %d to %d" % (first, last))
            lines += answer_lines(group[0][1])
            group = []
        group.append((number, answer))
    return lines
