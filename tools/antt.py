"""Reads the definitions and lemmas of the repository: what stands where, and what names what."""
import os
import re

ROOT = os.path.normpath(os.path.join(os.path.dirname(os.path.abspath(__file__)), ".."))
SIGNATURE = re.compile(r"(?:(?:pub|abbrev|unfoldable|opaque|private)\s+)*(?:(data|record)\s+)?([^\s:(){},.=]+)(?=[\s:({])")
NOT_NAMES = {"use", "module", "where", "unfolding", "open", "mod", "let", "in", "syntax", "infix", "infixl", "infixr", "tactic", "pub"}
WORD = re.compile(r"[^\s(){}\[\];,=λ→:×∧∨]+")
IMPORT = re.compile(r"^\s*(?:pub\s+)?(?:ghost\s+)?use\s+Rattle\.(\w+)\.([\w.]+?)\.\{([^}]*)\}", re.M)
PASSED_ON = re.compile(r"^\s*pub\s+use\s+Rattle\.(\w+)\.([\w.]+?)\.\{([^}]*)\}", re.M)
WHOLE = re.compile(r"^\s*(?:pub\s+)?use\s+Rattle\.(\w+)\.(specs|proofs)\.([\w.]+)\s+as\s+(\w+)\s*$", re.M)
FOLDER = re.compile(r"^\s*pub\s+use\s+Rattle\.(\w+)\.(specs|proofs)(?:\.([\w.]+))?\s+as\s+(\w+)\s*$", re.M)


class Part:
    """A definition or lemma with its lines, and the words in them."""

    def __init__(self, crate, kind, module, name, path, line):
        self.crate, self.kind, self.module, self.name, self.path, self.line = crate, kind, module, name, path, line
        self.lines, self.comment, self.uses = [], [], set()

    @property
    def key(self):
        return self.crate, self.kind, self.module, self.name

    @property
    def place(self):
        return "%s:%d" % (os.path.relpath(self.path, os.path.join(ROOT, "crates")), self.line)


def imports_of(text, form=IMPORT):
    """What a file's imports call, or those of one form: local name to (crate, kind, module, name)."""
    found = {}
    for crate, path, names in form.findall(text):
        kind, _, module = path.partition(".")
        for name in names.split(","):
            name, _, other = name.strip().partition(" as ")
            if name:
                found[(other or name).strip()] = crate, kind, module, name.strip()
    return found


def modules_of(text):
    """The modules that a file's imports call by a name of their own: that name to (crate, kind, module)."""
    return {name: (crate, kind, module) for crate, kind, module, name in WHOLE.findall(text)}


def is_signature(line, here):
    """The name that a line at the left edge declares, or None: its equations begin with the same name."""
    found = SIGNATURE.match(line)
    if not found or line[:1] in (" ", "-", "}", "{", "(", "|", "\t") or found[2] in NOT_NAMES:
        return None
    if found[1]:
        return found[2]
    rest = line[found.end(2):].lstrip()
    is_typed = rest.startswith(":") or re.match(r"(\{[^}]*\}\s*|\([^)]*\)\s*)*:\s", rest)
    return found[2] if is_typed or found[2] not in here and line.startswith(("pub ", "abbrev ")) else None


class Nesting:
    """How far the definitions of the innermost open module are indented."""

    def __init__(self):
        self.stack, self.is_opening = [0], False

    def at(self, line):
        """Takes the next line that isn't blank; returns whether a definition can begin on it."""
        indent = len(line) - len(line.lstrip())
        while not self.is_opening and indent < self.stack[-1]:
            self.stack.pop()
        begins = indent == self.stack[-1] and not self.is_opening
        if self.is_opening or begins and line.lstrip().startswith("module "):
            self.is_opening = not line.rstrip().endswith("where")
            if not self.is_opening:
                self.stack.append(self.stack[-1] + 2)
            return False
        return begins


def parts_of(crate, kind, module, path, text):
    """The definitions of a file, in order."""
    parts, comment, here, nesting = [], [], set(), Nesting()
    for number, line in enumerate(text.split("\n"), 1):
        short = line.strip()
        if short.startswith("--"):
            comment.append(short[2:].strip())
            continue
        if not short or short.startswith("use ") or short.startswith("pub use "):
            comment = []
            continue
        name = is_signature(short, here) if nesting.at(line) else None
        if name and name not in here:
            parts.append(Part(crate, kind, module, name, path, number))
            parts[-1].comment = comment
            here.add(name)
        if parts:
            parts[-1].lines.append(line)
        comment = []
    return parts


class PassedOn:
    """What crates pass on: whole folders under a name of their own (Lib.antt), and single names (`pub use`)."""

    def __init__(self):
        self.folders, self.names = {}, {}

    def take(self, crate, kind, module, text):
        if module == "Lib":
            for low, of_kind, inside, name in FOLDER.findall(text):
                self.folders[crate, kind, name] = low, of_kind, inside
        for name, key in imports_of(text, PASSED_ON).items():
            self.names[crate, kind, module, name] = key

    def declared(self, key):
        """The place where the name of a key is declared: first its folder is followed down, then the name."""
        seen = set()
        while key not in seen:
            seen.add(key)
            crate, kind, module, name = key
            head, _, rest = module.partition(".")
            low = self.folders.get((crate, kind, head))
            if low:
                key = low[0], low[1], ".".join(part for part in (low[2], rest) if part), name
            else:
                key = self.names.get(key, key)
        return key


def read_crate(crate, passed_on):
    """All parts of a crate's specs/ and proofs/, each with what it names; what it passes on is noted."""
    found = []
    for kind in ("specs", "proofs"):
        folder = os.path.join(ROOT, "crates", crate, kind)
        for at, folders, names in os.walk(folder):
            folders.sort()
            for name in sorted(names):
                if not name.endswith(".antt"):
                    continue
                path = os.path.join(at, name)
                with open(path, encoding="utf-8") as it:
                    text = it.read()
                module = os.path.relpath(path, folder)[: -len(".antt")].replace(os.sep, ".")
                passed_on.take(crate, kind, module, text)
                if module == "Lib":
                    continue
                parts, calls, modules = parts_of(crate, kind, module, path, text), imports_of(text), modules_of(text)
                here = {it.name: it.key for it in parts}
                for it in parts:
                    for word in WORD.findall("\n".join(it.lines)):
                        head, *rest = word.split(".")
                        key = here.get(head) or calls.get(head) or here.get(word) or calls.get(word)
                        if not key and rest and head in modules:
                            key = (*modules[head], rest[0])
                        if key and key != it.key:
                            it.uses.add(key)
                found += parts
    return found


def crates():
    with open(os.path.join(ROOT, "crates.txt"), encoding="utf-8") as it:
        lines = [line.partition("#")[0].strip() for line in it]
    return [line.partition(":")[0].split()[0] for line in lines if line]


def read_all():
    """Every part by its key; a name that is passed on by `pub use` is found under the place where it is declared."""
    parts, passed_on = {}, PassedOn()
    for crate in crates():
        for it in read_crate(crate, passed_on):
            parts[it.key] = it
    for it in parts.values():
        it.uses = {key for key in map(passed_on.declared, it.uses) if key in parts and key != it.key}
    return parts, passed_on


def cited_by_code(passed_on):
    """The keys that contracts in src/ name."""
    found = set()
    for crate in crates():
        for at, _, names in os.walk(os.path.join(ROOT, "crates", crate, "src")):
            for name in names:
                if name.endswith(".rt"):
                    with open(os.path.join(at, name), encoding="utf-8") as it:
                        found |= set(map(passed_on.declared, imports_of(it.read()).values()))
    return found


def reached(parts, seeds):
    """All that seeds rest on, themselves too."""
    found, open_ = set(), [it for it in seeds if it in parts]
    while open_:
        key = open_.pop()
        if key not in found:
            found.add(key)
            open_ += [it for it in parts[key].uses if it not in found]
    return found
