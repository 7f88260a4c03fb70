"""What the tree has, for check_docs: crates, files, functions with their clauses, types, constants, definitions, faults.

Read by patterns, not by a parser. Words are those of src/ and specs/ outside of comments: a name that is left in a
comment alone is gone.
"""
import collections
import os
import pathlib
import re

HERE = pathlib.Path(__file__).resolve().parent
TOP = HERE.parent

Function = collections.namedtuple("Function", "crate owner name file line clauses ensured parameters")
Constant = collections.namedtuple("Constant", "crate file line value public")

OWNER = re.compile(r"^(?:pub(?:\([^)]*\))? )?(?:impl(?:<.*?>)? (?:.*? for )?|trait )(\w+)")
FUNCTION = re.compile(r"\bfn\s+(\w+)")
CLAUSE = re.compile(r"\b(ensures|requires|invariant)\s+(\w+)\s*\{")
TYPE = re.compile(r"^\s*(?:pub(?:\([^)]*\))?\s+)?(?:struct|enum|trait|type)\s+(\w+)", re.M)
CONSTANT = re.compile(r"^\s*(pub(?:\([^)]*\))?\s+)?const\s+([A-Z][A-Z0-9_]*)\s*:[^=]*=\s*([^;]*);", re.M)
DEFINITION = re.compile(r"^(?: *(?:(?:abbrev|unfoldable|pub|core|record|data)\s+)+)?([^\W\d][\w'-]*)", re.M)
ERROR = re.compile(r'#\[error\("(\d+) ([A-Z]\w+)')
FAULT_ROW = re.compile(r"^\| `(\d+) ([A-Z]\w+)", re.M)
WORD = re.compile(r"[A-Za-z][A-Za-z0-9_]*")
WRITTEN = ("", ".rt", ".antt", ".edit", ".case", ".md", ".txt", ".py", ".c", ".cpp", ".sql")


def without_comments(text, mark):
    """The text with each comment made blank, line for line."""
    return "\n".join(line.split(mark, 1)[0] if mark in line else line for line in text.split("\n"))


def number(text):
    """The number that an expression of digits, products and shifts is, or None."""
    text = text.strip().replace("_", "")
    if not re.fullmatch(r"[\d\s*<]+", text):
        return None
    value = 1
    for factor in text.split("*"):
        base, _, shift = factor.partition("<<")
        value *= int(base) << int(shift or 0)
    return value


def count_parameters(text, at):
    """How many parameters stand in the round brackets that come next, `self` among them."""
    at = text.find("(", _after_generics(text, at))
    depth, count, piece = 0, 0, ""
    for place in range(at, len(text)):
        one = text[place]
        if one in "([{<":
            depth += 1
        elif one in ")]}" or one == ">" and text[place - 1] != "-":
            depth -= 1
        if depth == 0:
            break
        if one == "," and depth == 1:
            count, piece = count + bool(piece.strip()), ""
        elif place > at:
            piece += one
    return count + bool(piece.strip())


def _after_generics(text, at):
    if text[at:at + 1] != "<":
        return at
    depth = 0
    for place in range(at, len(text)):
        if text[place] == "<":
            depth += 1
        elif text[place] == ">" and text[place - 1] != "-":
            depth -= 1
            if depth == 0:
                return place
    return at


class Tree:
    """What stands below the top of the repository."""

    def __init__(self, top=TOP):
        self.top = top
        self.waiting = set()            # the crates with calls that may wait
        self.libraries = self._crates()
        self.crates = list(self.libraries)
        self.kit = {one for uses in self.libraries.values() for one in uses} - set(self.crates)
        self.functions = collections.defaultdict(list)
        self.types = collections.defaultdict(set)
        self.constants = collections.defaultdict(list)
        self.definitions = {}           # (crate, stem of the file below specs/) to names
        self.faults = {}
        self.words = set(self.crates) | self.kit
        self.text_of = {}               # path to text without comments, of src/ and specs/
        self.sources = self._sources()
        for crate in self.crates:
            self._read_crate(crate)
        page = self.sources.get("crates/fault_pages/data/FAULTS.md", "")       # the gate holds it to the code
        self.faults.update((int(value), name) for value, name in FAULT_ROW.findall(page))
        self._read_bench()
        self.commands, self.flags = self._words_of_the_program()

    def _crates(self):
        libraries = {}
        for line in (self.top / "crates.txt").read_text().splitlines():
            head, found, uses = line.split("#")[0].partition(":")
            if found:
                libraries[head.split()[0]] = uses.split()
                if "may_wait=" in head:
                    self.waiting.add(head.split()[0])
        return libraries

    def _sources(self):
        """The text of each file of the tree that people write, by its name from the top; what is built is left out."""
        sources = {}
        for folder, below, names in os.walk(self.top):
            below[:] = sorted(name for name in below if name != "out" and not name.startswith("."))
            for name in sorted(names):
                path = os.path.join(folder, name)
                if os.path.splitext(name)[1] in WRITTEN:
                    with open(path, encoding="utf-8", errors="replace") as file:
                        sources[os.path.relpath(path, self.top)] = file.read()
        return sources

    def _read_crate(self, crate):
        for name in [one for one in self.sources if one.startswith(f"crates/{crate}/")]:
            path, text = self.top / name, self.sources[name]
            self.words.update(WORD.findall(name))
            if path.suffix == ".rt" and "src" in path.parts:
                self._read_source(crate, path, text)
            elif path.suffix == ".antt" and "specs" in path.parts:
                self._read_spec(crate, path, text)

    def _read_source(self, crate, path, text):
        text = without_comments(text, "//")
        self.text_of[path] = text
        self.words.update(WORD.findall(text))
        for name in TYPE.findall(text):
            self.types[name].add(crate)
        for found in CONSTANT.finditer(text):
            line = text.count("\n", 0, found.start(2)) + 1
            value = found.group(3).strip()
            self.constants[found.group(2)].append(Constant(crate, path, line, value, bool(found.group(1))))
        for found in ERROR.finditer(text):
            self.faults[int(found.group(1))] = found.group(2)
        self._read_functions(crate, path, text)

    def _read_functions(self, crate, path, text):
        owners = [(one.start(), one.group(1)) for one in re.finditer(OWNER.pattern, text, re.M)]
        ends = [one.start() for one in re.finditer(r"^}", text, re.M)]
        found = list(FUNCTION.finditer(text))
        for one, following in zip(found, found[1:] + [None]):
            until = following.start() if following else len(text)
            before = [owner for owner in owners if owner[0] < one.start()]
            inside = before and not any(before[-1][0] < end < one.start() for end in ends)
            line = text.count("\n", 0, one.start()) + 1
            clauses = CLAUSE.findall(text[one.end():until])
            owner = before[-1][1] if inside else None
            self.functions[one.group(1)].append(
                Function(crate, owner, one.group(1), path, line, {name for _, name in clauses},
                         {name for kind, name in clauses if kind == "ensures"}, count_parameters(text, one.end())))

    def _read_spec(self, crate, path, text):
        text = without_comments(text, "--")
        self.text_of[path] = text
        self.words.update(WORD.findall(text))
        stem = str(path.relative_to(self.top / "crates" / crate / "specs").with_suffix(""))
        names = set(DEFINITION.findall(text)) | set(re.findall(r"^\s+(?:abbrev )?(?:pub )?([\w'-]+)", text, re.M))
        self.definitions[crate, stem] = names

    def _read_bench(self):
        self.scripts = {name[6:]: text for name, text in self.sources.items() if name.startswith("bench/")}
        others = [text for name, text in self.scripts.items() if name not in ("check_docs", "README.md", "expected-0.01.txt")]
        others += [text for name, text in self.sources.items() if name.startswith("clients/") and name.endswith(".py")]
        self.words.update(word for text in others for word in WORD.findall(text))

    def _words_of_the_program(self):
        sources = [text for path, text in self.text_of.items() if "arguments" in path.parts]
        text = "\n".join(sources)
        commands = set(re.findall(r'name: "([a-z]+)",\s*about:', text))
        flags = set(re.findall(r'"([a-z][a-z-]*)"', text)) | {"help", "version"}
        return commands, flags

    def calls(self, name):
        """The functions that a cited name may mean: `name`, or `Type::name`, or `crate::name`."""
        owner, _, last = name.rpartition("::")
        found = self.functions.get(last, [])
        if not owner:
            return found
        return [one for one in found if owner in (one.owner, one.crate)]
