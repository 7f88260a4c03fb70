"""unused.py [TOP]: which definitions and lemmas nothing uses, for check_docs.

A name is used where code, an answer or an invariant names it, or a definition or lemma that is used itself. A word counts
for a declaration of its own file, and of a file from which its own imports the name (or the whole module, under a name).
What stands in the modules of EXAMPLES is there to be read. Read by patterns, not by a parser.
"""
import collections
import pathlib
import re
import sys

WORD = re.compile(r"[^\s(){}\[\],;.λ]+")
IMPORT = re.compile(r"\s*(?:pub )?(?:ghost )?use ([^\s{;]+?)\.?(?:\{(.*)\})?(?: as (\S+?))?;?\s*$")
HEAD = re.compile(r" *(?:(?:abbrev|unfoldable|pub|core|record|data|ruleset)\s+)*([^\s(){}\[\],;.:]+)(?=\s+:(?:\s|$)|\s+[({]|\s+=|$)")
MEMBERS = re.compile(r"(pub )?(core )?(record|data) ")
OTHERS = ("use ", "pub use ", "mod ", "pub mod ", "open ", "infix", "syntax ", "where")
OF_FUNCTIONS = ("Answers.antt", "Invariants.antt", "Proof.antt")        # their names are those of the prover
EXAMPLES = ("SmallDataSetLaws", "StaleLaws", "WorkedRunLaws")

Declaration = collections.namedtuple("Declaration", "file line last name")


class Source:
    """A file: its imports, as (module, names by the name here, name of the whole), and its declarations by their lines."""

    def __init__(self, path):
        self.path, self.lines = path, path.read_text().split("\n")
        self.imports, self.taken = [], set()
        self._read_imports()
        ours = path.suffix == ".antt" and path.name not in OF_FUNCTIONS and path.parent.name != "TheSendSync"
        self.declarations = list(self._declared()) if ours else []

    def _read_imports(self):
        at = 0
        while at < len(self.lines):
            first, text = at, self.lines[at]
            if re.match(r"\s*(pub )?(ghost )?use ", text):
                while "{" in text and "}" not in text or text.rstrip().endswith(","):
                    at += 1
                    text += " " + self.lines[at]
                self.taken.update(range(first, at + 1))
                if found := IMPORT.match(text):
                    names = [it.split(" as ") for it in (found[2] or "").split(",") if it.strip()]
                    here = {it[-1].strip(): it[0].strip() for it in names}
                    self.imports.append((found[1].removeprefix("Rattle."), here, None if here else found[3]))
            at += 1

    def code(self):
        """The lines without imports and comments."""
        mark = "//" if self.path.suffix == ".rt" else "--"
        for at, line in enumerate(self.lines):
            if at not in self.taken and line.strip() and not line.lstrip().startswith(mark):
                yield at, line

    def _declared(self):
        one, margins = None, [0]
        for at, line in self.code():
            bare, indent = line.strip(), len(line) - len(line.lstrip())
            while indent < margins[-1] and bare[0] not in ")]}":
                margins.pop()
            if bare.startswith("module ") and indent == margins[-1]:
                margins.append(indent + 2)
            elif indent > margins[-1] or bare[0] in ")]}|" or bare.startswith("unfolding ") \
                    or one and re.split(r"[\s(){}\[\],;]", bare, maxsplit=1)[0] == one.name:
                one = one and one._replace(last=at)
                continue
            head = None if bare.startswith((*OTHERS, "module ")) else HEAD.match(line)
            if one:
                yield one
            one = head and Declaration(self.path, at, at, head[1])
        if one:
            yield one

    def names(self):
        """The declarations by name, records and data by the names of their members too."""
        found = {}
        for one in self.declarations:
            found[one.name] = one
            if MEMBERS.match(self.lines[one.line].strip()):
                for line in self.lines[one.line + 1 : one.last + 1]:
                    if member := WORD.match(line.strip().removeprefix("pub ")):
                        found.setdefault(member[0], one)
        return found


class Uses:
    """Which declarations name which, and which are named by what is no declaration."""

    def __init__(self, top):
        crates = pathlib.Path(top) / "crates"
        paths = [path for path in crates.glob("*/*/**/*") if path.suffix in (".rt", ".antt") and "out" not in path.parts]
        self.sources = [Source(path) for path in paths]
        self.names = {".".join(it.path.relative_to(crates).with_suffix("").parts): it.names() for it in self.sources
                      if it.path.suffix == ".antt"}
        self.by_stem = collections.defaultdict(list)
        for module, names in self.names.items():
            self.by_stem[module.rpartition(".")[2]].append(names)
        self.users, self.roots = collections.defaultdict(set), set()
        for source in self.sources:
            own = self.names.get(".".join(source.path.relative_to(crates).with_suffix("").parts), {})
            self._read(source, own)

    def _read(self, source, own):
        known, wholes = {}, [own]
        for module, here, name in source.imports:
            there = self.names.get(module, {})
            known.update({short: there[full] for short, full in here.items() if full in there})
            wholes += [there] if name else []
        owner = {at: one for one in source.declarations for at in range(one.line, one.last + 1)}
        for at, line in source.code():
            found = {known[word] for word in WORD.findall(line) if word in known}
            found |= {names[word] for word in WORD.findall(line) for names in wholes if word in names}
            if source.path.suffix == ".rt":     # a lemma by its path, as `crate::proofs::PlaceLaws::putting`
                for stem, word in re.findall(r"(\w+)::([^\s(){},:;]+)", line):
                    found |= {names[word] for names in self.by_stem[stem] if word in names}
            if user := owner.get(at):
                self.users[user] |= found - {user}
            else:
                self.roots |= found

    def unused(self):
        ours = [one for source in self.sources for one in source.declarations]
        todo = [*self.roots, *(one for one in ours if one.file.stem in EXAMPLES)]
        seen = set(todo)
        while todo:
            for one in self.users[todo.pop()] - seen:
                seen.add(one)
                todo.append(one)
        return sorted({one for one in ours if one not in seen})


def unused(top):
    """The declarations that nothing uses, by file and line."""
    return Uses(top).unused()


if __name__ == "__main__":
    rows = unused(sys.argv[1] if sys.argv[1:] else pathlib.Path(__file__).resolve().parent.parent)
    for row in rows:
        print(f"{row.file}:{row.line + 1}: nothing uses {row.name}")
    sys.exit(bool(rows))
