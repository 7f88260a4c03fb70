"""What a statement of specs/ reaches: all definitions whose names stand in it, in these, and so on.

    python3 bench/reach.py crates/history_core/specs/TrueRun.antt IsTrueRun

A name is looked up where its file imports it from. Counted are definitions of this repository's specs/ and the lines
that they take, without imports, comments and blank lines; std's and the kit's are not followed, and neither is what a
definition gets from a type of the source (those types are counted apart).
"""
import collections
import pathlib
import re
import sys

TOP = pathlib.Path(__file__).resolve().parent.parent
NAME = r"[^\W\d][\w'-]*"
HEAD = re.compile(rf"(?:(?:abbrev|unfoldable|pub|core)\s+)*(?:(record|data)\s+)?({NAME})")
IMPORT = re.compile(r"(?ms)^(?:pub )?use Rattle\.([\w.]+?)\.\{([^}]*)\}\s*?$")
MODULE = re.compile(r"(?m)^(?:pub )?use Rattle\.([\w.]+) as (\w+)\s*$")
CITED = re.compile(rf"(?<![\w.'])({NAME})((?:\.{NAME})*)")


class Spec:
    """A file of specs/: its definitions with their lines, and where its other names come from."""

    def __init__(self, path):
        text = path.read_text()
        self.names, self.modules, self.lines, self.owner = {}, {}, {}, {}
        for module, names in IMPORT.findall(text):
            for one in names.split(","):
                real, _, name = (part.strip() for part in one.partition(" as "))
                self.names[name or real] = (module, real)
        for module, name in MODULE.findall(text):
            self.modules[name] = module
        self._read(MODULE.sub("", IMPORT.sub("", text)))

    def _read(self, text):
        name, inside = None, 0
        for line in text.split("\n"):
            if re.match(r"module\b", line):
                name, inside = None, 2
                continue
            code = line.split("--")[0].rstrip()
            if code and not code[0].isspace():
                inside = 0
            code = code[inside:] if code[:inside].isspace() else code
            head = HEAD.match(code)
            if head and not code[0].isspace() and head.group(2) not in self.lines and head.group(2) != "module":
                name = head.group(2)
                self.lines[name], self.owner[name] = [], name
            if code and name:
                self.lines[name].append(code)
                variant = re.match(rf"\s+({NAME})\s*:", code)
                if variant and re.match(r"(pub )?data ", self.lines[name][0]):
                    self.owner[variant.group(1)] = name


class Reach:
    """The definitions that are reached, as pairs of file and name, and the types of the source that they name."""

    def __init__(self, top=TOP):
        self.top, self.specs, self.found, self.types = top, {}, set(), set()

    def spec(self, path):
        if path not in self.specs:
            self.specs[path] = Spec(path)
        return self.specs[path]

    def add(self, path, name):
        """Adds what a definition of a file reaches, and whether there is such a definition."""
        ahead = [(path, name)]
        if name not in self.spec(path).owner:
            return False
        while ahead:
            path, name = ahead.pop()
            spec = self.spec(path)
            if name not in spec.owner:
                ahead += self._imported(*spec.names[name]) if name in spec.names else []
                continue
            name = spec.owner[name]
            if (path, name) not in self.found:
                self.found.add((path, name))
                ahead += self._cited(path, spec, name)
        return True

    def _cited(self, path, spec, name):
        cited = []
        for head, rest in set(CITED.findall("\n".join(spec.lines[name]))):
            if head in spec.owner:
                cited.append((path, head))
            elif head in spec.names:
                cited += self._imported(*spec.names[head])
            elif head in spec.modules:
                cited += self._imported(spec.modules[head], rest.split(".")[1] if rest else "")
        return cited

    def _imported(self, module, name):
        crate, *parts = module.split(".")
        if parts[:1] != ["specs"] or not (self.top / "crates" / crate).exists():
            return []
        if parts[1:2] == ["declared"]:
            self.types.add((crate, ".".join(part for part in parts[2:] if not part.startswith("The"))))
            return []
        path = self.top / "crates" / crate / ("/".join(parts) + ".antt")
        return [(path, name)] if name and path.exists() else []

    def counts(self):
        """By crate and file: how many definitions are reached, and how many lines they take."""
        by_file = collections.defaultdict(lambda: [0, 0])
        for path, name in self.found:
            crate, _, *parts = path.relative_to(self.top / "crates").with_suffix("").parts
            by_file[crate, "/".join(parts)][0] += 1
            by_file[crate, "/".join(parts)][1] += len(self.specs[path].lines[name])
        return dict(by_file)


def main():
    path, *names = sys.argv[1:]
    reach = Reach()
    for name in names:
        if not reach.add(TOP / path, name):
            sys.exit(f"{path} defines no {name}")
    counts = reach.counts()
    for (crate, file), (definitions, lines) in sorted(counts.items()):
        print(f"{crate:16} {file:16} {definitions:4} {lines:5}")
    crates = {crate for crate, _ in counts}
    print(f"{sum(one for one, _ in counts.values())} definitions, {sum(one for _, one in counts.values())} lines, "
          f"{len(counts)} files, {len(crates)} crates; they name {len(reach.types)} types of the source")


if __name__ == "__main__":
    main()
