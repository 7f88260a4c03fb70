#!/usr/bin/env python3
"""Reckons checksums of table files and heads of journals, by docs/FORMATS.md alone.

    bench/checksums.py FILE..          the checksum of each file, as a journal's head has it
    bench/checksums.py --cases CASE..  writes the heads of the journals in cases anew, in form 2

A head in a case is one over the small tables, or over tables whose text the case has, where a line of it has their
bytes and rows. Else a line is of other tables, and its checksum is that of the line.
"""
import hashlib
import pathlib
import re
import sys

PIECE = 1 << 20
TOP = pathlib.Path(__file__).resolve().parent.parent
SMALL = TOP / "crates/small_data/src/lib.rt"
HEAD = re.compile(r"^(.) \d{15}\n([0-9a-f]{32})\n(ssb_live journal [12]\n)((?:[a-z]+\|\d+\|\d+(?:\|[0-9a-f]{32})?\n)+)",
                  re.M)
CUT_HEAD = re.compile(r"^(.) 000000000000(?:120|285)\n[0-9a-f]{12}\\$", re.M)
TABLE_FILE = re.compile(r"^== (?:file|leaves) \S*?(\w+)\.tbl\n((?:\d.*\n)+)", re.M)


def checksum(content):
    """The MD5 of the MD5s of the pieces of a file's bytes."""
    pieces = [content[start:start + PIECE] for start in range(0, len(content), PIECE)]
    return hashlib.md5(b"".join(hashlib.md5(piece).digest() for piece in pieces)).hexdigest()


def small_tables():
    """The texts of the tables that are built into the program, by name."""
    texts = re.findall(r'pub const (\w+): &str = "\\\n(.*?)";', SMALL.read_text(), re.S)
    return [(name.lower(), text) for name, text in texts]


def mark(line, tables):
    """The line of a table, with its checksum."""
    name, size, rows = line.split("|")[:3]
    for table, text in tables:
        if table == name and len(text) == int(size) and text.count("\n") == int(rows):
            return f"{name}|{size}|{rows}|{checksum(text.encode())}\n"
    return f"{name}|{size}|{rows}|{hashlib.md5(line.encode()).hexdigest()}\n"


def head_group(gate, lines, tables):
    """The group of a head in form 2, behind its gate."""
    text = "ssb_live journal 2\n" + "".join(mark(line, tables) for line in lines)
    seal = hashlib.md5(text.encode()).hexdigest()
    return f"{gate} {len(text) + 33:015}\n{seal}\n{text}"


def rewrite(case):
    """Writes the heads of a case anew."""
    content = case.read_text()
    tables = small_tables() + TABLE_FILE.findall(content)

    small = [f"{name}|{len(text)}|{text.count(chr(10))}" for name, text in small_tables()]

    def whole(found):
        gate, seal, title, lines = found.groups()
        group = head_group(gate, lines.splitlines(), tables)
        if seal == hashlib.md5((title + lines).encode()).hexdigest():
            return group
        return head_group(gate, small, tables)[:51] + group[51:]     # the checksum is that of the small tables' head

    def cut(found):
        return head_group(found[1], small, tables)[:18 + 12] + "\\"

    case.write_text(CUT_HEAD.sub(cut, HEAD.sub(whole, content)))


def main(words):
    if words[:1] == ["--cases"]:
        for name in words[1:]:
            rewrite(pathlib.Path(name))
    else:
        for name in words:
            print(f"{checksum(pathlib.Path(name).read_bytes())}  {name}")


if __name__ == "__main__":
    main(sys.argv[1:])
