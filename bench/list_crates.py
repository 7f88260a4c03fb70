#!/usr/bin/env python3
"""list_crates.py [--check] [TOP]: makes the list of crates of docs/ARCHITECTURE.md, between its two marks.

The layers and their order are those of crates.txt; what a crate is, the first sentence of its lib.rt or main.rt says.
With --check nothing is written, and the status is 1 where the list is another one. TOP is another tree. check_docs
calls it.
"""
import pathlib
import re
import sys
import textwrap

TOP = pathlib.Path(__file__).resolve().parent.parent
PAGE = "docs/ARCHITECTURE.md"
BEGIN = "<!-- The list of crates: bench/list_crates.py makes it of crates.txt and of each lib.rt. -->"
END = "<!-- The end of the list of crates. -->"
WIDTH = 120


def layers_of(top):
    """The layers of crates.txt: each its heading and its crates, in order."""
    layers = []
    for line in (top / "crates.txt").read_text().splitlines():
        heading, crate = re.match(r"# (\d+\. .*)", line), re.match(r"(\w+)[^:#]*:", line)
        if heading:
            layers.append((heading.group(1).rstrip("."), []))
        elif crate and layers:
            layers[-1][1].append(crate.group(1))
    return layers


def first_sentence(top, crate):
    """What the first paragraph of a crate's page says up to its first full stop."""
    for name in ("lib.rt", "main.rt"):
        path = top / "crates" / crate / "src" / name
        if path.exists():
            lines = [line[3:].strip() for line in path.read_text().split("\n//!\n")[0].splitlines()
                     if line.startswith("//!")]
            text = re.sub(r"\[(`[^`]+`)\]", r"\1", " ".join(lines))
            return re.split(r"(?<=\.) (?=[A-Z\[`*])", text)[0]
    return "a crate without a page."


def list_of(top):
    """The lines of the list."""
    lines = []
    for heading, crates in layers_of(top):
        lines += ["", f"### {heading}", ""]
        for crate in crates:
            lines += textwrap.wrap(f"- `{crate}`: {first_sentence(top, crate)}", WIDTH, subsequent_indent="  ",
                                   break_long_words=False, break_on_hyphens=False)
    return lines[1:]


def parts_of(text):
    """The text up to the list, the list's lines, and the text after it; None where a mark is missing."""
    before, begin, rest = text.partition(BEGIN + "\n")
    listed, end, after = rest.partition(END)
    return (before + begin, listed.strip("\n").split("\n"), end + after) if begin and end else None


def differs(top):
    """Whether the page has another list than this tree."""
    parts = parts_of((top / PAGE).read_text())
    return parts is None or parts[1] != list_of(top)


def main():
    words = [word for word in sys.argv[1:] if word != "--check"]
    if words[:1] in (["-h"], ["--help"]):
        print(__doc__)
        return 0
    top = pathlib.Path(words[0]).resolve() if words else TOP
    parts = parts_of((top / PAGE).read_text())
    if parts is None:
        sys.exit(f"bench/list_crates.py: {PAGE} lacks a mark of its list")
    if "--check" in sys.argv:
        return int(differs(top))
    (top / PAGE).write_text("\n".join([parts[0], *list_of(top), "", parts[2]]))
    return 0


if __name__ == "__main__":
    sys.exit(main())
