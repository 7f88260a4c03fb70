"""The functions of a text of src/ with their headers, bodies and clauses, and the arguments of relations: for house.

Read by patterns, not by a parser. A header goes from the line of `fn` to the last one before its body's lines; a clause
is one `requires` or `ensures` with what its braces hold.
"""
import bisect
import collections
import re

from tree import count_parameters

Written = collections.namedtuple("Written", "name line header body parameters clauses inside")
FUNCTION = re.compile(r"\bfn\s+(\w+)")
QUIET = re.compile(r'//[^\n]*|"(?:\\[\s\S]|[^"\\])*"|\'(?:\\.|[(){}\[\];"])\'')
STOP = re.compile(r"\b(?:requires|ensures)\b[^{;]*\{|[{;(\[]")
CLOSED_BY = {"(": ")", "[": "]", "{": "}"}
DEFINED = re.compile(r"(?:(?:abbrev|unfoldable|pub|core)\s+)*(?:(?:record|data)\s+)?[^\s(){}]+(.*)")
PARTS = re.compile(r"[()\[\]{}]|→|:(?=\s)")


def without_texts(text):
    """The text with comments, quoted texts and single brackets in quotes made blank, character for character."""
    return QUIET.sub(lambda found: re.sub(r"[^\n]", " ", found.group()), text)


def end_of(text, at):
    """The place behind the bracket that closes the one at a place."""
    one, depth = text[at], 0
    for found in re.finditer(f"[{re.escape(one + CLOSED_BY[one])}]", text[at:]):
        depth += 1 if found.group() == one else -1
        if depth == 0:
            return at + found.end()
    return len(text)


def functions_of(text):
    """The functions that have a name, in their order; what has no body, as in a trait, has an empty one."""
    text = without_texts(text)
    starts = [0, *(found.end() for found in re.finditer("\n", text))]
    for found in FUNCTION.finditer(text):
        clauses, (begin, end) = _clauses_and_body(text, found.end())
        line, first, last = (bisect.bisect_right(starts, at) for at in (found.start(), begin, max(begin, end - 1)))
        in_the_header = bool(text[starts[first - 1]:begin].strip())
        yield Written(found.group(1), line, first - line + in_the_header, max(0, last - first - 1),
                      count_parameters(text, found.end()), clauses, text[begin:end])


def _clauses_and_body(text, at):
    """The clauses behind a function's name, and from where to where its body goes."""
    clauses = []
    while stop := STOP.search(text, at):
        if stop.group() == ";":
            return clauses, (stop.start(), stop.start())
        at = end_of(text, stop.end() - 1)
        if stop.group() == "{":
            return clauses, (stop.start(), at)
        if stop.group() not in "([":
            clauses.append(" ".join(text[stop.start():at].split()))
    return clauses, (len(text), len(text))


def arguments_of(lines):
    """How many arguments a definition of specs/ takes that makes a type; of one that makes none, None."""
    head = lines[0]
    for line in lines[1:]:
        if not line[:1].isspace():
            break
        head += " " + line.strip()
    pieces = _pieces(re.split(r"\s+where\b", DEFINED.match(head).group(1))[0])
    if not pieces[-1].strip().startswith("Type"):
        return None
    return sum(_names(piece.strip()) for piece in pieces[:-1] if piece.strip())


def _pieces(text):
    """What stands between the first colon and the arrows, outside of brackets; before the colon, the first piece."""
    pieces, depth, begin = [], 0, 0
    for found in PARTS.finditer(text):
        one = found.group()
        depth += (one in "([{") - (one in ")]}")
        if depth == 0 and (one == "→" or one == ":" and not pieces):
            pieces.append(text[begin:found.start()])
            begin = found.end()
    return [*pieces, text[begin:]]


def _names(piece):
    """How many arguments a piece is: those that it names in round brackets, or one; what stands in braces is none."""
    names, at = None, 0
    while piece[at:at + 1] in ("(", "{"):
        end = end_of(piece, at)
        named, colon, _ = piece[at + 1:end - 1].partition(" : ")
        if not colon:
            break
        names = (names or 0) + (len(named.split()) if piece[at] == "(" else 0)
        at = end + len(piece[end:]) - len(piece[end:].lstrip())
    return 1 if names is None else names
