"""The documents in Markdown as check_docs reads them: headings, paragraphs, rows of tables, blocks, words in backticks."""
import collections
import re

Heading = collections.namedtuple("Heading", "line level text")
Span = collections.namedtuple("Span", "line text start end")
Link = collections.namedtuple("Link", "line target")

CODE = re.compile(r"`([^`]+)`")
LINK = re.compile(r"\[[^\]]*\]\(([^)\s]+)\)")


class Part:
    """A paragraph, an item of a list, a table or a block of code, with the heading that it stands under."""

    def __init__(self, kind, line, lines, heading):
        self.kind, self.line, self.lines, self.heading = kind, line, lines, heading
        self.text = "\n".join(lines)
        self.spans = [] if kind == "block" else [
            Span(self.line_at(one.start()), re.sub(r"\s+", " ", one.group(1)).replace("\\|", "|"), one.start(), one.end())
            for one in CODE.finditer(self.text)]

    def line_at(self, place):
        """The line of the page that a place of the text stands in."""
        return self.line + self.text.count("\n", 0, place)

    def links(self):
        """The links of a part that is no block."""
        return [] if self.kind == "block" else [Link(self.line_at(one.start()), one.group(1))
                                                for one in LINK.finditer(self.text)]

    def rows(self):
        """Of a table its rows: each a line of the page and its cells, the head first and no line of dashes."""
        rows = []
        for place, line in enumerate(self.lines):
            cells = [cell.strip() for cell in re.split(r"(?<!\\)\|", line.strip().strip("|"))]
            if not all(re.fullmatch(r":?-+:?", cell) for cell in cells):
                rows.append((self.line + place, cells))
        return rows


class Page:
    """A document: its headings and its parts."""

    def __init__(self, path, name):
        self.path, self.name = path, name
        self.lines = path.read_text().split("\n")
        self.headings, self.parts = [], []
        self._read()

    def _read(self):
        at, heading = 0, None
        while at < len(self.lines):
            line = self.lines[at]
            if re.match(r"#+ ", line):
                heading = Heading(at + 1, len(line) - len(line.lstrip("#")), line.lstrip("# "))
                self.headings.append(heading)
                at += 1
            elif not line.strip():
                at += 1
            else:
                kind, end = self._part_at(at)
                lines = self.lines[at + 1:end - 1] if line.startswith("```") else self.lines[at:end]
                self.parts.append(Part(kind, at + 1 + line.startswith("```"), lines, heading))
                at = end

    def _part_at(self, at):
        """The kind of the part that begins at a line, and the line behind it."""
        line, end = self.lines[at], at + 1
        if line.startswith("```"):
            while not self.lines[end].startswith("```"):
                end += 1
            return "block", end + 1
        if line.startswith("|"):
            while end < len(self.lines) and self.lines[end].startswith("|"):
                end += 1
            return "table", end
        if line.startswith("    ") and (at == 0 or not self.lines[at - 1].strip()):
            while end < len(self.lines) and (self.lines[end].startswith("    ") or self._goes_on(end)):
                end += 1
            return "block", end
        while end < len(self.lines) and self.lines[end].strip() and not self._begins(end):
            end += 1
        return "text", end

    def _goes_on(self, at):
        """Whether a blank line stands inside a block that is set in."""
        return not self.lines[at].strip() and at + 1 < len(self.lines) and self.lines[at + 1].startswith("    ")

    def _begins(self, at):
        return bool(re.match(r"\s*(?:[-*] |\d+\. )|\||#+ |```", self.lines[at]))

    def anchors(self):
        """What a link to a heading of this page is called, as GitHub makes it."""
        seen, anchors = collections.Counter(), set()
        for heading in self.headings:
            name = re.sub(r"[^\w\- ]", "", heading.text.lower()).replace(" ", "-")
            anchors.add(f"{name}-{seen[name]}" if seen[name] else name)
            seen[name] += 1
        return anchors

    def section(self, heading):
        """The parts under a heading and the headings below it."""
        inside, parts = False, []
        for part in self.parts:
            if part.heading == heading:
                inside = True
            elif inside and part.heading.level <= heading.level:
                break
            if inside:
                parts.append(part)
        return parts
