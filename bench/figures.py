"""Figures that stand twice in the documents: whether they agree. Rules of check_docs."""
import re

OWNERS = ("docs/LIMITS.md", "docs/BENCHMARKS.md")
FIGURE = re.compile(r"(?<![\w.,#-])(\d{1,3}(?:,\d{3})+|\d+)(\.\d+)?(?![\w,]*\d)\s*(GB|MB|ms|s\b|µs)?")
LINES = re.compile(r"\b\d{1,3}(?:,\d{3})+\b")
NEAR = 0.02         # two measurements of one thing


def figures_of(text):
    """The figures of a text: value, the size of its last digit that counts, unit."""
    found = []
    for one in FIGURE.finditer(text):
        whole, part, unit = one.group(1).replace(",", ""), one.group(2) or "", one.group(3)
        zeros = 0 if part else len(whole) - len(whole.rstrip("0"))
        step = 10.0 ** (1 - len(part)) if part else 10.0 ** zeros
        found.append((float(whole + part), step, unit, one.start()))
    return found


def scales(unit):
    return {"GB": (1, 1e-3), "MB": (1, 1e3), "s": (1, 1e-3), "ms": (1, 1e3)}.get(unit, (1, 1e3, 1e-3))


def stands_in(figure, others):
    """Whether a figure is one of the others, rounded or cut off, perhaps in another unit."""
    value, step, unit, _ = figure
    return any(abs(value - other * scale) < max(step, 1e-9) and abs(value - other * scale) < 0.05 * max(value, 1e-9) + 1e-9
               for other, _, _, _ in others for scale in scales(unit))


def check_figures(checker, page):
    """A paragraph that links to LIMITS or BENCHMARKS has its figures with a unit from there."""
    if page.name in OWNERS or page.name in ("CHANGELOG.md", "docs/EXPERIMENTS.md", "bench/README.md", "docs/DECISIONS.md"):
        return
    for part in page.parts:
        cited = {target.split("#")[0].rpartition("/")[2] for _, target in part.links()}
        owners = [name for name in OWNERS if name.rpartition("/")[2] in cited and name in checker.pages]
        if part.kind != "text" or not owners:
            continue
        others = [one for name in owners for one in figures_of("\n".join(checker.pages[name].lines))]
        for figure in figures_of(part.text):
            if figure[2] and not stands_in(figure, others):
                checker.find(page, part.line_at(figure[3]), f"{figure[0]:,.10g} {figure[2]} does not stand in {', '.join(owners)}")


def check_sections(checker, page):
    """README's section that links to BENCHMARKS before its list has its figures from there."""
    owner = checker.pages.get("docs/BENCHMARKS.md")
    if page.name != "README.md" or not owner:
        return
    others = figures_of("\n".join(owner.lines))
    for heading in page.headings:
        parts = [part for part in page.parts if part.heading == heading and part.kind == "text"]
        if parts and any(target.endswith("BENCHMARKS.md") for _, target in parts[0].links()) and "[" in parts[0].text \
                and not re.match(r"\[", parts[0].text):
            for part in parts:
                for figure in figures_of(part.text):
                    if figure[0] >= 10 * figure[1] and not stands_in(figure, others):
                        checker.find(page, part.line_at(figure[3]), f"{figure[0]:,.10g} does not stand in docs/BENCHMARKS.md")


def memory_facts(page):
    """What a page says of memory by lines: (lines, word of the program) to its figures in GB and their lines."""
    facts = {}
    for part in page.parts:
        if part.kind == "table":
            for lines, command, value, at in by_rows(part) + by_columns(part):
                facts.setdefault((lines, command), []).append((value, at))
        elif part.kind == "text":
            for one in re.finditer(r"(\d{1,3}(?:,\d{3}){2,})[^.;]{0,60}needs\s+(\d+\.?\d*) GB", part.text):
                facts.setdefault((one.group(1), "run"), []).append((float(one.group(2)), part.line_at(one.start())))
    return facts


def gigabytes(cell):
    found = re.match(r"(\d+(?:\.\d+)?) (GB|MB)$", cell)
    return float(found.group(1)) / (1 if found.group(2) == "GB" else 1000) if found else None


def by_rows(part):
    """A table whose rows begin with a number of lines, and whose head names memory and a word of the program."""
    rows, facts = part.rows(), []
    for column, head in enumerate(rows[0][1]):
        command = re.search(r"memory of `(\w+)", head)
        for at, cells in rows[1:] if command else []:
            lines, value = LINES.match(cells[0]), gigabytes(cells[column]) if column < len(cells) else None
            if lines and value:
                facts.append((lines.group(), command.group(1), value, at))
    return facts


def by_columns(part):
    """A table with a row of numbers of lines, and rows that name memory and a word of the program."""
    rows, facts, lines = part.rows(), [], []
    for at, cells in rows[1:]:
        if re.match(r"line", cells[0]) and LINES.match(cells[1]):
            lines = cells
        command = re.match(r"`(\w+)[^`]*`.*memory", cells[0])
        if lines and command and "after" not in cells[0]:
            facts += [(lines[one], command.group(1), gigabytes(cells[one]), at)
                      for one in range(1, len(cells)) if gigabytes(cells[one])]
    return facts


def check_rows_agree(checker, page):
    """Memory by lines, and rows with one label and one number, agree with LIMITS."""
    owner = checker.pages.get("docs/LIMITS.md")
    if page is owner or not owner or page.name in ("CHANGELOG.md", "docs/EXPERIMENTS.md"):
        return
    facts = memory_facts(owner)
    for key, found in memory_facts(page).items():
        for value, at in found:
            if key in facts and all(abs(value - other) > NEAR * other for other, _ in facts[key]):
                checker.find(page, at, f"{value:g} GB of `{key[1]}` at {key[0]} lines, where LIMITS has {facts[key][0][0]:g}")
    labels = one_number_rows(owner)
    for label, (value, at) in one_number_rows(page).items():
        if label in labels and labels[label][0] != value:
            checker.find(page, at, f"{label}: {value}, where LIMITS has {labels[label][0]}")


def one_number_rows(page):
    """Rows whose second cell is one number, by their label."""
    rows = {}
    for part in page.parts:
        for at, cells in part.rows()[1:] if part.kind == "table" else []:
            if len(cells) > 1 and re.fullmatch(r"[\d,;. ]+", cells[1]) and cells[1]:
                rows[re.sub(r"[`\s;,]+", " ", cells[0])] = (re.sub(r"[;,] ", " ", cells[1]), at)
    return rows
