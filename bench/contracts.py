"""What the documents say of contracts, and where these stand: whether it is so. Rules of check_docs."""
import re

LIST = re.compile(r"\(((?:`\w+`(?:,\s+)?)+)([^()]*)\)")


def check_clauses(checker, page):
    for part in checker.texts(page):
        check_clauses_after_colons(checker, page, part)
        for found in LIST.finditer(part.text) if page.name in ("README.md", "docs/HEADLINE.md", "docs/PROMISES.md") else []:
            clauses = re.findall(r"`(\w+)`", found.group(1))
            if found.group(2).lstrip().startswith(("/", "::")) or any(one[0].isupper() for one in clauses):
                continue
            names = chain_before(part, found.start())
            if names and checker.tree.calls(names[-1]):
                check_clauses_of(checker, page, part.line_at(found.start()), names, clauses)


def check_clauses_after_colons(checker, page, part):
    """Clauses as in (`close`: `legal`, `owns`)."""
    for found in re.finditer(r"`([\w:]+)`:\s+((?:`\w+`(?:,\s+|\s+and\s+)?)+)", part.text):
        if checker.tree.calls(found.group(1)):
            clauses = re.findall(r"`(\w+)`", found.group(2))
            check_clauses_of(checker, page, part.line_at(found.start()), [found.group(1)], clauses)


def chain_before(part, place):
    """The names that stand right before a place, with nothing but commas and `and` between them."""
    names, end = [], place
    for span in reversed([one for one in part.spans if one.end <= place]):
        gap = re.sub(r"\s+", " ", part.text[span.end:end]).strip()
        if gap not in ("", ",", "and", ", and") or names and not gap:
            break
        names.insert(0, span.text.replace("()", ""))
        end = span.start
    return names


def check_clauses_of(checker, page, line, names, clauses):
    contracts = []
    for name in names:
        calls = checker.tree.calls(name)
        contracts.append(set().union(*(one.clauses for one in calls)))
        if calls and not contracts[-1] & set(clauses):
            checker.find(page, line, f"{name} has no clause {', '.join(clauses)}")
    for clause in clauses:
        if not any(clause in one for one in contracts):
            checker.find(page, line, f"{', '.join(names)}: no clause {clause}")


def tables_headed(page, *heads):
    """The rows, but for the head, of each table of a page that has these heads, as a list of cells by head."""
    for part in page.parts:
        first = part.rows()[0][1] if part.kind == "table" else []
        if all(head in first for head in heads):
            for line, cells in part.rows()[1:]:
                yield line, dict(zip(first, cells))


def check_promises(checker, page):
    if page.name != "docs/PROMISES.md":
        return
    told = set()
    for line, row in tables_headed(page, "call", "clauses", "in"):
        calls = [one.replace("()", "") for one in re.findall(r"`([^`]+)`", row["call"])]
        told |= {one.split("::")[-1] for one in calls}
        for call in calls:
            check_stands_in(checker, page, line, call, row["in"].strip("`"), re.findall(r"`(\w+)`", row["clauses"]))
        cell = row.get("by the definitions of", "")
        check_spec_files(checker, page, line, cell)
        check_imported(checker, page, line, row["in"].strip("`"), cell)
    for line, row in tables_headed(page, "law", "in"):
        laws, files = re.findall(r"`(\w+)`", row["law"]), re.findall(r"`([^`]+)`", row["in"])
        pairs = zip(laws, files) if len(laws) == len(files) else [(law, file) for law in laws for file in files]
        for law, file in pairs:
            check_stands_in(checker, page, line, law, file, [])
    for at, call in calls_promised(page):
        if call not in told:
            checker.find(page, at, f"no table says where {call} stands")


def check_stands_in(checker, page, line, call, file, clauses):
    """A function stands in a file, as `crate/src/file`, and ensures these clauses."""
    found = [one for one in checker.tree.calls(call)
             if str(one.file.relative_to(checker.top / "crates").with_suffix("")) == file]
    if not found:
        checker.find(page, line, f"{call} does not stand in {file}")
    for clause in clauses if found else []:
        if not any(clause in one.ensured for one in found):
            checker.find(page, line, f"{call} of {file} ensures no {clause}")


def check_spec_files(checker, page, line, cell):
    """Files of specs/, of which those after the first of a crate are named without it."""
    crate = None
    for file in re.findall(r"`([\w/]+)`", cell):
        if "/specs/" in file:
            crate, file = file.split("/specs/")
        if (crate, file) not in checker.tree.definitions:
            checker.find(page, line, f"there is no {crate}/specs/{file}")


def check_imported(checker, page, line, file, cell):
    """The clauses of a file speak by the first of these files of specs/."""
    first = re.match(r"`(\w+)/specs/(\w+)`", cell)
    text = checker.tree.text_of.get(checker.top / "crates" / f"{file}.rt", "")
    if first and text and f"Rattle.{first.group(1)}.specs.{first.group(2)}." not in text:
        checker.find(page, line, f"{file} does not use {first.group(1)}/specs/{first.group(2)}")


def calls_promised(page):
    """Of the promises of PROMISES the functions that are named with clauses, and their lines."""
    for part in page.parts:
        if part.heading and part.heading.text == "The promises":
            for found in LIST.finditer(part.text):
                for name in chain_before(part, found.start()):
                    yield part.line_at(found.start()), name.split("::")[-1]


def check_waits(checker, page):
    """Under the heading of calls that may wait: all crates that crates.txt says may wait, no others, and their calls."""
    parts = [part for part in page.parts if part.heading and part.heading.text == "Calls that may wait"]
    if page.name != "docs/PROMISES.md" or not parts:
        return
    named = {span.text for part in parts for span in part.spans} & set(checker.tree.crates)
    if named != checker.tree.waiting:
        differ = ", ".join(sorted(named ^ checker.tree.waiting))
        checker.find(page, parts[0].line, f"in crates.txt and here other crates may wait: {differ}")
    for line, row in tables_headed(page, "crate", "calls"):
        for call in re.findall(r"`(\w+)`", row["calls"]):
            if all(one.crate != row["crate"].strip("`") for one in checker.tree.functions.get(call, [])):
                checker.find(page, line, f"{row['crate'].strip('`')} has no {call}")


def check_owners(checker, page):
    """A table of words: each with crates and types of them, as: `ssb_base` `Base`; or a file."""
    for line, row in tables_headed(page, "word", "is", "crate, type"):
        crate = None
        for name in re.findall(r"`([\w/]+)`", row["crate, type"]):
            if "/" in name:
                check_spec_files(checker, page, line, f"`{name}`")
            elif name in checker.tree.libraries:
                crate = name
            elif crate not in checker.tree.types.get(name, set()):
                checker.find(page, line, f"{crate} has no type {name}")


def check_definitions(checker, page):
    for line, row in tables_headed(page, "definition", "in"):
        crate, _, file = row["in"].strip("`").partition("/specs/")
        if (crate, file) not in checker.tree.definitions:
            checker.find(page, line, f"there is no {crate}/specs/{file}")
            continue
        for name in re.findall(r"`([^`]+)`", row["definition"]):
            if name not in checker.tree.definitions[crate, file]:
                checker.find(page, line, f"{crate}/specs/{file} defines no {name}")
