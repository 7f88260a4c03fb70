"""The tables that are built into the program, and the script that `./start` runs over them, as crates/ has them."""
import re

from common import TABLES
from program import ROOT, Trouble

SMALL_DATA = ROOT / "crates/small_data/src/lib.rt"
CASE = ROOT / "crates/cases/data/start_shows_a_refusal_a_commit_and_the_answer_that_moved.case"


def read_case():
    """The script, and its report."""
    found = re.search(r"^== input\n(.*?)^== output\n(.*?)(?:^== |\Z)", CASE.read_text(), re.M | re.S)
    if found is None:
        raise Trouble(f"{CASE} has no input, or no output")
    return found.groups()


def read_tables():
    """The text of each table's file, by the table's name."""
    source, texts = SMALL_DATA.read_text(), {}
    for name in TABLES:
        text = re.search(rf'^pub const {name.upper()}: &str = "\\\n([^"\\]*)";$', source, re.M)
        if text is None:
            raise Trouble(f"{SMALL_DATA} has no table {name.upper()} as it was written before")
        texts[name] = text[1]
    return texts
