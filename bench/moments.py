"""Our answers as of a commit, for `changes` and `cluster --live`: over the tables that `export` writes of a journal
with the first commits alone, or of a store by `query --store FOLDER --at N`."""
import hashlib
import shutil
import subprocess

from common import LIVE
from journals import CLOSED, commits_of, groups_of
from stars import answers


def group(text):
    sealed = hashlib.md5(text).hexdigest().encode() + b"\n" + text
    return b"1 %015d\n" % len(sealed) + sealed


def commit_texts(journal):
    """The text of a journal's head, and of each of its commits."""
    texts, _ = groups_of(journal.read_bytes())
    commits = [commit for text in texts[1:] for commit in commits_of(text)]
    return texts[0], ["\n".join([f"commit|{commit.client}", *commit.records, "end", ""]).encode() for commit in commits]


def rows_after(data, folder, head, commits, questions):
    """Our rows over the tables after these commits; what is made for them in the folder is deleted."""
    journal, tables = folder / "cut.journal", folder / "cut"
    journal.write_bytes(group(head) + b"".join(map(group, commits)) + CLOSED)
    subprocess.run([LIVE, "export", "--data", data, "--journal", journal, "--to", tables, "--quiet"], check=True)
    rows = answers(tables, questions, folder / "questions")
    shutil.rmtree(tables)
    return rows


def rows_at(store, commit, questions, board):
    """The same of a store; the board is left with the questions."""
    titled = (question.records()[0].replace("query", "Q", 1) for question in questions)
    board.write_text("".join(f"{line}\n" for line in titled), encoding="utf-8")
    words = [LIVE, "query", "--store", store, "--at", str(commit), "--board", board, "--quiet"]
    lines = iter(subprocess.run(words, check=True, stdout=subprocess.PIPE).stdout.decode().split("\n"))
    rows = []
    for _ in questions:
        next(lines)
        rows.append([next(lines) for _ in range(int(next(lines).rpartition(" rows ")[2]))])
    return rows
