"""Reads a journal of `ssb_live serve --journal`, by docs/FORMATS.md alone: its groups, and the commits in them."""
import hashlib
import re

from checksums import checksum
from common import TABLES
from judge import Disagreement
from traffic import Order, Withdrawal

HEAD = re.compile(rb"1 (\d{15})\n")         # of a group that counts
HEAD_BYTES, CHECKSUM_BYTES = 18, 33
CLOSED = b"0"
TEXT_FIELDS = {6, 7, 16}                    # of a lineorder row


def head_text(data):
    """The text of the first group of a journal over the tables of a folder."""
    text = "ssb_live journal 2\n"
    for table in TABLES:
        with open(data / f"{table}.tbl", "rb") as rows:
            content = rows.read()
        text += f"{table}|{len(content)}|{content.count(10)}|{checksum(content)}\n"
    return text.encode()


def groups_of(content, start=0):
    """The texts of the groups from a place on, up to the first that is closed or cut short, and where that begins."""
    texts = []
    while (head := HEAD.match(content, start)) and start + HEAD_BYTES + int(head[1]) <= len(content):
        end = start + HEAD_BYTES + int(head[1])
        group = content[start + HEAD_BYTES:end]
        text = group[CHECKSUM_BYTES:]
        if group[:CHECKSUM_BYTES] != hashlib.md5(text).hexdigest().encode() + b"\n":
            raise Disagreement(f"the group at byte {start} of the journal has another checksum")
        texts.append(text)
        start = end
    return texts, start


class Commit:
    """A commit of a journal: its client, its records but for the first and the last, and its actions."""

    def __init__(self, client, records):
        self.client, self.records, self.actions = client, records, []
        for record in records:
            word, *fields = record.split("|")
            if word == "withdraw":
                self.actions.append(Withdrawal(int(fields[0])))
            elif word == "line":
                line = [field if place in TEXT_FIELDS else int(field) for place, field in enumerate(fields)]
                self.actions[-1].lines.append(line)
                self.actions[-1].key = line[0]
            elif word in ("add", "amend", "put"):
                self.actions.append(Order(word, None, []))
            else:
                raise Disagreement(f"a commit of the journal has the record {record}")


def commits_of(text):
    """The commits of a group's text, each `commit|CLIENT`, actions, `end`."""
    commits, records = [], None
    for line in text.decode().split("\n")[:-1]:
        if records is None:
            word, _, client = line.partition("|")
            if word != "commit" or not client.isdigit():
                raise Disagreement(f"between the commits of the journal stands {line}")
            records = []
        elif line == "end":
            commits.append(Commit(int(client), records))
            records = None
        else:
            records.append(line)
    if records is not None or not commits or not text.endswith(b"\n"):
        raise Disagreement("a group of the journal ends inside a commit, or has none")
    return commits


class JournalReader:
    """A journal's file, looked at again and again while it grows: what was read once has to stay as it was."""

    def __init__(self, path, data):
        self.path, self.head = path, head_text(data)
        self.end, self.digest = 0, hashlib.sha256().digest()
        self.groups = self.count = 0
        self.torn = b""                 # what a crash has left behind the groups

    def read(self):
        """The commits that were not there the last time."""
        content = self.path.read_bytes() if self.path.exists() else b""
        if hashlib.sha256(content[:self.end]).digest() != self.digest:
            raise Disagreement(f"the first {self.end} bytes of the journal are not what they were")
        texts, end = groups_of(content, self.end)
        if texts and not self.end and texts.pop(0) != self.head:
            raise Disagreement("the first group of the journal is not the head of these tables")
        self.end, self.digest = end, hashlib.sha256(content[:end]).digest()
        rest = content[end:]
        self.torn = b"" if rest == CLOSED else rest
        commits = [commit for text in texts for commit in commits_of(text)]
        self.groups += len(texts)
        self.count += len(commits)
        return commits
