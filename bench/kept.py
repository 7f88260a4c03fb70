"""What a run of `serve --journal`, `export` or `checkpoint` leaves in files, for `failures`: what is wrong with it, by
docs/FORMATS.md."""
import re
import shutil
import subprocess

from common import LIVE, journal_words
from journals import JournalReader
from judge import ANSWERED, COMMITTED, Disagreement
from traffic import Question

REFUSED = re.compile(r"ssb_live: journal: (90 NotAJournal|91 OtherTables \w+|92 Refused .+|93 Damaged \d+|94 InUse)\n")
PATIENCE = 60


def commits_told(output, requests):
    """The refreshes whose commits an output tells, by their numbers, and the requests to which it has no reply."""
    lines, told, place = output.split("\n")[:-1], {}, 0
    for at, request in enumerate(requests):
        if place >= len(lines):
            return told, requests[at:]
        committed, answered = COMMITTED.fullmatch(lines[place]), ANSWERED.fullmatch(lines[place])
        if committed:
            told[int(committed[1])] = request
        place += 1 + (int(answered[3]) if answered else 0)
    return told, []


def contents(file):
    return file.read_bytes() if file.exists() else b""


class KeptJournal:
    """The journal of one client's server: it goes on from a journal of some commits, `earlier`, with a torn end, or is
    a new one."""

    def __init__(self, data, path, requests, before=b"", torn=b"", earlier=()):
        self.data, self.path, self.beside = data, path, path.with_name(f"{path.name}.torn")
        self.requests, self.before, self.torn, self.earlier = requests, before, torn, list(earlier)

    def begins_with(self):
        return {"before": self.before, "torn": self.torn, "earlier": self.earlier}

    def files(self):
        return [self.path, self.beside]

    def clear(self):
        for file in self.files():
            file.unlink(missing_ok=True)
        if self.before:
            self.path.write_bytes(self.before + self.torn)

    def wrong(self, ended):
        """What is wrong with it behind a run that ended so, whose client talked, or sent all at once."""
        try:
            return self.wrong_commits(ended.outputs[0], ended.is_talk)
        except Disagreement as fault:
            return str(fault)

    def wrong_commits(self, output, is_talk):
        reader, count = JournalReader(self.path, self.data), len(self.earlier)
        told, waiting = commits_told(output, self.requests)
        commits = reader.read()
        if not contents(self.path).startswith(self.before):
            return "the journal has not the groups that it had"
        if sorted(told) != list(range(count + 1, count + 1 + len(told))):
            return f"commits {sorted(told)} were told, behind {count}"
        for number, request in told.items():
            if number > len(commits) or commits[number - 1].records != request.records()[1:-1]:
                return f"commit {number} was told, and is not in the journal"
        sent = iter(waiting[:1] if is_talk else waiting)
        for commit in commits[count + len(told):]:
            if not any(not isinstance(one, Question) and one.records()[1:-1] == commit.records for one in sent):
                return "the journal has a commit that was not under way"
        if any(commit.client != 1 for commit in commits):
            return "a commit of the journal has another client"
        return self.wrong_start(reader, bool(output) or count)

    def wrong_start(self, reader, has_told):
        """What is wrong with the next start over it. It tells what a reader finds, or is refused where nothing was
        told."""
        expected = f"ssb_live: journal: {reader.count} commits"
        expected += f", {len(reader.torn)} bytes cut off\n" if reader.torn else "\n"
        expected += "ssb_live: its input has ended after 0 requests\n"
        torn, words = reader.torn, [LIVE, "serve", "--data", self.data, *journal_words(self.path)]
        start = subprocess.run(words, stdin=subprocess.DEVNULL, capture_output=True, text=True, timeout=PATIENCE)
        if start.returncode == 1 and REFUSED.fullmatch(start.stderr) and not has_told:
            return None
        if (start.returncode, start.stderr) != (0, expected):
            return f"the next start ends with {start.returncode}, {start.stderr!r} in place of {expected!r}"
        if reader.read() or reader.torn:
            return "the next start leaves another journal"
        beside = contents(self.beside)
        return None if beside.endswith(torn) and self.torn in beside else "what was cut off is not kept"


class KeptStore:
    """The store of a checkpoint, or of a report that changes nothing. Each run begins with a copy of `saved`."""

    ASKED = ["star", "LO_REVENUE", "D_YEAR", "C_NATION"]

    def __init__(self, folder, saved, changes):
        self.folder, self.saved, self.changes = folder, saved, changes
        self.answer = self.asked(saved)

    def files(self):
        return []

    def clear(self):
        shutil.rmtree(self.folder, ignore_errors=True)
        shutil.copytree(self.saved, self.folder)

    def asked(self, folder):
        ended = subprocess.run([LIVE, "query", "--store", folder, *self.ASKED], capture_output=True, text=True,
                               timeout=PATIENCE)
        return ended.returncode, ended.stdout, ended.stderr

    @staticmethod
    def contents(folder):
        return {file.relative_to(folder): file.read_bytes() for file in folder.rglob("*") if file.is_file()}

    def wrong(self, ended):
        """What is wrong with it behind a run that ended so: it has to answer as before."""
        if self.asked(self.folder) != self.answer:
            return "the store has another answer"
        if not self.changes and self.contents(self.folder) != self.contents(self.saved):
            return "a report has changed the store"
        return None


class KeptFolder:
    """The folder of an export, and its journal. `tables` is what it has where nothing fails, once that is known."""

    def __init__(self, journal, folder):
        self.journal, self.folder, self.before, self.tables = journal, folder, contents(journal), None

    def files(self):
        return [self.folder]

    def clear(self):
        shutil.rmtree(self.folder, ignore_errors=True)

    def left(self):
        return {file.name: file.read_bytes() for file in self.folder.iterdir()} if self.folder.exists() else {}

    def wrong(self, ended):
        """What is wrong with them behind a run that ended so."""
        left = self.left()
        if contents(self.journal) != self.before:
            return "the journal is changed"
        if ended.status == 0 and left != self.tables:
            return f"it has {', '.join(sorted(left)) or 'no table'}, or other rows"
        if "lineorder.tbl" in left and left != self.tables:
            return "it has lineorder.tbl, and not all five tables"
        for name, content in left.items():
            if name.replace(".tbl.part", ".tbl") not in self.tables:
                return f"it has {name}"
            if name in self.tables and content != self.tables[name]:
                return f"{name} has other rows"
        return None
