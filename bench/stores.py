"""Reads a store of `ssb_live serve --store`, by docs/FORMATS.md alone: its tables, and the commits in its segments."""
import contextlib
import copy
import hashlib
import re
import subprocess
import time

from common import LIVE, TABLES
from journals import CLOSED, commits_of, groups_of, head_text
from judge import Disagreement

HEAD = re.compile(rb"ssb_live journal 3\nafter\|(\d+)\nof\|([0-9a-f]{32})\nbefore\|(\d+)\n")
SEGMENT = re.compile(r"journal\.(0|[1-9]\d*)")
SIZES = re.compile(r"tables\.(0|[1-9]\d*)/sizes")
FOLDED = re.compile(r"ssb_live: checkpoint: tables after (\d+) commits, (\d+) segments?\n")
NOTHING = "ssb_live: checkpoint: nothing to fold\n"
LOOKS = 1000            # at a folder whose names change meanwhile


def sealed(text):
    return hashlib.md5(text).hexdigest().encode() + b"\n" + text


class Segment:
    """A segment's file, looked at again and again while it grows: what was read once has to stay as it was."""

    def __init__(self, number, path, of):
        self.number, self.path, self.of = number, path, of
        self.end, self.digest = 0, hashlib.sha256().digest()
        self.count = self.size = 0
        self.before = None              # the bytes of the segment before it, once its head is whole
        self.torn = b""                 # what a crash has left behind the groups
        self.commits = []               # that were not taken yet

    def read(self):
        content = self.path.read_bytes()
        if hashlib.sha256(content[:self.end]).digest() != self.digest:
            raise Disagreement(f"the first {self.end} bytes of {self.path.name} are not what they were")
        texts, end = groups_of(content, self.end)
        if texts and not self.end:
            self.take_head(texts.pop(0))
        self.end, self.digest, self.size = end, hashlib.sha256(content[:end]).digest(), len(content)
        rest = content[end:]
        self.torn = b"" if rest == CLOSED else rest
        commits = [commit for text in texts for commit in commits_of(text)]
        self.count += len(commits)
        self.commits += commits

    def take_head(self, text):
        head = HEAD.fullmatch(text)
        if not head or (int(head[1]), head[2]) != (self.number, self.of):
            raise Disagreement(f"{self.path.name} has the head {text!r}")
        self.before = int(head[3])

    def follows(self, last):
        """Whether it goes on where another ends, which is closed then."""
        return (self.number, self.before) == (last.number + last.count, last.size) and not last.torn


class StoreReader:
    """A store's folder, looked at again and again: nothing that it had may go but what newer tables have."""

    def __init__(self, folder, of=None):
        """`of` is which store it is, where its first tables may be gone."""
        self.folder, self.of = folder, of or hashlib.md5(head_text(folder / "tables.0")).hexdigest().encode()
        self.segments = {}              # all that were ever there, by their numbers
        self.present = []               # the numbers of those that are there
        self.tables = {}                # a digest of each tables that are whole, by their numbers
        self.count = 0
        self.look()

    def keep(self):
        """All that is there is on the disk."""
        self.kept = copy.deepcopy(self.segments), self.count

    def go_back(self):
        """Behind a power cut, which may have taken what came since: but of segments that are gone, what newer tables
        have was seen in time, and stays."""
        seen, (self.segments, self.count) = self.segments, self.kept
        self.look()
        gone = {number for number in seen if number < self.newest and number not in self.present}
        self.segments.update((number, seen[number]) for number in gone)

    def read(self):
        """The commits that were not there the last time."""
        self.look()
        commits = []
        for number in sorted(self.segments):
            commits += self.segments[number].commits
            self.segments[number].commits = []
        return commits

    def look(self):
        """Looks at all files, again where a name came or went meanwhile, and whether they are one history."""
        for _ in range(LOOKS):
            try:
                names = self.names()
                self.read_files(names)
                if self.names() == names:
                    self.check()
                    return
            except FileNotFoundError:
                pass
        raise Disagreement(f"the names in the store changed at each of {LOOKS} looks")

    def names(self):
        found = [*self.folder.glob("*"), *self.folder.glob("tables.*/sizes")]
        return sorted(str(path.relative_to(self.folder)) for path in found)

    def read_files(self, names):
        self.present = sorted(int(found[1]) for found in map(SEGMENT.fullmatch, names) if found)
        for number in self.present:
            path = self.folder / f"journal.{number}"
            self.segments.setdefault(number, Segment(number, path, self.of)).read()
        whole = [int(found[1]) for found in map(SIZES.fullmatch, names) if found]
        self.tables = {number: self.digest_of(number) for number in whole}

    def digest_of(self, number):
        """Of the texts of tables that are whole; `sizes` has to tell of them."""
        folder = self.folder / f"tables.{number}"
        lines = head_text(folder).split(b"\n", 1)[1]
        expected = sealed(b"ssb_live tables 1\nafter|%d\nof|%s\n" % (number, self.of) + lines)
        if (folder / "sizes").read_bytes() != expected:
            raise Disagreement(f"{folder.name}/sizes does not tell of these tables")
        return digest(((folder / f"{table}.tbl").read_text() for table in TABLES))

    def check(self):
        if not self.tables:
            raise Disagreement("no tables of the store are whole")
        totals = {}
        for number in self.tables:
            chain = self.chain(number)
            totals[number] = chain[-1].number + chain[-1].count
        if len(set(totals.values())) > 1 or min(totals.values()) < self.count:
            raise Disagreement(f"the store has {totals} commits, by its tables; it had {self.count}")
        self.newest = max(self.tables)
        self.closed, self.last = len(self.chain(self.newest)) - 1, self.chain(self.newest)[-1]
        self.count, self.torn = totals[self.newest], self.last.torn

    def chain(self, number):
        """The segments behind tables: that of their number, and each later one that has commits."""
        if number not in self.present or self.segments[number].before is None:
            raise Disagreement(f"tables.{number} stand without a whole journal.{number}")
        chain = [self.segments[number]]
        for later in self.present:
            segment = self.segments[later]
            if later > number and segment.count:
                if not segment.follows(chain[-1]):
                    raise Disagreement(f"{segment.path.name} does not follow {chain[-1].path.name}")
                chain.append(segment)
        return chain


def digest(texts):
    """Of the texts of the tables, in their order."""
    return hashlib.sha256("\0".join(texts).encode()).digest()


class Checkpoint:
    """A checkpoint that goes on beside the server, until its end or until it is killed."""

    def __init__(self, reader, file, seconds=None, env=None, moment=contextlib.nullcontext):
        """It is killed in a `moment`."""
        self.reader, self.newest, self.moment = reader, reader.newest, moment
        self.kill_at = time.monotonic() + seconds if seconds is not None else None
        self.errors = open(file, "w+")
        words = [LIVE, "checkpoint", "--store", reader.folder]
        self.process = subprocess.Popen(words, stdin=subprocess.DEVNULL, stderr=self.errors, env=env)

    def is_over(self):
        """Whether it has ended; where its time has come, it is killed."""
        if self.kill_at is not None and time.monotonic() >= self.kill_at and self.process.poll() is None:
            with self.moment():
                self.kill()
                self.process.wait()
        return self.process.poll() is not None

    def kill(self):
        self.process.kill()

    def wait(self):
        """What became of it: `killed`, `idle` or `folded`; whoever finds it so has looked at the store."""
        status = self.process.wait()
        self.errors.seek(0)
        told = self.errors.read()
        self.errors.close()
        self.reader.look()
        if status == -9:
            return "killed"
        folded = FOLDED.fullmatch(told)
        if status or not folded and told != NOTHING:
            raise Disagreement(f"checkpoint: status {status}, {told.strip()!r}")
        if folded:
            self.check_folded(int(folded[1]), int(folded[2]))
        return "folded" if folded else "idle"

    def check_folded(self, number, segments):
        closed = [one for one in self.reader.segments.values() if self.newest <= one.number < number and one.count]
        if number > self.reader.newest or segments != len(closed):
            raise Disagreement(f"checkpoint tells of tables after {number} commits, of {segments} segments; the newest "
                               f"are after {self.reader.newest}, and {len(closed)} segments lie between")
