#!/usr/bin/env python3
"""follow link --journal FILE --to IN OUT [--second FILE] [WORD..]
follow link --journal FILE --over COMMAND [--second-over COMMAND] [WORD..]
ssh first ssb_live ship --journal FILE | follow link - --to IN OUT [--second FILE] [WORD..]

The link to a second server: reads the journal of a running `ssb_live serve --journal FILE` as it grows, and sends each
commit as a refresh to client 1 of a second, ordinary server over the same tables, which has a journal of its own. It
runs on the machine that FILE is on, as a user who may read FILE; or anywhere behind `ssb_live ship`, which runs there.
It is one file, over the standard library of Python 3.8 or later: `link.py WORD..` is the same command.

  --journal FILE         the first server's journal; where it is not there yet, the link waits for it
  -                      else standard input has what `ship` writes of it, or
  --from COMMAND         a shell's command writes that to its output; it has how many commits the second has in $AFTER,
                         for `ship --after $AFTER` with --uncompared; with --last N, N less
  --to IN OUT            the pipes of the second's client 1, where they are on this machine
  --over COMMAND         else a shell's command, from whose input IN is written, and whose output is read from OUT
  --second FILE          the second's journal, or
  --second-over COMMAND  a shell's command that writes it to its output: the commits that both have are compared
  --last N               of the commits that both have the last N are compared, those before are not: for stores, with
                         `ship --store FOLDER --after $AFTER` as COMMAND of --from, and with --once of --second-over
  --uncompared           goes on behind the commits that the second has, though nothing shows which these are
  --confirm BY           writes to the pipe BY how many commits the second has, as `committed N`, for a first server
                         that tells a client only what is confirmed so (`serve --confirmed BY`), or
  --confirm-over COMMAND a shell's command that takes these lines from its input
  --once                 sends what the journal has, and ends
  --ahead N              at most so many refreshes are under way (by default 1000)
  --every MS             between two looks at the journal, where the system does not tell of its writes (by default 2)
  --told FILE            adds each `committed N` of the second to FILE
  --quiet                tells only why it ends

A group is taken where its gate is open, it is whole and its checksum is right; then FILE is synced, by the link or by
`ship`, and then its commits are sent. So the second never has a commit that FILE can lose. Each receipt has to have the
commit's number. All commits are client 1's on the second: who made one is in FILE alone.

At its start it asks the second how many commits it has, and compares them with the first of FILE, action by action;
nothing is sent where one differs (`Forked N`, N the first that does). Then it goes on behind them. Where all is quiet,
the second has to say every five seconds that it has no other commits, and `ship` each second that it is there. What was
compared, and each receipt that was right, is confirmed, the last one again each second.

  status 0   a signal (INT, TERM) ended it; with --once: the second has all that FILE has
         1   a person has to look: Forked N, Refused N, other tables, a damaged journal, a disk that fails
         2   wrong words
         3   the link is cut, no reply came for a minute, nothing of `ship` for half a minute, or the second's journal
             cannot be written: start it again, and it goes on
"""
import argparse
import collections
import ctypes
import errno
import fcntl
import hashlib
import itertools
import math
import os
import re
import secrets
import select
import signal
import subprocess
import sys
import time

GROUP = re.compile(rb"1 (\d{15})\n")        # the open gate and the head of a group
GROUP_BYTES, CHECKSUM_BYTES = 18, 33
TABLES = re.compile(rb"ssb_live journal ([12])\n")
MARK = re.compile(rb"after\|(\d+)\n")         # of `ship --after`: so many commits were left out
COMMIT, END = re.compile(rb"commit\|\d+\n"), re.compile(rb"^end\n", re.M)
PART = 1 << 20              # bytes of a journal that are read at once, where no group is longer
MOST_READ = 1 << 16         # bytes that are read from OUT at once
SILENCE = 1                 # seconds without a commit, after which the journal is looked at a tenth as often
BEAT = 5                    # seconds of silence after which the second is asked
PATIENCE = 60               # seconds without a reply, after which the link counts as cut
STILL = 30                  # seconds without a byte of `ship`, after which it counts as cut
AGAIN = 1                   # seconds after which the last confirmation is written again
IN_MODIFY = 2               # of inotify: a file was written
TICK = 0.01                 # seconds between two looks for what is not there yet


class Stop(Exception):
    """Why the link ends, with its status."""
    status = 1


class Cut(Stop):
    status = 3


class ReadOnly(Stop):
    """The second takes no refreshes: perhaps the next server there does."""
    status = 3


def forked(number, why):
    return Stop(f"Forked {number}: {why}")


# ---- journals ----

class Journal:
    """A journal that is read group by group, in a file that may grow meanwhile. `head` is the text of its first group,
    once it is there; `is_at_end` tells whether the last look found no group more. A group without commits is a sign of
    life, as `ship` writes them, and nothing else."""
    has_ended = False           # nothing can come any more
    news = None                 # a file that can be read when there may be more
    passed = 0                  # commits that come before the first group of commits
    after = 0                   # commits that a command may leave out

    def __init__(self, path):
        self.path, self.file, self.end, self.want = path, None, 0, PART
        self.head, self.groups, self.is_at_end, self.is_idle, self.is_begun = None, 0, False, False, False

    def is_there(self):
        if self.file is None:
            try:
                self.file = os.open(self.path, os.O_RDONLY)
            except FileNotFoundError:
                return False
            self.news = writes_of(self.path)
        return True

    def hear_news(self):
        """Takes what the system has told: the next look comes behind it."""
        try:
            os.read(self.news, MOST_READ)
        except BlockingIOError:
            pass

    def look(self):
        """The bytes behind the groups that were read."""
        return os.pread(self.file, self.want, self.end)

    def read(self):
        """The texts of the next groups that count, as far as one look has them, but for the first one of all."""
        content, place, texts = self.look(), 0, []
        is_short = len(content) < self.want
        while True:
            found = GROUP.match(content, place)
            after = place + GROUP_BYTES + int(found[1]) if found else place
            if not place < after <= len(content):
                break
            text = self.open_group(content[place + GROUP_BYTES:after])
            self.is_idle = not text
            if text:
                texts.append(text)
            place = after
        self.want = max(PART, after - place)
        self.end += place
        self.is_at_end = not texts and (after == place or is_short)
        return texts[1:] if texts and texts[0] is self.head else texts

    def take_mark(self, texts):
        """A mark, which stands before all commits, is told, and left out of the texts."""
        mark = MARK.fullmatch(texts[0]) if texts and not self.is_begun else None
        if mark:
            self.passed = int(mark[1])
            del texts[0]
        self.is_begun = self.is_begun or bool(texts or mark)

    def open_group(self, group):
        text = group[CHECKSUM_BYTES:]
        if group[:CHECKSUM_BYTES] != hashlib.md5(text).hexdigest().encode() + b"\n":
            raise Stop(f"{self.path} is damaged: group {self.groups} has another checksum")
        if not self.groups:
            if not TABLES.match(text):
                raise Stop(f"{self.path} is no journal, or of a newer program")
            self.head = text
        self.groups += 1
        return text

    def commits(self):
        """The actions of all commits that there are now."""
        while True:
            texts = self.read()
            if self.is_at_end:
                return
            for text in texts:
                yield from commits_of(text)

    def has_failed(self):
        """Whether it has ended before its end."""
        return False

    def sync(self):
        os.fdatasync(self.file)

    def check(self):
        """It is still the file of its name, and has what was read of it."""
        mine = os.fstat(self.file)
        try:
            there = os.stat(self.path)
        except FileNotFoundError:
            there = None
        if there is None or (there.st_dev, there.st_ino) != (mine.st_dev, mine.st_ino):
            raise Stop(f"{self.path} is not the file that it was")
        if mine.st_size < self.end:
            raise Stop(f"{self.path} is shorter than it was")


def writes_of(path):
    """A file that can be read once another one was written, by inotify; None where the system does not tell."""
    try:
        system = ctypes.CDLL(None)
        told = system.inotify_init1(os.O_NONBLOCK | os.O_CLOEXEC)
        if told >= 0 and system.inotify_add_watch(told, os.fsencode(path), IN_MODIFY) >= 0:
            return told
    except (OSError, AttributeError):
        pass
    return None


def begin(command, after):
    """A shell's command that writes a journal, and may leave out so many commits."""
    return subprocess.Popen(command, shell=True, stdin=subprocess.DEVNULL, stdout=subprocess.PIPE,
                            env={**os.environ, "AFTER": str(after)})


class Shipped(Journal):
    """What `ship` writes of a journal, to standard input or as a command's output: the groups that count, which are on
    its disk, as they come, and a sign of life where there are none."""

    def __init__(self, command):
        super().__init__(f"what `{command}` writes" if command else "standard input")
        self.command, self.left, self.start, self.heard = command, bytearray(), 0, time.monotonic()

    def is_there(self):
        if self.file is None:
            source = sys.stdin
            if self.command:
                self.process = begin(self.command, self.after)
                source = self.process.stdout
            self.file = self.news = source.fileno()
            os.set_blocking(self.file, False)
        return True

    def hear_news(self):
        pass

    def look(self):
        del self.left[:self.end - self.start]
        self.start = self.end
        while len(self.left) < self.want and not self.has_ended:
            try:
                part = os.read(self.file, MOST_READ)
            except BlockingIOError:
                break
            self.left += part
            self.has_ended, self.heard = not part, time.monotonic()
        self.news = None if self.has_ended or len(self.left) >= self.want else self.file
        return bytes(self.left)

    def read(self):
        """The same; at its end is what has ended, or was idle behind the last group. A mark is told, and left out."""
        texts = super().read()
        self.take_mark(texts)
        self.is_at_end = not texts and (self.has_ended or self.is_idle)
        return texts

    def has_failed(self):
        return self.has_ended and self.command is not None and self.process.wait() != 0

    def ended(self, count):
        """What its end means. `ship` has status 1 where its journal is damaged, or is none: that does not pass."""
        text = f"ended after {count} commits: {self.path}"
        return Stop(text) if self.command and self.process.wait() in (1, 2) else Cut(text)

    def sync(self):
        pass

    def check(self):
        if time.monotonic() > self.heard + STILL:
            raise Cut(f"nothing has come for {STILL} s: {self.path}")


class JournalOver(Journal):
    """A journal that a command writes to its output, or what `ship --once` writes."""

    def __init__(self, command):
        super().__init__(f"what `{command}` writes")
        self.command, self.process, self.left, self.start = command, None, b"", 0

    def is_there(self):
        if self.process is None:
            self.process = begin(self.command, self.after)
        return True

    def read(self):
        texts = super().read()
        self.take_mark(texts)
        return texts

    def look(self):
        self.left, self.start = self.left[self.end - self.start:], self.end
        while len(self.left) < self.want:
            part = self.process.stdout.read(self.want - len(self.left))
            if not part:
                break
            self.left += part
        return self.left


def commits_of(text):
    """The actions of each commit of a group: its text but for the first record and the last."""
    *commits, rest = END.split(text)
    for commit in commits:
        found = COMMIT.match(commit)
        if not found or found.end() == len(commit):
            raise Stop(f"the journal is damaged: {commit[:40]!r} begins no commit")
        yield commit[found.end():]
    if rest or not commits:
        raise Stop("the journal is damaged: a group ends inside a commit")


def tables_of(*heads):
    """What the heads say of their tables: without checksums where one of them is of form 1, which has none."""
    lines = [head.split(b"\n")[1:] for head in heads]
    if len({TABLES.match(head)[1] for head in heads}) > 1:
        lines = [[line.split(b"|")[:3] for line in of_one] for of_one in lines]
    return lines


# ---- the session with the second ----

class Session:
    """Client 1 of the second: what is still to be written, and the lines of its replies."""

    def __init__(self):
        self.text, self.part, self.into, self.out = bytearray(), b"", None, None

    def begin(self):
        for end in (self.into, self.out):
            os.set_blocking(end, False)
        self.both = select.poll()

    def close(self):
        os.close(self.into)
        os.close(self.out)

    def turn(self, seconds, journal=None):
        """Writes and reads what can be at once, or waits so long until something can, or until there is news of the
        journal; the lines that came."""
        self.both.register(self.out, select.POLLIN)
        self.both.register(self.into, select.POLLOUT if self.text else 0)
        news = journal.news if journal else None
        if news is not None:
            self.both.register(news, select.POLLIN)
        ready = dict(self.both.poll(math.ceil(1000 * seconds)))
        if news is not None:
            self.both.unregister(news)
            if news in ready:
                journal.hear_news()
        if ready.get(self.into):
            self.write()
        return self.read() if self.out in ready else []

    def write(self):
        try:
            if self.text:
                del self.text[:os.write(self.into, self.text[:MOST_READ])]
        except BlockingIOError:
            pass
        except BrokenPipeError:
            raise Cut("the second has closed IN") from None

    def read(self):
        try:
            part = os.read(self.out, MOST_READ)
        except BlockingIOError:
            return []
        if not part:
            raise Cut("the second has closed OUT")
        *lines, self.part = (self.part + part).split(b"\n")
        return lines


class Piped(Session):
    """Over two named pipes of this machine."""

    def __init__(self, into, out, tell):
        super().__init__()
        self.out = os.open(out, os.O_RDONLY | os.O_NONBLOCK)
        try:
            fcntl.flock(self.out, fcntl.LOCK_EX | fcntl.LOCK_NB)        # as clients/python does
        except BlockingIOError:
            raise Stop(f"{out} is in use by another client") from None
        for turn in itertools.count():
            try:
                self.into = os.open(into, os.O_WRONLY | os.O_NONBLOCK)
                break
            except OSError as fault:
                if fault.errno != errno.ENXIO:
                    raise
            if turn == 100:
                tell(f"waits for a server at {into}")
            time.sleep(TICK)
        self.begin()


class Over(Session):
    """Over the input and the output of a command."""

    def __init__(self, command):
        super().__init__()
        self.process = subprocess.Popen(command, shell=True, stdin=subprocess.PIPE, stdout=subprocess.PIPE, bufsize=0)
        self.into, self.out = self.process.stdin.fileno(), self.process.stdout.fileno()
        self.begin()


# ---- what is confirmed ----

class Confirming:
    """The pipe BY, or a command's input: the last line is written again each second, so that a server that begins to
    read later has it too. The greatest line counts, so one that finds no reader, or no room, is left out."""

    def __init__(self, path, command):
        self.path, self.command, self.file = path, command, None
        self.told, self.when = None, 0

    def open(self):
        if self.command:
            self.process = subprocess.Popen(self.command, shell=True, stdin=subprocess.PIPE, bufsize=0)
            self.file = self.process.stdin.fileno()
            os.set_blocking(self.file, False)
            return
        try:
            self.file = os.open(self.path, os.O_WRONLY | os.O_NONBLOCK | os.O_APPEND)
        except OSError as fault:
            if fault.errno != errno.ENXIO:
                raise

    def tell(self, count, now):
        if count == self.told and now < self.when + AGAIN:
            return
        self.told, self.when = count, now
        if self.file is None:
            self.open()
        if self.file is None:
            return
        try:
            os.write(self.file, b"committed %d\n" % count)
        except BlockingIOError:
            pass
        except BrokenPipeError:
            if self.command:
                raise Cut(f"`{self.command}` has ended") from None
            os.close(self.file)
            self.file = None


# ---- the link ----

class Link:
    """`count` is how many commits the second has told of. Behind them `under_way` were sent, and `ready` are to be."""

    def __init__(self, words):
        self.words, self.journal = words, Journal(words.journal) if words.journal else Shipped(words.command)
        self.confirming = None
        if words.confirm or words.confirm_over:
            self.confirming = Confirming(words.confirm, words.confirm_over)
        self.other = None
        if words.second or words.second_over:
            self.other = Journal(words.second) if words.second else JournalOver(words.second_over)
        self.told = open(words.told, "ab", buffering=0) if words.told else None
        self.ready, self.is_synced, self.are_tables_compared = collections.deque(), True, False
        self.count = self.under_way = 0
        self.compared = 0           # the number of the second's commit that was looked at last
        self.beat = None            # what the second says if nobody else commits there
        self.heard = self.grown = time.monotonic()

    def tell(self, text):
        if not self.words.quiet:
            print(f"follow: {text}", file=sys.stderr, flush=True)

    def run(self):
        self.connect()
        self.journal.after = max(0, self.count - self.words.last)
        if self.other:
            self.other.after = self.journal.after
        self.wait_for_journal()
        self.pass_over()
        self.tell(f"{self.count} commits, then as they come")
        while not (self.words.once and self.is_even()):
            self.turn()
        if self.journal.has_failed():
            raise self.journal.ended(self.count)
        if not self.journal.head:
            raise Stop(f"{self.journal.path} has no group of a journal")
        self.tell(f"{self.count} commits, as many as the journal")

    def is_even(self):
        return not (self.take() or self.ready or self.under_way or self.beat) and self.journal.is_at_end

    # the start

    def connect(self):
        """Opens the session, again where one before it ends just then."""
        began = time.monotonic()
        while True:
            self.session = Piped(*self.words.to, self.tell) if self.words.to else Over(self.words.over)
            try:
                self.greet()
                return
            except Cut:
                if not self.words.to or time.monotonic() > began + PATIENCE:
                    raise
            self.session.close()
            time.sleep(TICK)

    def question(self):
        """A refresh that is always refused, and how: by a key that nobody else can have named."""
        key = secrets.randbits(63)
        refusal = re.compile(rb"refused at (\d+) action [12]: 47 Absent %d" % key)
        return b"begin\nwithdraw|%d\nwithdraw|%d\ncommit\n" % (key, key), refusal

    def greet(self):
        """Asks how many commits the second has. All that comes before the reply was for a session before this one,
        which may have left a request unfinished; what it had sent is in that number."""
        text, refusal = self.question()
        self.session.text += b"\nabort\n" + text
        began, found = time.monotonic(), None
        while not found:
            for line in self.session.turn(1):
                found = found or refusal.fullmatch(line)
                if line == b"fault: 68 ReadOnly":
                    raise ReadOnly("the second takes no refreshes: its journal could not be written when it started")
            if time.monotonic() > began + PATIENCE:
                raise Cut(f"the second has not replied in {PATIENCE} s")
        self.count = int(found[1])

    def wait_for_journal(self):
        if not self.journal.is_there():
            if self.words.once:
                raise Stop(f"there is no {self.words.journal}")
            self.tell(f"waits for {self.words.journal}")
        while not self.journal.is_there():
            self.session.turn(TICK)

    def pass_over(self):
        """Passes over the commits that the second has, which are compared."""
        if self.count and not (self.other or self.words.uncompared):
            raise Stop(f"the second has {self.count} commits: --second says where its journal is")
        theirs = self.their_commits()
        number = 0
        while number < self.count:
            texts = self.journal.read()
            self.check_mark()
            number = max(number, self.journal.passed)
            if self.journal.is_at_end:
                if self.journal.has_ended:
                    raise self.journal.ended(number)
                raise forked(number + 1, f"the second has {self.count} commits, and {self.journal.path} {number}")
            if not texts:
                self.session.turn(TICK)
            self.compare_tables()
            for actions in itertools.chain.from_iterable(map(commits_of, texts)):
                if number < self.count:
                    number += 1
                    self.compare(number, actions, theirs)
                else:
                    self.put(actions)
        self.compare_tables()

    def check_mark(self):
        """Commits that `ship` left out are there on the second, and compared with nothing."""
        passed = self.journal.passed
        if passed > self.count:
            raise Stop(f"the second has {self.count} commits, and {self.journal.path} those behind {passed}")
        if passed > self.journal.after or passed and not (self.words.uncompared or self.words.last):
            raise Stop(f"{self.journal.path} has no commits to {passed}, which are not compared: --uncompared")

    def compare(self, number, mine, theirs):
        """A commit with the one of this number of the second's journal, where that is shown."""
        if theirs is None or number <= self.other.passed:
            return
        while self.compared < number:
            other, self.compared = next(theirs, None), self.compared + 1
        if other is None:
            raise Stop(f"{self.other.path} has {number - 1} commits, and the second {self.count}: it is another "
                       "journal, or an older copy")
        if other != mine:
            raise forked(number, "the second has another commit there")

    def their_commits(self):
        if not self.other:
            return None
        if not self.other.is_there():
            raise Stop(f"there is no {self.other.path}")
        first = self.other.read()           # with it come the head and a mark
        self.compared = self.other.passed
        return itertools.chain(itertools.chain.from_iterable(map(commits_of, first)), self.other.commits())

    def compare_tables(self):
        if self.are_tables_compared or self.other is None or self.journal.head is None or self.words.last:
            return
        if self.other.head is None:
            raise Stop(f"{self.other.path} is no journal")
        mine, theirs = tables_of(self.journal.head, self.other.head)
        if mine != theirs:
            raise Stop("the second has other tables")
        self.are_tables_compared = True

    # as they come

    def turn(self):
        has_grown = len(self.ready) < self.words.ahead and self.take()
        now = time.monotonic()
        if self.journal.has_ended and self.is_even():
            raise self.journal.ended(self.count)
        self.send(now)
        pause = self.words.every / 1000 * (10 if now > self.grown + SILENCE and not self.under_way else 1)
        is_full = len(self.ready) >= self.words.ahead
        for line in self.session.turn(0 if has_grown else pause, None if is_full else self.journal):
            self.hear(line)
        if self.confirming:
            self.confirming.tell(self.count, time.monotonic())
        if (self.under_way or self.beat) and time.monotonic() > self.heard + PATIENCE:
            raise Cut(f"the second has not replied in {PATIENCE} s, after {self.count} commits")

    def put(self, actions):
        self.ready.append(actions)
        self.is_synced = False

    def take(self):
        """Takes the commits that are new in the journal; whether there were some."""
        texts = self.journal.read()
        self.check_mark()
        self.compare_tables()
        for text in texts:
            for actions in commits_of(text):
                self.put(actions)
        if texts:
            self.grown = time.monotonic()
        return bool(texts)

    def send(self, now):
        """Puts commits under way, once they are on the disk of the journal; asks where nothing is for long."""
        if not (self.under_way or self.beat):
            if not self.ready and now > self.heard + BEAT:
                self.journal.check()
                text, self.beat = self.question()
                self.session.text += text
            self.heard = now if self.ready or self.beat else self.heard
        if self.ready and not self.is_synced:
            self.journal.sync()
            self.is_synced = True
        while self.ready and self.under_way < self.words.ahead:
            self.session.text += b"begin\n" + self.ready.popleft() + b"commit\n"
            self.under_way += 1

    def hear(self, line):
        """A reply: the receipt of the next commit, or that nobody else has committed."""
        self.heard = time.monotonic()
        asked, self.beat = self.beat, None
        found = asked.fullmatch(line) if asked else None
        if found and int(found[1]) == self.count:
            return
        if asked or not self.under_way or line != b"committed %d" % (self.count + 1):
            raise self.wrong(line)
        self.count += 1
        self.under_way -= 1
        if self.told:
            self.told.write(line + b"\n")

    def wrong(self, line):
        """What a reply means that is not the one that is due."""
        text, number = line.decode(errors="replace"), self.count + 1
        behind = f"; {self.under_way} were under way" if self.under_way else ""
        if line.startswith((b"committed ", b"refused at ")) and not line.startswith(b"refused at %d " % self.count):
            return forked(number, f"somebody else commits on the second, which says: {text}{behind}")
        return Stop(f"Refused {number}: the second says: {text}{behind}")


def read_words(words):
    parser = argparse.ArgumentParser(usage=__doc__, add_help=False)
    parser.add_argument("input", nargs="?", choices=["-"])
    parser.add_argument("--journal")
    parser.add_argument("--from", dest="command")
    parser.add_argument("--to", nargs=2)
    parser.add_argument("--over")
    parser.add_argument("--second")
    parser.add_argument("--second-over")
    parser.add_argument("--last", type=int, default=0)
    parser.add_argument("--uncompared", action="store_true")
    parser.add_argument("--confirm")
    parser.add_argument("--confirm-over")
    parser.add_argument("--once", action="store_true")
    parser.add_argument("--ahead", type=int, default=1000)
    parser.add_argument("--every", type=float, default=2)
    parser.add_argument("--told")
    parser.add_argument("--quiet", action="store_true")
    parser.add_argument("--help", "-h", action="store_true")
    return parser.parse_args(words)


def main(given):
    words = read_words(given)
    if words.help:
        print(__doc__)
        return 0
    # Of each of these one at the most; what nothing shows is not confirmed.
    alone = [[words.second, words.second_over, words.uncompared], [words.confirm, words.confirm_over],
             [words.confirm or words.confirm_over, words.uncompared], [words.to, words.over],
             [words.journal, words.command, words.input]]
    are_alone = all(sum(map(bool, group)) < 2 for group in alone) and all(map(any, alone[3:]))
    has_second = bool(words.second_over and words.command)
    if not are_alone or words.ahead < 1 or words.every <= 0 or words.last < 0 or words.last and not has_second:
        print(__doc__, file=sys.stderr)
        return 2
    signal.signal(signal.SIGTERM, signal.default_int_handler)
    try:
        Link(words).run()
    except Stop as why:
        print(f"follow: {why}", file=sys.stderr)
        return why.status
    except OSError as why:
        print(f"follow: {why.filename or 'the journal or the link'}: {why.strerror}", file=sys.stderr)
        return 1
    except KeyboardInterrupt:
        pass
    return 0


if __name__ == "__main__":
    sys.exit(main(sys.argv[1:]))
