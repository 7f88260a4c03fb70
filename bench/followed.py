"""Two servers on this machine and the link between them, for `follow`; and `forks`: seconds that are not the first's,
and journals that are not whole."""
import hashlib
import itertools
import os
import shlex
import shutil
import subprocess
import sys
import time

from common import HERE, LIVE, journal_words, make_tables
from full import limit_files
from journals import HEAD_BYTES, JournalReader, groups_of
from judge import Disagreement
from pipes import PATIENCE, READY, Server, line_end, ssb_live
from traffic import Tables

CLIENTS = 16
STARTING = 600          # seconds after which a start counts as stuck
TICK = 0.002            # seconds between two looks for what is not there yet
COMMITS = 6             # of the first server that `forks` begins with
TORN = b" 000000000009000\n" + 2000 * b"x"     # a beginning of a group
FIRST_KEY = 10**13      # of the orders that are added there
OWN_KEY = 2 * 10**13    # .. of those that only a second has
CASES, SHIPPED = [], [] # of `forks`, in their order; those with `ship`
SYNC_FAILS = """
import errno, os, sys
sys.dont_write_bytecode = True
sys.path.insert(0, sys.argv[1])
import link

def fails(file):
    raise OSError(errno.EIO, os.strerror(errno.EIO))
os.fdatasync = fails
sys.exit(link.main(sys.argv[2:]))
"""                     # the link over a disk whose syncs fail


def mark_of(records):
    """What is kept of a commit's actions, to compare them."""
    return hashlib.md5("\n".join(records).encode()).digest()


class Machine:
    """A server with a journal, in a folder of its own. `marks` are those of its journal's commits as they were read.
    The link reads what `ship` writes of the journal, if it ships; a server that is confirmed tells what the link
    confirms."""

    def __init__(self, data, folder, copied=None, ships=False):
        self.data, self.folder, self.journal, self.ships = data, folder, folder / "journal", ships
        self.by, self.is_confirmed = folder / "confirmed", False
        folder.mkdir()
        os.mkfifo(self.by)
        if copied:
            subprocess.run(["cp", copied, self.journal], check=True)
        self.reader, self.marks, self.server = JournalReader(self.journal, data), [], None
        self.ends = [(folder / f"in-{number}", folder / f"out-{number}") for number in range(1, CLIENTS + 1)]

    def start(self, prepare=None, is_confirmed=False):
        self.is_confirmed = is_confirmed
        by = ["--confirmed", self.by] if is_confirmed else []
        self.server = Server(self.data, self.folder, CLIENTS, *journal_words(self.journal), *by, "--keep", quiet=False,
                             prepare=prepare)
        end = time.monotonic() + STARTING
        while not READY.search((self.folder / "errors").read_text()):
            if self.server.process.poll() is not None or time.monotonic() > end:
                raise Disagreement(f"a server does not start: {self.server.told().strip()}")
            time.sleep(TICK)

    def kill(self):
        if self.server:
            self.server.process.kill()
            self.server.process.wait(PATIENCE)
            self.server = None

    def as_first(self):
        command = shlex.join(map(str, (LIVE, "ship", "--journal", self.journal)))
        by = ["--confirm", self.by] if self.is_confirmed else []
        return [*(["--from", command] if self.ships else ["--journal", self.journal]), *by]

    def as_second(self, compares):
        return ["--to", *self.ends[0], *(["--second", self.journal] if compares else [])]

    def read(self):
        """The commits that are new in its journal."""
        commits = self.reader.read()
        self.marks += [mark_of(commit.records) for commit in commits]
        return commits


class Link:
    """The link as a user runs it, as a process."""
    numbers = itertools.count(1)

    def __init__(self, first, second, *words, compares=True, program=(HERE / "follow", "link")):
        self.errors = second.folder / f"link-{next(self.numbers)}"
        given = [*first.as_first(), *second.as_second(compares), *words]
        with open(self.errors, "w") as errors:
            self.process = subprocess.Popen([*program, *given], stderr=errors, stdin=subprocess.DEVNULL,
                                            stdout=subprocess.DEVNULL)

    def told(self):
        return self.errors.read_text()

    def await_line(self, text):
        """Waits until it tells so, or ends."""
        end = time.monotonic() + PATIENCE
        while text not in self.told():
            if self.process.poll() is not None or time.monotonic() > end:
                raise Disagreement(f"the link does not tell {text!r}: {self.told().strip()!r}")
            time.sleep(TICK)

    def expect(self, status, text):
        """It ends so, and tells so."""
        try:
            ended = self.process.wait(PATIENCE)
        except subprocess.TimeoutExpired:
            ended = None
            self.kill()
        if ended != status or text not in self.told():
            raise Disagreement(f"the link ends with {ended}, {self.told().strip()!r} in place of {status}, {text!r}")

    def kill(self):
        self.process.kill()
        self.process.wait()


# ---- seconds that are not the first's ----

def case(method):
    """A method of Forks that tries one case, and gives what the link says of it."""
    CASES.append(method)
    return method


def shipped(method):
    """The same, of a link that reads what `ship` writes."""
    SHIPPED.append(method)
    return method


class Shipping:
    """A first machine as the link sees it over a shell's command."""

    def __init__(self, command):
        self.command = command

    def as_first(self):
        return ["--from", self.command]


class Forks:
    """A first server with some commits, and the cases that are tried beside it."""

    def __init__(self, words, folder):
        self.folder, self.data, self.made = folder, make_tables(words.scale), []
        self.line = f"|1{line_end(Tables(self.data))}".rstrip("\n")
        self.first = self.machine()
        self.first.start()
        self.commit(self.first, range(FIRST_KEY, FIRST_KEY + COMMITS))
        self.first.read()

    def machine(self, copied=None, data=None):
        self.made.append(Machine(data or self.data, self.folder / f"machine-{len(self.made) + 1}", copied))
        return self.made[-1]

    def rest(self):
        """Ends all servers but the first."""
        for machine in self.made[1:]:
            machine.kill()

    def end(self):
        self.rest()
        self.first.kill()

    def commit(self, machine, keys, client=2):
        """Adds an order of one line for each key."""
        with ssb_live.connect(*machine.ends[client - 1], timeout=PATIENCE) as live:
            for key in keys:
                with live.refresh() as refresh:
                    refresh.add(f"{key}{self.line}".split("|"))

    def begun(self, count, own=0, copied=None):
        """A second that has so many of the first's commits, and then some of its own."""
        made = self.machine(copied)
        made.start()
        self.commit(made, [*range(FIRST_KEY, FIRST_KEY + count), *range(OWN_KEY, OWN_KEY + own)])
        made.read()
        return made

    def changed_first(self, change):
        """A first machine without a server, whose journal's bytes are changed so."""
        made = self.machine()
        content = self.first.journal.read_bytes()
        made.journal.write_bytes(change(content, last_group(content)))
        return made

    def expect(self, first, second, status, text, commits, *words, **how):
        """What the link says, and how many of the first's commits the second has then."""
        before = second.reader.count
        Link(first, second, "--once", *words, **how).expect(status, text)
        second.read()
        if second.reader.count != commits or status and second.reader.count != before:
            raise Disagreement(f"the second has {second.reader.count} commits behind {text!r}")
        if not status and second.marks != self.first.marks[:commits]:
            raise Disagreement("the second has other commits than the first")
        return text

    # seconds

    @case
    def a_new_second(self):
        return self.expect(self.first, self.begun(0), 0, "6 commits, as many as the journal", 6)

    @case
    def a_second_with_3_of_6_commits(self):
        return self.expect(self.first, self.begun(3), 0, "6 commits, as many as the journal", 6)

    @case
    def a_second_begun_from_a_copy_of_the_journal(self):
        return self.expect(self.first, self.begun(0, copied=self.first.journal), 0, "6 commits, as many as", 6)

    @case
    def a_second_over_a_command(self):
        second = self.begun(2)
        into, out, journal = (shlex.quote(str(path)) for path in (*second.ends[0], second.journal))
        over = f"test -p {into} || exit; cat {out} & exec cat > {into}"
        second.as_second = lambda _: ["--over", over, "--second-over", f"cat {journal}"]
        return self.expect(self.first, second, 0, "6 commits, as many as the journal", 6)

    @case
    def a_second_with_as_many_commits_two_of_its_own(self):
        return self.expect(self.first, self.begun(4, 2), 1, "Forked 5: ", 6)

    @case
    def a_second_with_fewer_commits_one_of_its_own(self):
        return self.expect(self.first, self.begun(1, 1), 1, "Forked 2: ", 2)

    @case
    def a_second_with_a_commit_more(self):
        return self.expect(self.first, self.begun(6, 1), 1, "Forked 7: ", 7)

    @case
    def an_older_copy_of_the_seconds_journal(self):
        second = self.begun(3)
        copy = self.machine(second.journal)
        self.commit(second, [FIRST_KEY + 3])
        second.read()
        second.as_second = lambda _: ["--to", *second.ends[0], "--second", copy.journal]
        return self.expect(self.first, second, 1, "has 3 commits, and the second 4", 4)

    @case
    def a_second_with_commits_that_are_not_shown(self):
        return self.expect(self.first, self.begun(3), 1, "the second has 3 commits: --second says", 3, compares=False)

    @case
    def the_same_with_uncompared(self):
        second = self.begun(3)
        return self.expect(self.first, second, 0, "6 commits, as many as", 6, "--uncompared", compares=False)

    @case
    def other_tables(self):
        return self.expect(self.first, self.other(), 1, "the second has other tables", 0)

    @case
    def other_tables_that_are_not_shown(self):
        return self.expect(self.first, self.other(), 1, "Refused 1: ", 0, "--ahead", "1", compares=False)

    def other(self):
        """A second whose tables lack the customer of the orders that are added."""
        data = self.folder / "other"
        if not data.exists():
            shutil.copytree(self.data, data)
            key = self.line.split("|")[2]
            for name, place in (("customer", 0), ("lineorder", 2)):
                file = data / f"{name}.tbl"
                rows = file.read_text().splitlines(keepends=True)
                file.write_text("".join(row for row in rows if row.split("|")[place] != key))
        made = self.machine(data=data)
        made.start()
        return made

    @case
    def a_second_that_takes_no_refreshes(self):
        second = self.begun(3)
        second.kill()
        with open(second.journal, "ab") as file:
            file.write(TORN)
        second.start(limit_files(len(TORN) - 1))        # so that what is torn cannot be kept
        return self.expect(self.first, second, 3, "the second takes no refreshes", 3)

    # while it runs

    @case
    def somebody_else_refreshes_on_the_second(self):
        second = self.begun(6)
        link = self.following(second)
        self.commit(second, [OWN_KEY], client=5)
        link.expect(1, "Forked 7: somebody else commits")
        return "Forked 7: somebody else commits"

    @case
    def the_second_is_killed(self):
        second = self.begun(6)
        link = self.following(second)
        second.kill()
        link.expect(3, "the second has closed")
        return "the second has closed OUT"

    @case
    def another_link_at_the_same_pipes(self):
        second = self.begun(6)
        link, text = self.following(second), "is in use by another client"
        other = Link(self.first, second)
        other.expect(1, text)
        link.kill()
        return text

    @case
    def another_file_in_the_journals_place(self):
        first, second = self.machine(self.first.journal), self.begun(6)
        link = self.following(second, first)
        first.journal.rename(first.folder / "moved")
        shutil.copyfile(first.folder / "moved", first.journal)
        link.expect(1, "is not the file that it was")
        return "is not the file that it was"

    @case
    def a_journal_that_is_not_there_yet(self):
        first, second = self.machine(), self.begun(0)
        link = Link(first, second)
        link.await_line("waits for")
        first.start()
        self.commit(first, range(FIRST_KEY, FIRST_KEY + 2))
        end = time.monotonic() + PATIENCE
        while second.reader.count < 2 and time.monotonic() < end:
            second.read()
        link.kill()
        if second.marks != self.first.marks[:2]:
            raise Disagreement("the second has not followed a journal that came later")
        return "waits for"

    def following(self, second, first=None):
        link = Link(first or self.first, second)
        link.await_line("as they come")
        return link

    # journals

    @case
    def the_last_gate_closed(self):
        first = self.changed_first(lambda content, last: content[:last] + b"0" + content[last + 1:])
        return self.expect(first, self.begun(0), 0, "5 commits, as many as the journal", 5)

    @case
    def the_last_group_cut_short(self):
        first = self.changed_first(lambda content, last: content[:(last + len(content)) // 2])
        return self.expect(first, self.begun(0), 0, "5 commits, as many as the journal", 5)

    @case
    def a_byte_of_a_group_changed(self):
        first = self.changed_first(lambda content, last: content[:-9] + b"7" + content[-8:])
        return self.expect(first, self.begun(5), 1, "is damaged: group 6 has another checksum", 5)

    @case
    def a_disk_that_fails_to_sync(self):
        """Nothing is sent that is not on the disk."""
        program = sys.executable, "-c", SYNC_FAILS, HERE
        return self.expect(self.first, self.begun(3), 1, "Input/output error", 3, program=program)

    @case
    def something_that_is_no_journal(self):
        first = self.machine()
        first.journal.write_bytes((self.data / "customer.tbl").read_bytes())
        return self.expect(first, self.begun(0), 1, "has no group of a journal", 0)

    @case
    def no_journal(self):
        return self.expect(self.machine(), self.begun(0), 1, "there is no ", 0)


    # what `ship` writes

    def shipping(self, *words, behind=""):
        """What `ship` writes of the first's journal, with these words, and through this pipe of a shell."""
        command = shlex.join(map(str, (LIVE, "ship", "--journal", self.first.journal)))
        return Shipping(" ".join((command, *words)) + behind)

    @shipped
    def a_new_second_over_ship(self):
        return self.expect(self.shipping(), self.begun(0), 0, "6 commits, as many as the journal", 6)

    @shipped
    def a_second_with_3_of_6_commits_over_ship(self):
        return self.expect(self.shipping("--once"), self.begun(3), 0, "6 commits, as many as the journal", 6)

    @shipped
    def a_second_with_a_commit_of_its_own_over_ship(self):
        return self.expect(self.shipping(), self.begun(1, 1), 1, "Forked 2: ", 2)

    @shipped
    def a_second_with_a_commit_more_over_ship(self):
        return self.expect(self.shipping(), self.begun(6, 1), 1, "Forked 7: ", 7)

    @shipped
    def ship_behind_what_the_second_has(self):
        return self.expect(self.shipping("--after", "$AFTER"), self.begun(3), 0, "6 commits, as many as", 6,
                           "--uncompared", compares=False)

    @shipped
    def the_same_where_that_is_to_be_compared(self):
        return self.expect(self.shipping("--after", "3"), self.begun(3), 1, "which are not compared: --uncompared", 3)

    @shipped
    def ship_behind_more_than_the_second_has(self):
        return self.expect(self.shipping("--after", "5"), self.begun(3), 1, "has 3 commits, and", 3, "--uncompared",
                           compares=False)

    @shipped
    def what_ship_writes_is_cut(self):
        second = self.begun(3)
        Link(self.shipping("--once", behind=" | head -c -9"), second).expect(3, "ended after 5 commits: ")
        second.read()
        if second.marks != self.first.marks[:5]:
            raise Disagreement("the second has other commits than the groups that came whole")
        return "ended after 5 commits: "

    @shipped
    def the_same_with_once_by_a_command_that_fails(self):
        shipping = self.shipping("--once", behind=" | head -c -9; exit 4")
        Link(shipping, self.begun(3), "--once").expect(3, "ended after 5 commits: ")
        return "ended after 5 commits: "

    @shipped
    def what_ship_writes_is_changed(self):
        return self.expect(self.shipping(behind=" | sed -u s/5-LOW/5-LOX/"), self.begun(0), 1, "is damaged: group 1", 0)

    @shipped
    def ship_of_something_that_is_no_journal(self):
        other = Shipping(shlex.join(map(str, (LIVE, "ship", "--journal", self.data / "customer.tbl"))))
        return self.expect(other, self.begun(0), 1, "ended after 0 commits: ", 0)

    @shipped
    def a_link_that_confirms(self):
        second = self.begun(3)
        by = os.open(self.first.by, os.O_RDONLY | os.O_NONBLOCK)
        try:
            text = self.expect(self.shipping(), second, 0, "6 commits, as many", 6, "--confirm", self.first.by)
            lines = os.read(by, 1 << 16).decode().splitlines()
        finally:
            os.close(by)
        numbers = [int(line.split()[1]) for line in lines]
        if numbers[:1] != [3] or numbers[-1] != 6 or numbers != sorted(numbers):
            raise Disagreement(f"the link confirms {lines}")
        return text


def last_group(content):
    """Where the gate of the last group stands."""
    start = place = 0
    while groups_of(content, place)[0]:
        start, place = place, place + HEAD_BYTES + int(content[place + 2:place + HEAD_BYTES])
    return start


def forks(words, folder):
    trial = Forks(words, folder)
    print("| the second, or the journal | what the link says |\n|---|---|")
    try:
        for tried in SHIPPED if words.ship else CASES:
            print(f"| {tried.__name__.replace('_', ' ')} | `{tried(trial).strip()}` |", flush=True)
            trial.rest()
    finally:
        trial.end()
