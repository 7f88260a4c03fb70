"""A cluster that is fed as the journal or the store of a server grows, for `cluster --live`: its answers as of any
commit beside ours, and how far it is behind."""
import bisect
import concurrent.futures
import os
import random
import shlex
import subprocess
import sys
import threading
import time

from common import HERE, LIVE, NAMES, journal_words, machine
from judge import Disagreement
from killed import Steady
from moments import commit_texts, rows_after, rows_at
from pipes import PATIENCE, Asker, Flood, Server, in_turn, text_of
from shards import load_dimensions, make_signed
from stars import Stars, explained
from traffic import Question, Tables, Traffic

CLIENTS = 16
STARS, STAR_ROWS = 20, 50_000
ANY = 0.1               # of the refreshes, which may touch any order, and be refused
KILLED_EACH = 10        # moments between two kills of the feed, in the second half
BEHIND, FLOODING = 40_000, 4    # refreshes that the feed has to catch up with, and the clients that send them
FIRST_KEY = 10**15      # of the orders of these
TAKEN = "SELECT max(commit_number) FROM taken"
SEGMENT, FOLDED_EACH = 1000, 2      # commits of a store's segment; seconds between its checkpoints


class Journaled:
    """What the server keeps: a journal over the tables."""

    def __init__(self, data, folder, ships):
        self.data, self.folder, self.ships, self.journal = data, folder, ships, folder / "journal"

    def serve(self, *words):
        return Server(self.data, self.folder, CLIENTS, *journal_words(self.journal), *words, quiet=False)

    def feed_words(self):
        shipping = shlex.join(map(str, (LIVE, "ship", "--journal", self.journal)))
        return ["--data", self.data, *(["--over", shipping] if self.ships else ["--journal", self.journal])]

    def end(self):
        """Nothing is written any more; what it has is told of then."""
        self.head, self.commits = commit_texts(self.journal)

    def rows(self, commit, questions, folder):
        return rows_after(self.data, folder, self.head, self.commits[:commit], questions)


class Stored:
    """The same of a store, which is folded again and again; all moments are kept."""

    def __init__(self, data, folder):
        self.folder, self.store, self.is_over = folder, folder / "store", threading.Event()
        self.run("store", "--data", data)

    def run(self, *words):
        return subprocess.run([LIVE, *words, "--store", self.store, "--quiet"], check=True)

    def fold(self):
        while not self.is_over.wait(FOLDED_EACH):
            self.run("checkpoint", "--keep-from", "0")

    def serve(self, *words):
        self.folding = threading.Thread(target=self.fold, daemon=True)
        self.folding.start()
        return Server(None, self.folder, CLIENTS, "--store", self.store, "--segment", str(SEGMENT), *words, quiet=False)

    def feed_words(self):
        return ["--store", self.store]

    def end(self):
        self.is_over.set()
        self.folding.join(PATIENCE)

    def rows(self, commit, questions, folder):
        return rows_at(self.store, commit, questions, folder / "board")


class Mixed(Steady):
    """Refreshes of a client that change what it has added, and now and then any order."""

    def refresh(self):
        return Traffic.refresh(self) if self.chance(ANY) else super().refresh()


class Load:
    """Clients that refresh, RATE times a second together; `told` is when each commit was told."""

    def __init__(self, tables, ends, source, rate):
        self.pause, self.told, self.is_over, self.fault = len(ends) / rate, {}, threading.Event(), None
        self.threads = [threading.Thread(target=self.run, args=(tables, client, pair, random.Random(source.random())),
                                         daemon=True) for client, pair in enumerate(ends)]
        for thread in self.threads:
            thread.start()

    def run(self, tables, number, ends, source):
        try:
            traffic, client = Mixed(tables, number, source), Asker(ends)
            while not self.is_over.wait(source.uniform(0, 2 * self.pause)):
                client.ask(text_of(traffic.refresh()).encode())
                if client.reply.startswith(b"committed "):
                    self.told[int(client.reply.split()[1])] = time.perf_counter()
            client.close()
        except Disagreement as fault:
            self.fault = fault

    def end(self):
        self.is_over.set()
        for thread in self.threads:
            thread.join(PATIENCE)
        if self.fault:
            raise self.fault


class Feed:
    """The feed as a user runs it; `taken` are the numbers that it told, and `times` when, over all its starts."""

    def __init__(self, kept, shards, folder):
        places = [word for shard in shards for word in ("--to", f"127.0.0.1:{shard.port}")]
        self.words = [HERE / "cluster", "feed", "--program", LIVE, *kept.feed_words(), *places]
        self.folder, self.taken, self.times, self.process = folder, [], [], None

    def start(self):
        self.errors = open(self.folder / "feed", "a+")
        self.process = subprocess.Popen([sys.executable, *self.words], stdout=subprocess.PIPE, stderr=self.errors,
                                        stdin=subprocess.DEVNULL, text=True,
                                        env={**os.environ, "TMPDIR": str(self.folder)})
        self.listener = threading.Thread(target=self.listen, args=(self.process.stdout,), daemon=True)
        self.listener.start()

    def listen(self, told):
        for line in told:
            self.times.append(time.perf_counter())
            self.taken.append(int(line.split()[1]))

    def await_taken(self, number):
        end = time.monotonic() + PATIENCE
        while not (self.taken and self.taken[-1] >= number):
            self.check()
            if time.monotonic() > end:
                raise Disagreement(f"the feed does not come to commit {number}: {self.taken[-1:]}")
            time.sleep(0.005)

    def check(self):
        if self.process.poll() is not None:
            self.errors.seek(0)
            raise Disagreement(f"the feed has ended with {self.process.returncode}: {self.errors.read().strip()}")

    def kill(self):
        if self.process:
            self.process.kill()
            self.process.wait()
            self.listener.join()
            self.process = None

    def lags(self, told, until):
        """The milliseconds from when each commit was told to when all servers had taken it, before some moment."""
        found = []
        for number, when in told.items():
            place = bisect.bisect_left(self.taken, number)
            if place < len(self.taken) and self.times[place] < until:
                found.append(1000 * (self.times[place] - when))
        return sorted(found)


class Moment:
    """Questions that a server of the cluster was asked as of a commit, one that was just reached or an old one, and its
    rows."""

    def __init__(self, shard, commit, is_reached, questions):
        self.commit, self.is_reached, self.questions = commit, is_reached, questions
        self.theirs = [shard.rows(explained(question.name, question.constants, "--sql", "clickhouse", "--as-of",
                                            str(commit))) for question in questions]

    def same(self, kept, folder):
        """How many answers are ours; those that are not are told."""
        own = folder / f"moment-{id(self)}"
        own.mkdir()
        ours = kept.rows(self.commit, self.questions, own)
        for question, mine, other in zip(self.questions, ours, self.theirs):
            if mine != other:
                print(f"as of {self.commit}: {question.records()[0]}\n  ours: {mine[:3]}\n  theirs: {other[:3]}")
        return sum(map(list.__eq__, ours, self.theirs))


class Trial:
    def __init__(self, words, data, folder, shards):
        self.words, self.data, self.folder, self.shards = words, data, folder, shards
        self.source, self.tables = random.Random(words.seed), Tables(data)
        self.stars = Stars(self.tables, self.source)
        self.moments, self.kills, self.disturbed = [], 0, float("inf")
        self.kept = Stored(data, folder) if words.store else Journaled(data, folder, words.ship)
        self.server = self.kept.serve("--keep")
        self.feed = Feed(self.kept, shards, folder)

    def run(self):
        load_dimensions(self.shards, self.data)
        make_signed(self.shards)
        load, began = Load(self.tables, self.server.ends, self.source, self.words.rate), time.perf_counter()
        self.feed.start()
        self.feed.await_taken(0)
        self.ask_all()
        load.end()
        commits, seconds = len(load.told), time.perf_counter() - began
        self.feed.await_taken(commits)
        self.ask(commits, is_reached=True)
        lags = self.feed.lags(load.told, self.disturbed)
        lines, catching_up = self.catch_up(commits)
        is_same = self.judge()
        self.tell(lags, commits / seconds, lines, catching_up)
        return is_same

    def ask_all(self):
        """Asks at all moments, in turn just reached and old ones. In the second half the feed is killed again and
        again."""
        for number in range(1, self.words.moments + 1):
            self.feed.check()
            taken, is_reached = int(self.source.choice(self.shards).rows(TAKEN)[0]), number % 2 == 1
            self.ask(taken if is_reached else self.source.randint(0, taken), is_reached)
            if number > self.words.moments / 2 and number % KILLED_EACH == 0:
                self.disturbed = min(self.disturbed, time.perf_counter())
                time.sleep(self.source.uniform(0, 1))
                self.feed.kill()
                self.kills += 1
                self.feed.start()

    def ask(self, commit, is_reached):
        questions = [Question(name, []) for name in NAMES]
        questions += [Question("star", self.stars.constants(STAR_ROWS)) for _ in range(STARS)]
        self.moments.append(Moment(self.source.choice(self.shards), commit, is_reached, questions))

    def catch_up(self, commits):
        """The lines of many commits that the feed finds at its start, and the seconds until it has taken them."""
        self.feed.kill()
        flood = Flood(self.folder)
        texts = [in_turn(self.tables, FIRST_KEY + place * BEHIND, BEHIND // FLOODING) for place in range(FLOODING)]
        flood.end(flood.start(self.server.ends, texts), BEHIND)
        before, began = self.lines(), time.perf_counter()
        self.feed.start()
        self.feed.await_taken(commits + BEHIND)
        seconds = time.perf_counter() - began
        self.ask(commits + BEHIND, is_reached=True)
        return self.lines() - before, seconds

    def lines(self):
        return int(self.shards[0].rows("SELECT count() FROM signed_lines")[0])

    def judge(self):
        self.kept.end()
        with concurrent.futures.ThreadPoolExecutor(2) as pool:
            same = sum(pool.map(lambda one: one.same(self.kept, self.folder), self.moments))
        asked = sum(len(moment.questions) for moment in self.moments)
        reached = sum(moment.is_reached for moment in self.moments)
        print(f"{len(self.moments)} moments, {reached} of them just reached: {same:,} of {asked:,} answers are the "
              "same bytes as ours")
        return same == asked

    def tell(self, lags, rate, lines, seconds):
        middle, most = (lags[int(len(lags) * share)] for share in (0.5, 0.99))
        print(f"{rate:.0f} commits a second of {CLIENTS} clients; from commit told to commit asked there {middle:,.0f} "
              f"ms in the middle, 99 of 100 within {most:,.0f} ms, over {len(lags):,} commits; the feed was killed "
              f"{self.kills} times behind these")
        print(f"behind {BEHIND:,} commits it took {lines:,} lines in {seconds:.2f} s from its start: "
              f"{lines / seconds:,.0f} a second; {self.lines():,} in all; ClickHouse {self.shards[0].version}, "
              f"{len(self.shards)} servers on one machine; {machine()}")

    def end(self):
        self.feed.kill()
        self.server.stop()


def live(words, data, folder, shards):
    """Whether the cluster gives our answers as of each moment; says what it found."""
    trial = Trial(words, data, folder, shards)
    try:
        return trial.run()
    finally:
        trial.end()
