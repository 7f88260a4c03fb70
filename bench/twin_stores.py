"""Two servers of stores and the link between them, for `follow --stores`: the first is killed again and again, with the
link, and the second is promoted; what it has is held to what the first had told, and had."""
import collections
import os
import random
import re
import shlex
import shutil
import signal
import subprocess
import sys
import threading
import time

from common import HERE, LIVE, machine, make_tables
from judge import Disagreement
from killed import Steady
from pipes import PATIENCE, READY, Asker, Server, text_of
from traffic import Tables

CLIENTS = 4             # of a server; the link is client 1 of the second
STARTING = 120          # seconds after which a start counts as stuck
SEGMENTS = 1000, 1500, 2500     # commits of a segment; each start draws one
PAUSE = 0.3             # the most seconds between two checkpoints
DISTURBED = 0.5         # of the rounds: the link is killed before
TICK = 0.002            # seconds between two looks for what is not there yet
LAST = 700              # commits of both that the link compares
COMMITS = re.compile(r"ssb_live: store: (\d+) commits")


def run(*words):
    """A command's output, and what it told."""
    done = subprocess.run([LIVE, *map(str, words)], stdout=subprocess.PIPE, stderr=subprocess.PIPE, text=True)
    if done.returncode:
        raise Disagreement(f"{words[0]} has status {done.returncode}: {done.stderr.strip()}")
    return done.stdout, done.stderr


class Machine:
    """A server of a store, in a folder of its own."""

    def __init__(self, folder, source):
        self.folder, self.store, self.by, self.source = folder, folder / "store", folder / "confirmed", source
        folder.mkdir()
        os.mkfifo(self.by)
        self.server = None

    def start(self, is_confirmed):
        by = ["--confirmed", self.by] if is_confirmed else []
        segment = str(self.source.choice(SEGMENTS))
        self.server = Server(None, self.folder, CLIENTS, "--store", self.store, "--segment", segment, *by, "--keep",
                             quiet=False)
        self.ends, end = self.server.ends, time.monotonic() + STARTING
        while not READY.search((self.folder / "errors").read_text()):
            if self.server.process.poll() is not None or time.monotonic() > end:
                raise Disagreement(f"a server does not start: {self.server.told().strip()}")
            time.sleep(TICK)

    def kill(self):
        if self.server:
            self.server.process.kill()
            self.server.process.wait(PATIENCE)
            self.server = None

    def changes(self, after):
        """The signed lines behind a commit, and how many commits the store has."""
        text, told = run("changes", "--store", self.store, "--after", after)
        return text, int(COMMITS.search(told)[1])

    def checkpoint(self, keep_from):
        run("checkpoint", "--store", self.store, "--keep-from", keep_from, "--quiet")

    def answers(self, at):
        return run("query", "--store", self.store, "--at", at, "--all", "--quiet")[0]


class Client(threading.Thread):
    """Refreshes until its server is killed; `told` is the last commit that it was told of."""

    def __init__(self, tables, number, ends, seed):
        super().__init__(daemon=True)
        self.traffic, self.ends, self.told, self.count = Steady(tables, number, random.Random(seed)), ends, 0, 0
        self.traffic.fresh = random.Random(seed).randrange(10**9)      # no two clients add the same orders
        self.start()

    def run(self):
        try:
            client = Asker(self.ends)
            while True:
                client.ask(text_of(self.traffic.refresh()).encode())
                if client.reply.startswith(b"committed "):
                    self.told, self.count = int(client.reply.split()[1]), self.count + 1
        except (Disagreement, OSError):
            pass                # the server is gone


def shipping(store, *words):
    return shlex.join(map(str, (LIVE, "ship", "--store", store, *words))) + " --after $AFTER"


class Link:
    """The link as a user runs it, with the `ship` that it starts; `folder` is that of its second."""

    def __init__(self, first, second):
        words = ["--from", shipping(first.store), "--second-over", shipping(second.store, "--once"), "--last", LAST,
                 "--to", *second.ends[0], "--confirm", first.by]
        self.errors = second.folder / "link"
        with open(self.errors, "w") as errors:
            self.process = subprocess.Popen([HERE / "follow", "link", *map(str, words)], stdin=subprocess.DEVNULL,
                                            stderr=errors, stdout=subprocess.DEVNULL, start_new_session=True)
        self.await_begun()

    def await_begun(self):
        end = time.monotonic() + PATIENCE
        while "as they come" not in self.errors.read_text():
            if self.process.poll() is not None or time.monotonic() > end:
                raise Disagreement(f"the link does not begin: {self.errors.read_text().strip()!r}")
            time.sleep(TICK)

    def kill(self):
        if self.process.poll() is None:
            os.killpg(self.process.pid, signal.SIGKILL)
            self.process.wait()


class Trial:
    def __init__(self, words, folder):
        self.words, self.folder, self.source = words, folder, random.Random(words.seed)
        self.data = make_tables(words.scale)
        self.tables, self.made, self.counts, self.link = Tables(self.data), 0, collections.Counter(), None
        self.begun = 0          # commits of both stores, where the round began
        self.first = self.new_machine()
        run("store", "--data", self.data, "--store", self.first.store, "--quiet")
        self.second = self.copy_of(self.first)
        self.first.start(is_confirmed=True)

    def new_machine(self):
        self.made += 1
        return Machine(self.folder / f"machine-{self.made}", self.source)

    def copy_of(self, machine):
        """A second server over a copy of a store that nobody serves."""
        made = self.new_machine()
        shutil.copytree(machine.store, made.store)
        made.start(is_confirmed=False)
        return made

    def end(self):
        for process in (self.link, self.first, self.second):
            if process:
                process.kill()

    def fold(self, seconds):
        """Checkpoints of both stores for so long; the first's keep what the second may lack."""
        end = time.monotonic() + seconds
        while time.monotonic() < end:
            self.first.checkpoint(max(0, self.begun - LAST))
            self.second.checkpoint(max(0, self.begun - LAST))
            self.counts["checkpoints"] += 2
            time.sleep(min(self.source.uniform(0, PAUSE), max(0, end - time.monotonic())))

    def round(self):
        self.link = Link(self.first, self.second)
        clients = [Client(self.tables, number, ends, self.source.random())
                   for number, ends in enumerate(self.first.ends)]
        if self.source.random() < DISTURBED:
            self.fold(self.source.uniform(0, self.words.seconds))
            self.link.kill()
            self.counts["links"] += 1
            self.link = Link(self.first, self.second)
        self.fold(self.source.uniform(0, self.words.seconds))
        self.first.server.process.send_signal(signal.SIGKILL)
        self.link.kill()
        self.first.kill()
        for client in clients:
            client.join(PATIENCE)
        self.judge(clients)
        self.promote()
        self.counts["kills"] += 1

    def judge(self, clients):
        """The second has all that was told, its commits are the first ones of the first, and so are its answers."""
        mine, had = self.first.changes(self.begun)
        other, taken = self.second.changes(self.begun)
        told = max(client.told for client in clients)
        if told > taken:
            raise Disagreement(f"commit {told} was told, and the second has {taken}")
        begins = "".join(line for line in mine.splitlines(keepends=True) if int(line.partition("|")[0]) <= taken)
        if begins != other or had < taken:
            raise Disagreement(f"the second's {taken} commits are no beginning of the first's {had}")
        at = self.source.randint(self.begun, taken)
        if self.first.answers(at) != self.second.answers(at):
            raise Disagreement(f"after {at} commits the two answer differently")
        self.counts["told"] += sum(client.count for client in clients)
        self.counts["sent"], self.begun = self.counts["sent"] + taken - self.begun, taken
        self.counts["unsent"] += had - taken

    def promote(self):
        """The second is the first of a new one, which begins as a copy of its store."""
        self.second.kill()
        if not self.words.keep:
            shutil.rmtree(self.first.folder)
        self.first, self.second = self.second, self.copy_of(self.second)
        self.first.start(is_confirmed=True)


def stores(words, folder):
    trial, began = Trial(words, folder), time.monotonic()
    try:
        while trial.counts["kills"] < words.kills:
            trial.round()
            if trial.counts["kills"] % 10 == 0:
                print(f"{trial.counts['kills']} kills: {trial.begun:,} commits", file=sys.stderr, flush=True)
        counts = trial.counts
        print(f"{counts['kills']} kills of the first and its link in {(time.monotonic() - began) / 60:.1f} minutes; "
              f"before, the link alone was killed {counts['links']} times; {counts['checkpoints']} checkpoints beside")
        print(f"told {counts['told']:,} commits, of which 0 are missing; the second had {counts['sent']:,}, each the "
              f"one of the first, which had {counts['unsent']:,} more that were not told; {machine()}", flush=True)
    finally:
        trial.end()
