"""What a store takes, for `serve --store`: its starts, the turns of its segments, and checkpoints beside its server."""
import os
import pathlib
import shutil
import statistics
import subprocess
import tempfile
import time

from common import LIVE, NAMES, WORK, machine, make_tables, say
from judge import Disagreement
from pipes import PATIENCE, Asker, Flood, Server, in_turn
from traffic import Tables

BEHIND = 250_000        # commits behind the newest tables, as many as a segment has where nothing is said
SHORT = 1_000           # commits of a segment, where turns are measured: the least
NEAR = 2                # receipts before a turn and behind it, among which the one that waits for it is
STARTS = 3              # of which the middle counts
LONGER = 3              # times as many refreshes are sent beside a checkpoint as it folds, so that it ends before them
FIRST_KEY = 10**12


def most_megabytes(process):
    with open(f"/proc/{process.pid}/status") as status:
        return next(int(line.split()[1]) for line in status if line.startswith("VmHWM")) / 1024


class Stored:
    """A store in a folder, and servers of it, one after another; each client's keys are new."""

    def __init__(self, data, folder, name):
        self.folder, self.store, self.key = folder, folder / name, FIRST_KEY
        self.tables, self.flood = Tables(data), Flood(folder)
        self.run("store", "--data", data, "--store", self.store)

    def run(self, *words):
        """Runs a command to its end: its seconds, those of all its processors, and its most megabytes."""
        began = time.monotonic()
        process = subprocess.Popen([LIVE, *map(str, words), "--quiet"])
        _, status, usage = os.wait4(process.pid, 0)
        process.returncode = os.waitstatus_to_exitcode(status)
        if process.returncode:
            raise Disagreement(f"{words[0]} has status {process.returncode}")
        return time.monotonic() - began, usage.ru_utime + usage.ru_stime, usage.ru_maxrss / 1024

    def serve(self, work, *words):
        ends = pathlib.Path(tempfile.mkdtemp(prefix="pipes-", dir=self.folder))
        server = Server(None, ends, 1, "--store", self.store, *map(str, words))
        try:
            done = work(server)
            if server.end() or server.told():
                raise Disagreement(f"serve ended so: {server.told().strip()}")
            return done
        finally:
            server.stop()

    def text(self, count):
        self.key += count
        return in_turn(self.tables, self.key, count)

    def send(self, count, segment):
        """Sends so many refreshes ahead: the seconds."""
        text = self.text(count)
        return self.serve(lambda server: self.flood.end(self.flood.start(server.ends, [text]), count),
                          "--segment", segment)

    def turn(self, segment):
        """Has the store go on in a new segment, where it has as many commits as one may have: so its last is closed."""
        text = self.text(NEAR)
        self.serve(lambda server: self.flood.receipts(server.ends[0], text, PATIENCE), "--segment", segment)

    def start(self):
        """The seconds from the start to the first answer, and the most megabytes until then: the middle of some."""
        def work(server):
            client = Asker(server.ends[0])
            client.ask(f"query|{NAMES[0]}\n".encode())
            ended, most = time.monotonic(), most_megabytes(server.process)
            client.close()
            return ended, most

        def once():
            began = time.monotonic()
            ended, most = self.serve(work)
            return ended - began, most
        return tuple(map(statistics.median, zip(*(once() for _ in range(STARTS)))))

    def turns(self, seconds):
        """The milliseconds of receipts that a client waits for, and for each turn the longest of those near it."""
        text = self.text(int(seconds * 30_000))
        times = self.serve(lambda server: self.flood.receipts(server.ends[0], text, seconds), "--segment", SHORT)
        near = [times[turn - NEAR:turn + NEAR] for turn in range(SHORT, len(times) - NEAR, SHORT)]
        return times, [max(some) for some in near]

    def beside(self, count, alone, segment):
        """Sends so many refreshes ahead while a checkpoint folds: the refreshes a second while it runs, where `alone`
        is how many a server gets without it, and what the checkpoint took."""
        text = self.text(count)

        def work(server):
            flood = self.flood.start(server.ends, [text])
            took = self.run("checkpoint", "--store", self.store)
            return self.flood.end(flood, count), took
        seconds, took = self.serve(work, "--segment", segment)
        if seconds < took[0]:
            raise Disagreement("the refreshes ended before the checkpoint; --refreshes N for more")
        return (count - alone * (seconds - took[0])) / took[0], took


def percentile(times, share):
    return sorted(times)[min(len(times) - 1, int(len(times) * share))]


def print_stored(words):
    folder = pathlib.Path(tempfile.mkdtemp(prefix="store-", dir=WORK))
    data = make_tables(words.scale)
    say("starts")
    stored = Stored(data, folder, "starts")
    rows = [("a start over the tables alone", stored.start())]
    stored.send(BEHIND, BEHIND * 2)
    rows.append((f"a start, {BEHIND:,} commits behind the tables", stored.start()))
    say("turns")
    times, near = Stored(data, folder, "turns").turns(words.seconds)
    say("checkpoints")
    stored = Stored(data, folder, "checkpoints")
    count = words.refreshes
    alone = count / stored.send(count, count * 2)
    stored.turn(count)
    rate, took = stored.beside(LONGER * count, alone, LONGER * count * 2)
    rows.append((f"a start, {LONGER * count:,} commits behind newer tables", stored.start()))
    print(f"| a store, scale {words.scale} | seconds | most memory, MB |")
    print("|---|--:|--:|")
    for title, (seconds, most) in rows:
        print(f"| {title} | {seconds:.2f} | {most:,.0f} |")
    print(f"| a checkpoint of {count:,} commits | {took[0]:.1f}, {took[1]:.1f} of processors | {took[2]:,.0f} |")
    print(f"\nA client that waits for each receipt: {statistics.median(times):.3f} ms in the middle, "
          f"{percentile(times, 0.99):.3f} at the 99th percentile; the longest near each of {len(near)} turns "
          f"{statistics.median(near):.3f} and {percentile(near, 0.99):.3f}. One that sends ahead: {alone:,.0f} "
          f"refreshes a second alone, {rate:,.0f} beside a checkpoint ({rate / alone:.2f}). {machine()}; load average "
          f"at the end {os.getloadavg()[0]:.1f}.")
    shutil.rmtree(folder)
