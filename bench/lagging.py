"""How far a second server is behind, for `follow --lag`: ours over the link, and PostgreSQL with a standby, in turn."""
import bisect
import collections
import os
import shutil
import signal
import statistics
import subprocess
import threading
import time

from common import machine, make_tables, say
from durable import Postgres, seconds_of_a_sync
from followed import CLIENTS, Link, Machine
from judge import Disagreement
from peers import PEERS as LOADED, await_answer
from pipes import PATIENCE, Asker, Flood, line_end, refreshes
from traffic import Tables

RATE = 1000             # commits a second of the client that is followed one by one
EACH = {"ours": 10_000, "peer": 500}        # refreshes of each of sixteen that send ahead, in a turn
ALONE = 100_000         # refreshes of the one that sends ahead to a server that nobody follows
WAITING = 20_000        # refreshes a second that one client is given to send, which waits for each
FIRST_KEY = 10**12      # of the first orders that are added
KEYS = 10**8            # that a figure has for itself
BETWEEN = 0.0002        # seconds between two looks at the standby
POSITION = "pg_current_wal_insert_lsn() - '0/0'"
LOOK = ("SELECT extract(epoch FROM clock_timestamp()), flush_lsn - '0/0', replay_lsn - '0/0' "
        f"FROM pg_stat_replication;\nSELECT pg_sleep({BETWEEN});\n")
LEVELS = ["local", "remote_write", "on", "remote_apply"]        # for what a commit waits: `synchronous_commit`


class Keys:
    """The first keys of orders that nobody has added."""

    def __init__(self):
        self.next = FIRST_KEY

    def take(self):
        self.next += KEYS
        return self.next - KEYS


def paced(seconds):
    """The numbers of so many turns, each at its time."""
    begin = time.perf_counter()
    for number in range(int(seconds * RATE)):
        time.sleep(max(0, begin + number / RATE - time.perf_counter()))
        yield number


# ---- ours ----

class Pair:
    """A first server, a second and the link between them; the first tells what is confirmed, or all."""

    def __init__(self, data, folder, ships, is_confirmed):
        folder.mkdir()
        self.is_confirmed, self.told, self.times, self.link = is_confirmed, folder / "told", [], None
        self.first, self.second = Machine(data, folder / "first", ships=ships), Machine(data, folder / "second")
        os.mkfifo(self.told)

    def start(self):
        self.first.start(is_confirmed=self.is_confirmed)
        self.second.start()
        self.link = Link(self.first, self.second, "--told", self.told)
        threading.Thread(target=self.listen, daemon=True).start()
        self.link.await_line("as they come")

    def listen(self):
        """Takes the time at which the second told of each commit."""
        with open(self.told, "rb") as told:
            for line in told:
                self.times.append(time.perf_counter())
                if line != b"committed %d\n" % len(self.times):
                    raise Disagreement(f"the second told {line} behind {len(self.times) - 1} commits")

    def await_times(self, count):
        end = time.monotonic() + PATIENCE
        while len(self.times) < count:
            if time.monotonic() > end or self.link.process.poll() is not None:
                raise Disagreement(f"the second has told of {len(self.times)} commits of {count}: {self.link.told()!r}")
            time.sleep(0.001)

    def stop(self):
        if self.link:
            self.link.kill()
        self.first.kill()
        self.second.kill()


class Ours:
    title = "ssb_live, `follow link`"

    def __init__(self, data, folder, words):
        self.tables, self.flood, self.keys, self.seconds = Tables(data), Flood(folder), Keys(), words.seconds
        self.pair = Pair(data, folder / "pair", words.ship, False)
        self.confirmed = Pair(data, folder / "confirmed", words.ship, True)
        self.alone = Machine(data, folder / "alone")

    def start(self):
        for one in (self.pair, self.confirmed, self.alone):
            one.start()

    def stop(self):
        for one in (self.pair, self.confirmed):
            one.stop()
        self.alone.kill()

    def measure(self, note):
        """A turn: takes note of each figure by its name."""
        note("behind", *self.behind())
        given, followed = self.ahead()
        note("given", given)
        note("followed", followed)
        note("alone", self.send([self.alone.ends[0]], ALONE)[0])
        note("local", *self.receipts(self.pair))
        note("on", *self.receipts(self.confirmed))

    def behind(self):
        """The milliseconds between the two receipts of each commit of one client."""
        before, first = len(self.pair.times), self.keys.take()
        client, told = Asker(self.pair.first.ends[1]), []
        for number in paced(self.seconds):
            client.ask(refreshes(self.tables, first + number, 1))
            told.append(time.perf_counter())
        client.close()
        self.pair.await_times(before + len(told))
        return [1000 * (there - here) for here, there in zip(told, self.pair.times[before:])]

    def send(self, ends, count):
        """Clients send ahead, so many refreshes each: gives how many a second were told, and when the first began."""
        texts = [refreshes(self.tables, self.keys.take(), count) for _ in ends]
        started = self.flood.start(ends, texts)
        try:
            seconds = self.flood.end(started, count * len(ends))
        finally:
            started.kill()
        return count * len(ends) / seconds, time.perf_counter() - seconds

    def ahead(self):
        """The commits a second of sixteen clients, of the first and followed by the second."""
        before, count = len(self.pair.times), CLIENTS * EACH["ours"]
        rate, began = self.send(self.pair.first.ends, EACH["ours"])
        self.pair.await_times(before + count)
        return rate, count / (self.pair.times[-1] - began)

    def receipts(self, pair):
        """The milliseconds of each refresh of one client, which waits for its receipt."""
        text = refreshes(self.tables, self.keys.take(), int(WAITING * self.seconds))
        return self.flood.receipts(pair.first.ends[1], text, self.seconds)


# ---- PostgreSQL ----

class Standby(Postgres):
    """PostgreSQL with a standby by streaming replication, on this machine. What a commit waits for, its session says;
    its clients are those of pgbench, but for the one that is followed one by one."""

    def __init__(self, data, folder, words):
        super().__init__(folder)
        self.data, self.folder, self.keys, self.seconds = data, folder / "standby", Keys(), words.seconds
        self.server = None
        fields = line_end(Tables(data)).strip().split("|")[1:]
        self.line = ",".join(field if field.isdigit() else f"'{field}'" for field in fields)
        self.title = f"{self.title}, streaming replication"

    def start(self):
        super().start(self.data)
        self.folder.mkdir()
        user = []
        if os.getuid() == 0:
            shutil.chown(self.folder, "postgres")
            user = ["setpriv", "--reuid=postgres", "--regid=postgres", "--init-groups"]
        base, programs = self.folder / "base", self.peer.programs()
        subprocess.run([*user, programs / "pg_basebackup", "-h", self.peer.folder, "-U", "postgres", "-D", base, "-R",
                        "-c", "fast"], check=True, cwd="/")
        with open(self.folder / "log", "w") as log:
            self.server = subprocess.Popen([*user, programs / "postgres", "-D", base, "-clisten_addresses=",
                                            f"-cunix_socket_directories={self.folder}"], stderr=log, cwd="/")
        self.await_state("streaming", "state")
        self.peer.rows("ALTER SYSTEM SET synchronous_standby_names = '*'; SELECT pg_reload_conf();")
        self.await_state("sync", "sync_state")
        self.peer.rows("SET synchronous_commit = local;")

    def await_state(self, state, column):
        await_answer(lambda: self.peer.rows(f"SELECT {column} FROM pg_stat_replication;") == [state], self.title)

    def stop(self):
        if self.server:
            self.server.send_signal(signal.SIGINT)
            self.server.wait()
        super().stop()

    def measure(self, note):
        """A turn: takes note of each figure by its name."""
        flushed, replayed = self.behind()
        note("behind", *flushed)
        note("replayed", *replayed)
        given, followed = self.ahead()
        note("given", given)
        note("followed", followed)
        for level in LEVELS:
            note(level, *self.bench(level, 1, "-T", str(max(1, int(self.seconds)))))

    def statement(self, key):
        return f"SELECT add_order(ARRAY[({key},1,{self.line})::lineorder]);\n"

    def words(self, program):
        return [program, "-h", self.peer.folder, "-U", "postgres"]

    def behind(self):
        """The milliseconds from the receipt of each commit of one client to where it is on the standby's disk, and to
        where the standby has it in its tables."""
        first, told, looks = self.keys.take(), [], self.folder / "looks"
        script = self.folder / "look.sql"
        script.write_text(LOOK * int((self.seconds + PATIENCE) / BETWEEN / 4))
        with open(looks, "w") as out:
            looking = subprocess.Popen([*self.words("psql"), "-XqAtF", " ", "-f", script, "postgres"], stdout=out)
        try:
            for number in paced(self.seconds):
                position = self.peer.rows(f"{self.statement(first + number)}SELECT {POSITION};")[-1]
                told.append((time.time(), int(position)))
            time.sleep(1)
        finally:
            looking.kill()
            looking.wait()
        return times_behind(told, looks.read_text())

    def await_flushed(self):
        """Until the standby has told that all of now is on its disk."""
        place = self.peer.rows("SELECT pg_current_wal_flush_lsn();")[0]
        while self.peer.rows(f"SELECT flush_lsn >= '{place}' FROM pg_stat_replication;") != ["t"]:
            pass

    def ahead(self):
        """The commits a second of sixteen clients, and those on the standby's disk."""
        count, began = CLIENTS * EACH["peer"], time.perf_counter()
        self.bench("local", CLIENTS, "-t", str(EACH["peer"]))
        given = time.perf_counter() - began
        self.await_flushed()
        return count / given, count / (time.perf_counter() - began)

    def bench(self, level, clients, *words):
        """The milliseconds of each refresh of so many clients, which wait for each."""
        script, log = self.folder / "bench.sql", self.folder / "bench"
        script.write_text("\\set n :n + 1\n\\set key :first + :client_id * 1000000 + :n\n"
                          + self.statement(":key::bigint"))
        subprocess.run([*self.words(self.peer.programs() / "pgbench"), "-n", "-M", "prepared", "-c", str(clients), "-j",
                        str(min(clients, os.cpu_count())), *words, "-D", "n=0", "-D", f"first={self.keys.take()}", "-f",
                        script, "-l", f"--log-prefix={log}", "postgres"], check=True, stdout=subprocess.DEVNULL,
                       stderr=subprocess.DEVNULL, env={**os.environ, "PGOPTIONS": f"-c synchronous_commit={level}"})
        times = []
        for part in self.folder.glob("bench.*[0-9]"):
            times += [int(line.split()[2]) / 1000 for line in part.read_text().splitlines()]
            part.unlink()
        return times


def times_behind(told, looks):
    """For each commit, by when it was told and where it stands in the log, the milliseconds until a look found it on
    the disk, and until one found it replayed."""
    seen = [line.split(" ") for line in looks.split("\n")[:-1] if line.count(" ") == 2]
    when = [float(look[0]) for look in seen]
    found = []
    for column in (1, 2):
        places = [int(look[column]) for look in seen]
        at = [bisect.bisect_left(places, place) for _, place in told]
        if at[-1] == len(places):
            raise Disagreement("the standby has not come to the last commit")
        found.append([1000 * (when[place] - moment) for (moment, _), place in zip(told, at)])
    return found


# ---- the table ----

def middle_and_most(times):
    times = sorted(times)
    return f"{statistics.median(times):.2f}, {times[int(len(times) * 0.99)]:.2f}"


def row(title, ours="", theirs=""):
    print(f"| {title} | {ours} | {theirs} |")


def print_rates(ours, theirs, middle):
    def rate(figures, name):
        return f"{middle(figures, name):,.0f}" if figures else ""
    row("sixteen that send ahead, commits a second", rate(ours, "given"), rate(theirs, "given"))
    row("of these the second follows, a second", rate(ours, "followed"), rate(theirs, "followed"))
    row("one that sends ahead to a server that nobody follows, a second", rate(ours, "alone"))
    row("what the second follows, divided by that", f"{middle(ours, 'followed') / middle(ours, 'alone'):.2f}")


def print_table(ours, theirs):
    def middle(figures, name):
        return statistics.median(figures[name])

    def both(name):
        return middle_and_most(ours[name]), middle_and_most(theirs[name]) if theirs else ""
    print(f"| ms: middle, 99th percentile | {Ours.title} | PostgreSQL, streaming replication |\n|---|--:|--:|")
    row(f"{RATE:,} commits a second, from the receipt of each to that by the second, on its disk", *both("behind"))
    row("the same, to where the second can be asked", "the same", middle_and_most(theirs["replayed"]) if theirs else "")
    print_rates(ours, theirs, middle)
    row("one that waits for each receipt", *both("local"))
    row("the same, and each is on the second's disk (`--confirmed`; `synchronous_commit=on`)", *both("on"))
    if theirs:
        row("the same, `remote_write`", "", middle_and_most(theirs["remote_write"]))
        row("the same, `remote_apply`: the second can be asked", "the same", middle_and_most(theirs["remote_apply"]))
        ratios = [f"{middle(ours, 'on') / middle(theirs, level):.2f}" for level in ("on", "remote_apply")]
        row("the middle where each is on both disks, divided by PostgreSQL's `on`, `remote_apply`", ", ".join(ratios))


def lag(words, folder):
    data = make_tables(words.scale)
    folder.chmod(0o755)             # PostgreSQL's own user has to come through
    servers = [Ours(data, folder, words)]
    if LOADED[Postgres.name].missing():
        say("missing: PostgreSQL (apt-get install postgresql-15); the link alone is measured")
    else:
        servers.append(Standby(data, folder, words))
    figures = [collections.defaultdict(list) for _ in servers]
    started = []
    try:
        for server in servers:
            started.append(server)
            server.start()
        for turn in range(words.turns):
            say(f"turn {turn + 1} of {words.turns}")
            for server, found in zip(servers, figures):
                server.measure(lambda name, *values, found=found: found[name].extend(values))
    finally:
        for server in started:
            server.stop()
    print_table(figures[0], figures[1] if len(figures) > 1 else None)
    print(f"\nscale {words.scale}, {words.turns} turns, all servers on one machine; a sync takes "
          f"{1000 * seconds_of_a_sync(folder):.3f} ms; {machine()}", flush=True)
