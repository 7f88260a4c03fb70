"""The peers of `serve --journal`: PostgreSQL and SQLite, whose commits wait for the disk.

    missing()               the Debian package that is to be installed first, or None
    start(data)             starts the peer with the tables of a folder
    receipts(tables, s)     the seconds that each refresh of one client took, which waits for it, for s seconds
    sixteen(tables, count)  the refreshes a second of sixteen clients with so many each
    stop()                  ends what start() started

A refresh adds an order of one line; the peers check what our server checks."""
import concurrent.futures
import os
import sqlite3
import statistics
import subprocess
import time

from common import HERE
from peers import PEERS as LOADED
from pipes import refreshes

CLIENTS = 16
FIRST_KEY = 10**12          # of the sixteen; those of the one follow from ten times that on
CHECKED = [("customer", "c_custkey", 2), ("supplier", "s_suppkey", 4), ("part", "p_partkey", 3),
           ("dwdate", "d_datekey", 5)]
SYNCS = 200


def orders(tables, first, count):
    """The fields of the lines of so many orders, as our server is told them."""
    text = refreshes(tables, first, count).decode()
    return [line.split("|")[1:] for line in text.split("\n") if line.startswith("line|")]


def seconds_of_a_sync(folder):
    """The middle of some writes of 300 bytes, each with its fdatasync."""
    file = os.open(folder / "sync", os.O_WRONLY | os.O_CREAT)
    times = []
    for _ in range(SYNCS):
        start = time.perf_counter()
        os.write(file, b"x" * 299 + b"\n")
        os.fdatasync(file)
        times.append(time.perf_counter() - start)
    os.close(file)
    return statistics.median(times)


class Durable:
    def __init__(self, folder):
        self.peer = LOADED[self.name](folder / self.name, os.cpu_count())
        self.title = self.peer.title

    def missing(self):
        return self.peer.missing()

    def start(self, data):
        self.peer.folder.mkdir()
        self.peer.start()
        self.peer.load(data)
        self.prepare()

    def stop(self):
        self.peer.stop()

    def receipts(self, tables, seconds):
        write, times, end = self.writing(), [], time.monotonic() + seconds
        while time.monotonic() < end:
            work = self.prepared(orders(tables, 10 * FIRST_KEY + len(times), 1))[0]
            start = time.perf_counter()
            write(work)
            times.append(time.perf_counter() - start)
        return times

    def sixteen(self, tables, count):
        works = [self.prepared(orders(tables, FIRST_KEY + place * count, count)) for place in range(CLIENTS)]
        with concurrent.futures.ThreadPoolExecutor(CLIENTS) as pool:
            start = time.monotonic()
            for _ in pool.map(self.write_all, works):
                pass
            return count * CLIENTS / (time.monotonic() - start)


class Postgres(Durable):
    """Through psql: one statement and one transaction a refresh."""
    name = "pg"

    def prepare(self):
        self.peer.rows((HERE / "refresh_pg.sql").read_text())
        settings = self.peer.rows("SHOW synchronous_commit;") + self.peer.rows("SHOW fsync;")
        if settings != ["on", "on"]:
            raise RuntimeError("PostgreSQL does not wait for the disk")

    @staticmethod
    def prepared(lines):
        def literal(field):
            return field if field.isdigit() else f"'{field}'"
        return [f"SELECT add_order(ARRAY[({','.join(map(literal, line))})::lineorder]);\n" for line in lines]

    def writing(self):
        return self.peer.rows

    def write_all(self, work):
        command = ["psql", "-XqAt", "-v", "ON_ERROR_STOP=1", "-h", self.peer.folder, "-U", "postgres", "postgres"]
        client = subprocess.Popen(command, stdin=subprocess.PIPE, stdout=subprocess.DEVNULL, text=True)
        client.communicate("".join(work))
        if client.returncode:
            raise RuntimeError("PostgreSQL: a refresh failed")


class Sqlite(Durable):
    """Through Python's sqlite3, over the write-ahead log, which each commit syncs; one writer at a time."""
    name = "sqlite"

    def prepare(self):
        self.peer.rows("PRAGMA journal_mode = WAL;")

    @staticmethod
    def prepared(lines):
        return lines

    def connect(self):
        base = sqlite3.connect(self.peer.folder / "base", isolation_level=None, timeout=600, check_same_thread=False)
        base.execute("PRAGMA synchronous = FULL")
        return base

    @staticmethod
    def add(base, line):
        base.execute("BEGIN IMMEDIATE")
        if base.execute("SELECT EXISTS (SELECT 1 FROM lineorder WHERE lo_orderkey = ?)", line[:1]).fetchone()[0]:
            raise RuntimeError("41 Present")
        for table, key, place in CHECKED:
            if not base.execute(f"SELECT EXISTS (SELECT 1 FROM {table} WHERE {key} = ?)", (line[place],)).fetchone()[0]:
                raise RuntimeError(f"unknown {table}")
        base.execute(f"INSERT INTO lineorder VALUES ({','.join('?' * len(line))})", line)
        base.execute("COMMIT")

    def writing(self):
        base = self.connect()
        return lambda line: self.add(base, line)

    def write_all(self, work):
        base = self.connect()
        for line in work:
            self.add(base, line)
        base.close()


PEERS = [Postgres, Sqlite]
