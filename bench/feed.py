#!/usr/bin/env python3
"""cluster feed --data DIR --journal FILE --to HOST:PORT [--to HOST:PORT ..] [WORD..]
cluster feed --data DIR --over COMMAND --to HOST:PORT [--to HOST:PORT ..] [WORD..]
cluster feed --store FOLDER --to HOST:PORT [--to HOST:PORT ..] [WORD..]

Feeds a cluster of ClickHouse servers with what each commit of a journal or a store brought and took away, as it grows,
beside the server that writes it. Each of them has the tables of signed_clickhouse.sql and signed_shards_clickhouse.sql.
It is one file, over the standard library of Python 3.8 or later: `feed.py WORD..` is the same command.

  --data DIR       the tables of the server that has the journal
  --journal FILE   its journal, which is copied where it has grown; the feed runs on the machine that FILE is on
  --over COMMAND   else a shell's command that writes the journal's groups as they come, as `ssb_live ship` does
  --store FOLDER   else the store of the server; its checkpoints have to keep what is not taken yet
  --to HOST:PORT   where a server of the cluster takes requests over HTTP; all of them are told, and the lines go in at
                   the first, which hands each order's to its server
  --every MS       between two looks for new commits (by default 100)
  --once           takes the commits that there are, or that COMMAND writes until it ends, and ends
  --program FILE   our program (by default `ssb_live`)
  --quiet          tells only why it ends

`taken N` on standard output: all servers have the lines of the first N commits, and the loaded ones. On the cluster
itself `SELECT max(commit_number) FROM taken` tells it, on any server: reports as of that commit and of all before it
are whole. A later start goes on from there. It first deletes what was taken in behind that commit, by a feed that was
ended inside its work. One feed at a time.

  status 0   a signal (INT, TERM) ended it; with --once: all is taken
         1   a person has to look: `changes` has a fault, a server refuses a statement
         2   wrong words
         3   a server or COMMAND is gone: start it again, and it goes on
"""
import argparse
import http.client
import os
import pathlib
import re
import shutil
import signal
import subprocess
import sys
import tempfile
import threading
import time
import urllib.parse

LINES, PART = "signed_lines", "signed_lines_part"
GROUP, GROUP_BYTES = re.compile(rb"([01]) (\d{15})\n"), 18      # the head of a group of a journal
COMMITS = re.compile(r"ssb_live: (?:journal|store): (\d+) commits")
SEGMENT = "journal."        # what the name of a segment begins with
INSERTS = f"SELECT count() FROM system.processes WHERE query LIKE 'INSERT INTO%{LINES}%'"
DELETES = f"SELECT count() FROM system.mutations WHERE table = '{PART}' AND is_done = 0"
LIFE = b"1 000000000000033\nd41d8cd98f00b204e9800998ecf8427e\n"      # of `ship`, where no commits come
PATIENCE = 600              # seconds that a server may take for a request
TICK = 0.02                 # seconds between two looks for what a server does


class Stop(Exception):
    """Why the feed ends, with its status."""
    status = 1


class Cut(Stop):
    status = 3


class Server:
    """A server of the cluster, asked over HTTP."""

    def __init__(self, place):
        self.place = place
        self.host, _, self.port = place.rpartition(":")

    def post(self, statement, lines=None, **words):
        """The text of a statement's reply; `lines` are an open file that it takes in."""
        if lines is not None:
            words["query"] = statement
        connection = http.client.HTTPConnection(self.host, int(self.port), timeout=PATIENCE, blocksize=1 << 20)
        try:
            connection.request("POST", "/?" + urllib.parse.urlencode(words), lines or statement.encode())
            reply = connection.getresponse()
            text = reply.read().decode(errors="replace").strip()
        except (OSError, http.client.HTTPException) as why:
            raise Cut(f"{self.place}: {why}") from None
        finally:
            connection.close()
        if reply.status != 200:
            raise Stop(f"{self.place}: {text}")
        return text

    def await_none(self, counting):
        """Until the server does nothing that the statement counts."""
        while self.post(counting) != "0":
            time.sleep(TICK)

    def delete_behind(self, taken):
        """Deletes the lines of the commits behind so many, or all; and gives how many these were."""
        which = "1" if taken is None else f"commit_number > {taken}"
        count = int(self.post(f"SELECT count() FROM {PART} WHERE {which}"))
        if count:
            self.post(f"ALTER TABLE {PART} DELETE WHERE {which}")
            self.await_none(DELETES)
        return count


def has_head(copy):
    """Whether the first group is there whole and counts, or something is there that is none."""
    size = copy.stat().st_size
    with open(copy, "rb") as file:
        found = GROUP.match(file.read(GROUP_BYTES))
    return size >= GROUP_BYTES and (not found or found[1] == b"1" and size >= GROUP_BYTES + int(found[2]))


class Stored:
    """A store, read beside its server."""

    def __init__(self, folder):
        self.folder, self.state = folder, None

    def look(self):
        """Whether its segments have other bytes than at the last look."""
        try:
            with os.scandir(self.folder) as files:
                state = {(file.name, file.stat().st_size, file.stat().st_mtime_ns) for file in files
                         if file.name.startswith(SEGMENT)}
        except FileNotFoundError:
            return False        # a checkpoint has deleted one meanwhile
        except OSError as why:
            raise Stop(f"{self.folder}: {why.strerror}") from None
        is_new = state != self.state
        self.state = state
        return is_new

    def is_begun(self):
        return True

    def words(self):
        """What `changes` reads."""
        return ["--store", self.folder]

    def end(self):
        pass


class Kept:
    """A copy of a journal over tables."""

    def __init__(self, data, folder):
        self.data, self.copy = data, folder / "journal"

    def is_begun(self):
        return has_head(self.copy)

    def words(self):
        return ["--data", self.data, "--journal", self.copy]


class Copied(Kept):
    """The journal, and a copy of it that is made anew where it has grown."""

    def __init__(self, path, data, folder):
        super().__init__(data, folder)
        self.path, self.state = path, None

    def look(self):
        """Whether it has other bytes than at the last look. They are on the disk, and in the copy."""
        try:
            with open(self.path, "rb") as file:
                found = os.fstat(file.fileno())
                state = found.st_ino, found.st_size, found.st_mtime_ns
                if state == self.state:
                    return False
                shutil.copyfile(self.path, self.copy)
                os.fdatasync(file.fileno())
        except OSError as why:
            raise Stop(f"{self.path}: {why.strerror}") from None
        self.state = state
        return True

    def end(self):
        pass


class Streamed(Kept):
    """What a command writes of the journal, kept in a file as it comes. The command ends with the feed, which reads its
    output."""

    def __init__(self, command, data, folder, is_once):
        super().__init__(data, folder)
        self.size = 0
        self.copy.touch()
        self.process = subprocess.Popen(command, shell=True, stdin=subprocess.DEVNULL, stdout=subprocess.PIPE,
                                        bufsize=0)
        self.keeper = threading.Thread(target=self.keep, daemon=True)
        self.keeper.start()
        if is_once:
            self.keeper.join()

    def keep(self):
        with open(self.copy, "wb", buffering=0) as out:
            shutil.copyfileobj(self.process.stdout, out)

    def look(self):
        """Whether more has come than signs of life."""
        has_ended = not self.keeper.is_alive()
        with open(self.copy, "rb") as file:
            file.seek(self.size)
            come = file.read()
        if has_ended and not come:
            raise Cut(f"the command has ended with {self.process.wait()}")
        self.size += len(come)
        return come != LIFE * (len(come) // len(LIFE))

    def end(self):
        self.process.terminate()


class Feed:
    """`taken` is how many commits all servers have; none where they lack the loaded lines too."""

    def __init__(self, words, folder):
        self.words, self.rows = words, folder / "rows"
        self.servers = [Server(place) for place in words.to]
        if words.store:
            self.source = Stored(words.store)
        elif words.journal:
            self.source = Copied(words.journal, words.data, folder)
        else:
            self.source = Streamed(words.over, words.data, folder, words.once)

    def tell(self, text):
        if not self.words.quiet:
            print(f"feed: {text}", file=sys.stderr, flush=True)

    def run(self):
        try:
            self.begin()
            while True:
                if self.source.look() and self.source.is_begun():
                    self.take()
                if self.words.once:
                    return
                time.sleep(self.words.every / 1000)
        finally:
            self.source.end()

    def begin(self):
        """What is there of an earlier feed: its number counts, and what it took in behind that is deleted, once no
        server is still at it."""
        count, number = map(int, self.servers[0].post("SELECT count(), max(commit_number) FROM taken").split("\t"))
        self.taken = number if count else None
        for server in self.servers:
            server.await_none(INSERTS)
        left = sum(server.delete_behind(self.taken) for server in self.servers)
        if left:
            self.tell(f"{left} lines of commits that were not taken whole are deleted")
        self.tell("nothing is taken yet" if self.taken is None else f"{self.taken} commits are taken")

    def take(self):
        """Takes in what is new."""
        reached = self.write_changes()
        if reached == self.taken:
            return
        into = self.servers[0]
        with open(self.rows, "rb") as rows:
            into.post(f"INSERT INTO {LINES} FORMAT CSV", rows, format_csv_delimiter="|", insert_distributed_sync=1)
        into.post(f"INSERT INTO taken VALUES ({reached})", insert_distributed_sync=1)
        self.taken = reached
        print(f"taken {reached}", flush=True)

    def write_changes(self):
        """Writes the signed lines that are not taken yet; gives how many commits they reach to."""
        behind = ["--base"] if self.taken is None else ["--after", str(self.taken)]
        words = [self.words.program, "changes", *self.source.words(), *behind]
        with open(self.rows, "wb") as rows:
            done = subprocess.run(words, stdin=subprocess.DEVNULL, stdout=rows, stderr=subprocess.PIPE, text=True)
        found = COMMITS.search(done.stderr)
        if done.returncode or not found:
            raise Stop(done.stderr.strip() or f"`changes` has ended with {done.returncode}")
        return int(found[1])


def read_words(words):
    parser = argparse.ArgumentParser(usage=__doc__, add_help=False)
    parser.add_argument("--data")
    parser.add_argument("--journal")
    parser.add_argument("--over")
    parser.add_argument("--store")
    parser.add_argument("--to", action="append", default=[])
    parser.add_argument("--every", type=float, default=100)
    parser.add_argument("--once", action="store_true")
    parser.add_argument("--program", default="ssb_live")
    parser.add_argument("--quiet", action="store_true")
    parser.add_argument("--help", "-h", action="store_true")
    return parser.parse_args(words)


def main(given):
    words = read_words(given)
    if words.help:
        print(__doc__)
        return 0
    are_places = all(re.fullmatch(r".+:\d+", place) for place in words.to)
    sources = [source for source in (words.journal, words.over, words.store) if source]
    has_tables = bool(words.data) != bool(words.store)
    if not (words.to and are_places and has_tables) or len(sources) != 1 or words.every <= 0:
        print(__doc__, file=sys.stderr)
        return 2
    signal.signal(signal.SIGTERM, signal.default_int_handler)
    try:
        with tempfile.TemporaryDirectory(prefix="feed-") as folder:
            Feed(words, pathlib.Path(folder)).run()
    except Stop as why:
        print(f"feed: {why}", file=sys.stderr)
        return why.status
    except KeyboardInterrupt:
        pass
    return 0


if __name__ == "__main__":
    sys.exit(main(sys.argv[1:]))
