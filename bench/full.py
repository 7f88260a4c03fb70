"""Sessions of `ssb_live serve` whose journal can grow no more, for `sessions`: how each of them ends."""
import os
import resource
import signal
import subprocess
import time

from common import LIVE
from judge import Disagreement
from pipes import Server

LARGEST = 400               # bytes of a file: a journal's head, and no commit
LARGE = 1 << 20
AT_ONCE = 5                 # seconds in which all sessions, and the server, have to end
REFRESH = b"begin\nwithdraw|1\ncommit\n"
# What clients have done when a commit cannot be written: what each has sent, and which ends it has opened.
WAITING = [("idle", b"", "both"), ("in a request", b"begin\nwithdraw|2\n", "both"), ("in a line", b"query|Q1", "both"),
           ("with IN alone", b"", "in"), ("with OUT alone", b"", "out"), ("without its ends", b"", "")]


def limit_files(size):
    """Lets no file of a process grow beyond a size: a write beyond it fails."""
    def prepare():
        signal.signal(signal.SIGXFSZ, signal.SIG_IGN)
        resource.setrlimit(resource.RLIMIT_FSIZE, (size, resource.RLIM_INFINITY))
    return prepare


def open_ends(ends, which):
    """The ends that a client opens, of which it keeps the descriptors: none waits for the server."""
    opened = {}
    if which in ("both", "out"):
        opened["out"] = os.open(ends[1], os.O_RDONLY | os.O_NONBLOCK)
    if which in ("both", "in"):
        while "in" not in opened:
            try:
                opened["in"] = os.open(ends[0], os.O_WRONLY | os.O_NONBLOCK)
            except OSError:
                time.sleep(0.01)                # the server has not opened it yet
    return opened


def try_full_disk(data, folder):
    """A server whose journal cannot be written ends all sessions, those that wait too: the seconds that it takes."""
    folder.mkdir()
    server = Server(data, folder, 1 + len(WAITING), "--keep", "--new-journal", folder / "journal",
                    prepare=limit_files(LARGEST))
    try:
        opened = [open_ends(ends, which) for ends, (_, _, which) in zip(server.ends[1:], WAITING)]
        for ends, (_, text, _) in zip(opened, WAITING):
            if text:
                os.write(ends["in"], text)
        refreshing = open_ends(server.ends[0], "both")
        time.sleep(0.5)                         # until each session waits
        began = time.monotonic()
        os.write(refreshing["in"], REFRESH)
        status = server.end(AT_ONCE)
        seconds = time.monotonic() - began
        told = [os.read(ends["out"], LARGE) for ends in [refreshing, *opened] if "out" in ends]
        for ends in [refreshing, *opened]:
            for end in ends.values():
                os.close(end)
    finally:
        server.stop()
    if status != 4 or any(told) or not server.told().endswith("ssb_live: journal write failed\n"):
        raise Disagreement(f"a full disk: status {status}, told {told} and {server.told()!r}")
    return seconds


def try_read_only(data, folder):
    """A server that cannot keep what a crash has torn of its journal takes no refreshes, and answers questions."""
    folder.mkdir()
    journal = folder / "journal"
    words = [LIVE, "serve", "--data", data]
    run(words + ["--new-journal", journal], REFRESH)
    with open(journal, "ab") as file:
        file.write(b" 000000000000057\n26e3bdf5")
    before = journal.read_bytes()
    status, told, errors = run(words + ["--journal", journal], b"query|Q1.1\n" + REFRESH + b"query|Q1.1\n",
                               limit_files(0))
    first, fault, *second = told.partition(b"fault: 68 ReadOnly\n")
    if (status, fault != b"", second[0]) != (4, True, first) or b"read only" not in errors:
        raise Disagreement(f"a journal that cannot be written at a start: status {status}, {told!r}, {errors!r}")
    if journal.read_bytes() != before:
        raise Disagreement("a journal that is read alone was written")


def run(words, text, prepare=None):
    """The status of a server of one client, what it told the client, and its errors."""
    ran = subprocess.run(words, input=text, stdout=subprocess.PIPE, stderr=subprocess.PIPE, preexec_fn=prepare,
                         timeout=60)
    return ran.returncode, ran.stdout, ran.stderr
