"""Streams that are made to hurt, for `serve --hostile`: each over named pipes, to a server with --keep that ends by a
signal.

After each the server has to answer as before, and to tell nothing that is not told here; its memory at its greatest
has to be at most `MOST_MORE` above what it was when its first question was answered."""
import os
import pathlib
import random
import re
import signal
import statistics
import tempfile
import threading
import time

from common import NAMES
from judge import Disagreement
from pipes import MOST_BYTES, PATIENCE, SETTLING, Server
from traffic import Tables

MOST_MORE = 64 << 20
CLIENTS = 16
ENDLESS = 10_000_000        # lines without a commit
LONGEST = 1 << 16           # of random bytes
AHEAD_OF_US = 1 << 20       # bytes that pipe and server take before the end of a session is seen
WANTED = 2                  # times as long as alone a client may wait beside fifteen that never read
ABSENT = 10**18
QUESTION = b"query|Q1.1\n"
LONG_ANSWERED = b"query|Q2.1\n"
REFUSED = f"begin\nwithdraw|{ABSENT}\ncommit\n".encode()
IS_REFUSED = re.compile(rf"refused at \d+ action 1: 47 Absent {ABSENT}\n")
IS_ANSWERED = re.compile(r"Q1\.1 at \d+ rows 1\n\d+\n")
FAULT = re.compile(r"fault: 7[013] .+\n")


def send(into, parts, sent):
    """Sends bytes until they end, or until nobody reads them."""
    try:
        for part in parts:
            left = memoryview(part)
            while left:
                count = os.write(into, left)
                left = left[count:]
                sent[0] += count
    except BrokenPipeError:
        pass
    os.close(into)


def give_up(*_):
    raise Disagreement(f"a session does not end in {PATIENCE} s")


def exchange(ends, *parts):
    """A session that sends all of this and reads to its end: what it was told, and how many bytes were taken."""
    is_watched = threading.current_thread() is threading.main_thread()
    if is_watched:
        signal.alarm(PATIENCE)
    out, into, sent, told = os.open(ends[1], os.O_RDONLY), os.open(ends[0], os.O_WRONLY), [0], b""
    sender = threading.Thread(target=send, args=(into, parts, sent), daemon=True)
    sender.start()
    while part := os.read(out, 1 << 16):
        told += part
    os.close(out)
    sender.join(PATIENCE)
    if is_watched:
        signal.alarm(0)
    return told.decode(errors="replace"), sent[0]


def expect(condition, told):
    if not condition:
        raise Disagreement(told)


class Watched:
    """A server whose memory is watched."""

    def __init__(self, data, folder, clients=1):
        self.server = Server(data, pathlib.Path(tempfile.mkdtemp(dir=folder)), clients, "--keep")
        self.ends, self.wanted = self.server.ends, ""
        self.expect_answer()
        self.before = self.kilobytes("VmHWM")

    def kilobytes(self, word):
        with open(f"/proc/{self.server.process.pid}/status") as status:
            return next(int(line.split()[1]) for line in status if line.startswith(word))

    def count(self, folder):
        return len(os.listdir(f"/proc/{self.server.process.pid}/{folder}"))

    def expect_answer(self):
        told, _ = exchange(self.ends[0], QUESTION)
        expect(IS_ANSWERED.fullmatch(told), f"a question was answered {told[:80]!r}")

    def end(self):
        """Ends the server by a signal: its memory was bounded. Gives it before and at its greatest."""
        greatest, is_there = self.kilobytes("VmHWM"), self.server.process.poll() is None
        self.server.stop()
        expect(is_there and self.server.process.returncode == -signal.SIGTERM, "the server ended before its signal")
        expect(self.server.told() == self.wanted, f"the server told {self.server.told()[:200]!r}")
        expect((greatest - self.before) << 10 <= MOST_MORE, f"memory grew from {self.before} to {greatest} KB")
        return self.before, greatest


# ---- the streams ----

def replies_to(sent):
    """How many replies bytes have that spell no request: one each line that has a byte."""
    return sum(any(re.split(rb"[\r]", line)) for line in sent.split(b"\n"))


def send_random_bytes(watched, words, source):
    lines = 0
    for _ in range(words.streams):
        some = source.randbytes(source.randrange(LONGEST))
        if source.random() < 0.5:
            some = bytes(source.choice(b"\n\n\r|0begincommtquryl,.#Q1 \xff") for _ in range(len(some) // 8))
        told, _ = exchange(watched.ends[0], some)
        wanted = replies_to(some)
        expect(told.count("\n") == wanted, f"{told.count(chr(10))} replies to {wanted} lines of {some[:40]!r}..")
        expect(all(line.startswith("fault: 7") for line in told.splitlines()), f"random bytes were told {told[:80]!r}")
        lines += wanted
    watched.expect_answer()
    return f"{words.streams:,} sessions, {lines:,} lines, each with its fault"


def parts_of(tables, key):
    line = (f"line|{key}|1|{tables.customers[0]}|{tables.parts[0]}|{tables.suppliers[0]}|{tables.dates[0]}|5-LOW|0|10|"
            f"1000|1000|2|980|600|0|{tables.dates[0]}|AIR\n")
    return [QUESTION, f"begin\nadd\n{line}withdraw|{key}\nadd\n{line}commit\n".encode(), QUESTION]


def cut_requests(watched, words, tables):
    """Requests are cut behind each byte: those before the cut are answered, the rest is nothing or has a fault."""
    commits, length = 0, len(b"".join(parts_of(tables, ABSENT)))
    for cut in range(length + 1):
        parts = parts_of(tables, ABSENT + cut)
        told, _ = exchange(watched.ends[0], b"".join(parts)[:cut])
        is_asked, is_committed, is_whole = (cut >= len(b"".join(parts[:count])) - 1 for count in (1, 2, 3))
        commits += is_committed
        between = cut in (0, len(parts[0]), len(parts[0]) - 1) or cut - len(b"".join(parts[:2])) in (0, -1) or is_whole
        forms = [IS_ANSWERED.pattern] * is_asked + [rf"committed {commits}\n"] * is_committed
        forms += [IS_ANSWERED.pattern] * is_whole + [FAULT.pattern] * (not between)
        expect(re.fullmatch("".join(forms), told), f"requests cut behind {cut} bytes were told {told!r}")
    return f"{length + 1:,} sessions, {commits:,} commits, no other refresh was taken"


def go_in_replies(watched, words):
    """Clients that go while they are answered: that is told, and the next session is served."""
    count = max(1, words.streams // 10)
    for _ in range(count):
        out, into = os.open(watched.ends[0][1], os.O_RDONLY), os.open(watched.ends[0][0], os.O_WRONLY)
        os.write(into, LONG_ANSWERED * 1000)
        os.read(out, 100)
        os.close(out)
        os.close(into)
        time.sleep(SETTLING)
        watched.expect_answer()
    watched.wanted = "ssb_live: client 1: write failed\n" * count
    return f"{count} sessions, each told `write failed`, each followed by one that is answered"


def never_commit(watched, words):
    """Lines without a commit are taken up to the most of a request."""
    told, sent = exchange(watched.ends[0], b"begin\n", *[b"withdraw|1\n" * 1000] * (ENDLESS // 1000))
    expect(told == "fault: 76 RequestTooLong\n", f"lines without a commit were told {told[:80]!r}")
    expect(MOST_BYTES < sent <= MOST_BYTES + AHEAD_OF_US, f"{sent} bytes were taken")
    watched.expect_answer()
    return f"76 RequestTooLong, {sent:,} bytes of {ENDLESS * 11:,} were taken"


def sessions_of(ends, count, faults):
    """Sessions of one client, one behind another."""
    for number in range(count):
        is_question = number % 50 == 0
        told, _ = exchange(ends, QUESTION if is_question else REFUSED)
        if not (IS_ANSWERED if is_question else IS_REFUSED).fullmatch(told):
            faults.append(f"session {number + 1} of a client was told {told[:80]!r}")
            return


def come_and_go(watched, words):
    """Many sessions: no thread, no open file and no memory is left of them."""
    time.sleep(0.5)             # between sessions an output is closed for 50 ms, and then open
    open_before, threads_before, start = watched.count("fd"), watched.count("task"), time.monotonic()
    faults, each = [], max(1, words.sessions // len(watched.ends))
    clients = [threading.Thread(target=sessions_of, args=(ends, each, faults), daemon=True) for ends in watched.ends]
    for client in clients:
        client.start()
    for client in clients:
        client.join(max(PATIENCE, each))
    seconds = time.monotonic() - start
    expect(not faults, "; ".join(faults[:1]))
    expect(not any(client.is_alive() for client in clients), "a session does not end")
    time.sleep(0.5)
    expect(watched.count("task") <= threads_before, f"{watched.count('task')} threads, {threads_before} before")
    expect(watched.count("fd") <= open_before, f"{watched.count('fd')} open files, {open_before} before")
    return f"{each * len(clients):,} sessions, {each * len(clients) / seconds:,.0f} a second"


# ---- fifteen that never read ----

class Stuck:
    """A client that asks until nobody takes more, and reads nothing."""

    def __init__(self, ends):
        self.out, self.into = os.open(ends[1], os.O_RDONLY), os.open(ends[0], os.O_WRONLY)
        os.set_blocking(self.into, False)

    def push(self):
        """How many bytes were taken."""
        try:
            return os.write(self.into, LONG_ANSWERED * 1000)
        except BlockingIOError:
            return 0


def push_until_stuck(stuck, server):
    """All send until nothing is taken and the server does nothing for a second; gives the bytes that were taken."""
    taken, is_still, end = 0, False, time.monotonic() + PATIENCE
    while not is_still:
        before, now = server.processor_seconds(), 0
        for _ in range(100):
            now += sum(one.push() for one in stuck)
            time.sleep(0.01)
        taken += now
        is_still = not now and server.processor_seconds() - before < 0.02
        expect(time.monotonic() < end, "a server whose clients do not read does not rest")
    return taken


def ask_both(alone, beside, tables, seconds):
    """One request after another, of both servers in turn, which have to reply the same: the milliseconds of the
    questions and of the refreshes."""
    times = {"question": ([], []), "refresh": ([], [])}
    end, number = time.monotonic() + seconds, 0
    while time.monotonic() < end:
        kind, request = "question", f"query|{NAMES[number % len(NAMES)]}\n".encode()
        if number % 5 == 0:
            kind, request = "refresh", b"begin\n" + parts_of(tables, ABSENT + number)[1].split(b"\n", 1)[1]
        for place, asker in enumerate((alone, beside)):
            times[kind][place].append(1000 * asker.ask(request))
        expect(alone.reply == beside.reply and not alone.reply.startswith((b"fault", b"refused")),
               f"{request[:40]!r} was told {beside.reply[:80]!r}, and alone {alone.reply[:80]!r}")
        number += 1
    return times


def ratios_of(times):
    told = []
    for kind, (alone, beside) in times.items():
        middles = statistics.median(alone), statistics.median(beside)
        told.append(f"{kind} {middles[0]:.2f} ms, beside {middles[1]:.2f}")
        expect(middles[1] <= WANTED * middles[0], f"{told[-1]}: more than {WANTED} times as long")
    return "; ".join(told)


def stand_beside(data, folder, words, asker_of, tables):
    """A client of a server alone, and one of a server with fifteen that never read; gives what is told, and memory."""
    alone, beside = Watched(data, folder), Watched(data, folder, CLIENTS)
    stuck = [Stuck(ends) for ends in beside.ends[1:]]
    taken = push_until_stuck(stuck, beside.server)
    askers = [asker_of(watched.ends[0]) for watched in (alone, beside)]
    told = ratios_of(ask_both(*askers, tables, words.seconds * 4))
    for asker in askers:
        asker.close()
    beside.expect_answer()
    alone.end()
    return f"{taken / 1e6:.1f} MB taken; {told}", beside.end()


# ---- the table ----

def print_row(name, told, memory):
    before, greatest = memory
    print(f"| {name} | {told} | {before / 1024:,.0f} | {greatest / 1024:,.0f} |", flush=True)


def be_hostile(data, folder, words, asker_of):
    """Tells a row for each stream; a `Disagreement` is what is wrong."""
    signal.signal(signal.SIGALRM, give_up)
    tables, source = Tables(data), random.Random(words.seed)
    streams = [("random bytes", 1, lambda watched: send_random_bytes(watched, words, source)),
               ("requests cut anywhere", 1, lambda watched: cut_requests(watched, words, tables)),
               ("clients that go in a reply", 1, lambda watched: go_in_replies(watched, words)),
               ("ten million lines, no commit", 1, lambda watched: never_commit(watched, words)),
               ("sessions of sixteen clients", CLIENTS, lambda watched: come_and_go(watched, words))]
    print("| stream | what came of it | MB before | MB at most |\n|---|---|--:|--:|")
    for name, clients, work in streams:
        watched = Watched(data, folder, clients)
        try:
            told = work(watched)
            print_row(name, told, watched.end())
        finally:
            watched.server.stop()
    print_row("fifteen that never read", *stand_beside(data, folder, words, asker_of, tables))
