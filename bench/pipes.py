"""Clients of `ssb_live serve` over named pipes, for `serve`: the server, a client, and a client's random sessions."""
import os
import queue
import random
import re
import select
import subprocess
import sys
import threading
import time

from common import HERE, LIVE
from judge import Disagreement, Lines, read_replies
from traffic import Refresh, Traffic
sys.path.insert(0, str(HERE.parent / "clients/python"))
import ssb_live

PATIENCE = 120          # seconds after which a reply counts as lost
READY = re.compile(r"ssb_live: serving \d+ lines, \d+ clients\n")
SETTLING = 0.5          # seconds in which the server notices that a client has gone
WAITS = re.compile(r"ssb_live: client \d+: waits for a (writer of IN|reader of OUT)\n")
MOST_BYTES = 1 << 20    # of a request
AHEAD = 40              # requests that a client sends at most before it reads their replies
BAD_REQUESTS = [("que", "70 BadLine 1"), ("commit", "70 BadLine 1"), ("query|Q9.9", "70 BadLine 1"),
                ("query|star", "70 BadLine 1"), ("query|star|COUNT|D_YEAR|D_YEAR", "70 BadLine 1"),
                ("begin\ncommit", "72 EmptyBlock 2"), ("begin\nwithdraw|x\ncommit", "70 BadLine 2"),
                ("begin\nadd\ncommit", "73 Row 2 1 NoLines"), ("answer", "70 BadLine 1"),
                ("ask\nquery|Q1.1\nwithdraw|1\nanswer", "70 BadLine 3"), ("ask\nanswer", "72 EmptyBlock 2"),
                ("order|first", "70 BadLine 1"), ("begin\norder|1\ncommit", "70 BadLine 2"),
                ("ask\n" + "query|Q1.1\n" * 17 + "answer", "78 TooManyQuestions 18")]


class Server:
    """The program with so many clients, each over two named pipes in a folder. Where no tables are given, `words` name
    a store."""

    def __init__(self, data, folder, clients, *words, quiet=True, env=None, prepare=None):
        self.ends = []
        for number in range(1, clients + 1):
            ends = folder / f"in-{number}", folder / f"out-{number}"
            for end in ends:
                if not end.exists():
                    os.mkfifo(end)
            self.ends.append(ends)
        self.errors = open(folder / "errors", "w+")
        given = ["--quiet"] * quiet + [word for ends in self.ends for word in ("--client", *ends)]
        tables = ["--data", data] if data else []
        self.process = subprocess.Popen([LIVE, "serve", *tables, *words, *given], stderr=self.errors,
                                        stdin=subprocess.DEVNULL, stdout=subprocess.DEVNULL, env=env,
                                        preexec_fn=prepare)

    def told(self, waits=False):
        """What it told, but that it is ready, and for whom it waits, or with the latter."""
        self.errors.seek(0)
        lines = READY.sub("", self.errors.read()).splitlines(keepends=True)
        return "".join(line for line in lines if waits or not WAITS.fullmatch(line))

    def end(self, patience=PATIENCE):
        """Waits for its end, and gives its status."""
        return self.process.wait(patience)

    def stop(self):
        if self.process.poll() is None:
            self.process.terminate()
            self.process.wait(PATIENCE)

    def processor_seconds(self):
        with open(f"/proc/{self.process.pid}/stat") as stat:
            fields = stat.read().rpartition(")")[2].split()
        return (int(fields[11]) + int(fields[12])) / os.sysconf("SC_CLK_TCK")


class Client:
    """A session: what is sent, and the lines of the replies, which a thread reads as they come."""

    def __init__(self, ends):
        into, out = ends
        self.out = os.open(out, os.O_RDONLY)             # waits for the server
        self.into = os.open(into, os.O_WRONLY)
        self.lines, self.is_gone = queue.SimpleQueue(), False
        self.reader = threading.Thread(target=self.read, daemon=True)
        self.reader.start()

    def read(self):
        """Reads lines until the session ends, or until the client goes."""
        rest = b""
        while not self.is_gone:
            if not select.select([self.out], [], [], 0.05)[0]:
                continue
            part = os.read(self.out, 1 << 16)
            if not part:
                break
            *lines, rest = (rest + part).split(b"\n")
            for line in lines:
                self.lines.put(line.decode())
        os.close(self.out)
        self.lines.put(None)

    def send(self, text):
        left = memoryview(text.encode())
        while left:
            left = left[os.write(self.into, left):]

    def next(self):
        """The next line; None at the end of the session."""
        try:
            return self.lines.get(timeout=PATIENCE)
        except queue.Empty:
            raise Disagreement(f"no reply in {PATIENCE} s") from None

    def expect_end(self):
        line = self.next()
        if line is not None:
            raise Disagreement(f"behind the last reply: {line}")

    def close(self):
        """Ends the session: nothing more is sent. What is still told can be read."""
        os.close(self.into)

    def go(self):
        """Ends the session without reading what is still told."""
        self.is_gone = True
        self.reader.join(PATIENCE)
        os.close(self.into)
        time.sleep(SETTLING)


class Asker:
    """A client that has one request under way, through the client of clients/python."""

    def __init__(self, ends):
        self.live = ssb_live.connect(*ends, timeout=PATIENCE)

    def ask(self, request, answers=1):
        """Sends a request, and gives the seconds until its reply was read: so many answers, or one line."""
        start = time.perf_counter()
        try:
            self.reply = self.live.exchange(request, answers)
        except ssb_live.Error as fault:
            raise Disagreement(str(fault)) from None
        return time.perf_counter() - start

    def close(self):
        self.live.close()


def line_end(tables):
    """What follows the key and the number of a line."""
    return (f"|{tables.customers[0]}|{tables.parts[0]}|{tables.suppliers[0]}|{tables.dates[0]}|5-LOW|0|10|1000000|"
            f"1000000|2|980000|600000|0|{tables.dates[0]}|AIR\n")


def refreshes(tables, first, count):
    """The text of so many refreshes, each of which adds an order of one line."""
    end = f"|1{line_end(tables)}commit\n"
    return "".join(f"begin\nadd\nline|{key}{end}" for key in range(first, first + count)).encode()


def in_turn(tables, first, count):
    """The text of so many refreshes, which in turn add an order of four lines and withdraw it."""
    end = line_end(tables)

    def action(key, is_added):
        lines = (f"line|{key}|{number}{end}" for number in range(1, 5))
        return f"withdraw|{key}\n" if is_added else f"add\n{''.join(lines)}"
    return "".join(f"begin\n{action(first + place // 2, place % 2)}commit\n" for place in range(count)).encode()


class Flood:
    """The clients in C (flood.c), in a folder where their texts are put."""

    def __init__(self, folder):
        self.folder, self.program = folder, folder / "flood"
        subprocess.run(["cc", "-O2", "-pthread", "-o", self.program, HERE / "flood.c"], check=True)

    def words(self, ends, texts):
        for number, ((into, out), text) in enumerate(zip(ends, texts)):
            file = self.folder / f"text-{number}"
            file.write_bytes(text)
            yield from (file, into, out)

    def start(self, ends, texts):
        """Starts a client for each pair of ends, which sends its text without waiting for replies."""
        return subprocess.Popen([self.program, "ahead", *self.words(ends, texts)], stdout=subprocess.PIPE, text=True)

    def end(self, started, count):
        """The seconds from the first byte to the last reply, which has to be one line for each of so many refreshes."""
        told, _ = started.communicate(timeout=PATIENCE)
        lines, seconds = told.split() or ("no", "0")
        if started.returncode or lines != str(count):
            raise Disagreement(f"{lines} replies to {count} refreshes")
        return float(seconds)

    def receipts(self, ends, text, seconds):
        """The milliseconds of each refresh of one client, which waits for its receipt."""
        done = subprocess.run([self.program, "wait", str(seconds), *self.words([ends], [text])], check=True, text=True,
                              stdout=subprocess.PIPE, timeout=seconds + PATIENCE)
        return [int(nanoseconds) / 1e6 for nanoseconds in done.stdout.split()]


    def ask(self, ends, text, seconds):
        """The milliseconds of each answer, by the place of its question in the text, of clients that ask these without a
        pause, and how many answers there were a second."""
        done = subprocess.run([self.program, "ask", str(seconds), *self.words(ends, [text] * len(ends))], check=True,
                              text=True, stdout=subprocess.PIPE, timeout=seconds + PATIENCE)
        times = {}
        for line in done.stdout.splitlines():
            _, place, nanoseconds = map(int, line.split())
            times.setdefault(place, []).append(nanoseconds / 1e6)
        return times, sum(map(len, times.values())) / seconds


class Told(Lines):
    """The lines of a session, as `read_reply` reads them."""

    def __init__(self, client):
        self.client, self.place = client, 0

    def next(self):
        self.place += 1
        line = self.client.next()
        if line is None:
            raise Disagreement(f"the session ended before line {self.place}")
        return line


def ask_too_long(ends):
    """A request of more than 1 MiB is told, and ends the session."""
    client = Client(ends)
    try:
        client.send("query|Q1.1\nbegin\n" + "withdraw|1\n" * (MOST_BYTES // len("withdraw|1\n")))
    except BrokenPipeError:
        pass                                             # the session has ended before the last bytes
    head = client.next()
    for _ in range(int(head.split()[-1])):
        client.next()
    if client.next() != "fault: 76 RequestTooLong":
        raise Disagreement("a request of more than 1 MiB has no fault")
    client.expect_end()
    client.close()


def text_of(request):
    return "".join(f"{record}\n" for record in request.records())


class Sessions:
    """The random sessions of one client, one behind another, from its own source of random numbers."""

    def __init__(self, tables, number, ends, seed, standing=()):
        self.number, self.ends, self.random = number, ends, random.Random(seed)
        self.traffic = Traffic(tables, number - 1, random.Random(self.random.random()), has_blocks=True,
                               standing=standing)
        self.replies, self.seen = [], 0
        self.counts = {"sessions": 0, "broken": 0, "faults": 0}

    def run(self, requests, sessions):
        """So many requests, in so many sessions: gives the replies, and what there was."""
        left = requests
        for turn in range(sessions, 0, -1):
            count = left // turn
            left -= count
            self.session(self.traffic.requests(count))
        return self.replies, self.counts

    def session(self, requests):
        client = Client(self.ends)
        told = Told(client)
        while requests:
            some = self.random.randint(1, AHEAD)
            self.ask(client, told, requests[:some])
            requests = requests[some:]
            if self.random.random() < 0.02:
                time.sleep(self.random.random() / 5)
        self.end(client)
        self.counts["sessions"] += 1

    def ask(self, client, told, requests):
        """Sends requests, sometimes one with a fault before them or blank lines, and reads the replies of all."""
        bad, fault = self.random.choice(BAD_REQUESTS) if self.random.random() < 0.1 else (None, None)
        blank = "\n" * self.random.choice([0, 0, 0, 1, 3])
        client.send(blank + (f"{bad}\n" if bad else "") + "".join(map(text_of, requests)))
        if fault:
            told.expect(f"fault: {fault}")
            self.counts["faults"] += 1
        for request in requests:
            for reply in read_replies(told, self.number, request):
                if reply.number < self.seen + reply.is_commit():
                    raise Disagreement(f"client {self.number} had seen {self.seen} commits, and was told {reply.number}")
                self.seen = reply.number
                self.replies.append(reply)

    def end(self, client):
        """Ends a session: between requests, in the middle of a refresh or of a block, or there without reading what is
        told of it."""
        way = self.random.choice(["between", "inside", "gone"])
        if way != "between":
            open_one = self.random.choice([self.traffic.block(),
                                           Refresh([self.traffic.action() for _ in range(self.random.randint(1, 4))])])
            first, *records = open_one.records()
            text = text_of(open_one)
            client.send(text[:self.random.randrange(len(f"{first}\n"), len(text) - len(f"{records[-1]}\n"))])
            self.counts["broken"] += 1
        if way == "gone":
            client.go()
            return
        client.close()
        if way == "inside" and not (client.next() or "").startswith("fault: "):
            raise Disagreement("the rest of a request has no fault")
        client.expect_end()
