"""Clients of a server that is killed, for `crash` and `follow`: random requests, and what was told of them until then.
None has a thread of its own."""
import collections
import errno
import os
import random

from judge import ANSWERED, Disagreement, Lines, read_reply
from pipes import text_of
from traffic import Order, Question, Refresh, Traffic, Withdrawal

MOST_OWN = 40           # orders that a client adds before it withdraws some
MORE = 250              # refreshes that are made when those of a client that sends ahead come to an end
LEAST_READY = 1 << 16   # bytes


class Balanced(Traffic):
    """Traffic that withdraws what it adds, so that SQLite stays fast enough to judge every answer."""

    def action(self):
        if len(self.own) > MOST_OWN:
            return Withdrawal(self.own.pop(self.random.randrange(len(self.own))))
        return super().action()


class Client:
    """A client over all starts of the server: its random requests, and in each session what it sends and is told."""

    def __init__(self, tables, number, ends, source, ahead):
        self.number, self.ends, self.random, self.ahead = number, ends, source, ahead
        self.traffic = Balanced(tables, number - 1, random.Random(source.random()))
        self.seen, self.replies = 0, []

    def begin(self):
        """A session: OUT is open at once, and IN as soon as the server has opened it."""
        self.out, self.into = os.open(self.ends[1], os.O_RDONLY | os.O_NONBLOCK), None
        self.text = b""                         # that is still to be written
        self.queued = self.written = 0          # bytes, of the whole session
        self.waiting = collections.deque()      # requests without a reply, each with where its bytes end
        self.part, self.lines = b"", collections.deque()
        self.replies, self.pause = [], 0.0

    def open(self):
        try:
            self.into = os.open(self.ends[0], os.O_WRONLY | os.O_NONBLOCK)
        except OSError as fault:
            if fault.errno != errno.ENXIO:
                raise
        return self.into is not None

    def send_more(self, now):
        """Where nothing is under way, and no pause: some requests more."""
        if self.waiting or now < self.pause:
            return
        self.queue(self.random.choice([1, 1, self.random.randint(1, self.ahead)]))
        if self.random.random() < 0.4:
            self.pause = now + self.random.random() / 20
        self.write()

    def queue(self, count):
        """So many requests more are to be written."""
        texts = []
        for request in self.traffic.requests(count):
            texts.append(text_of(request).encode())
            self.queued += len(texts[-1])
            self.waiting.append((request, self.queued))
        self.text += b"".join(texts)

    def write(self):
        try:
            while self.text:
                count = os.write(self.into, self.text)
                self.written += count
                self.text = self.text[count:]
        except BlockingIOError:
            pass
        except BrokenPipeError:
            self.text = b""

    def read(self):
        """What there is to be read; False at the end of the session."""
        try:
            part = os.read(self.out, 1 << 16)
        except BlockingIOError:
            return True
        *lines, self.part = (self.part + part).split(b"\n")
        self.lines.extend(line.decode() for line in lines)
        while self.lines and self.waiting and self.has_reply():
            self.take_reply()
        return bool(part)

    def has_reply(self):
        found = ANSWERED.fullmatch(self.lines[0])
        return not found or len(self.lines) > int(found[3])

    def take_reply(self, is_cut=False):
        request, _ = self.waiting.popleft()
        told = Lines("")
        told.lines = list(self.lines)
        reply = read_cut(told, self.number, request) if is_cut else read_reply(told, self.number, request)
        for _ in range(told.place):
            self.lines.popleft()
        if reply.number < self.seen + reply.is_commit():
            raise Disagreement(f"client {self.number} had seen {self.seen} commits, and was told {reply.number}")
        self.seen = reply.number
        self.replies.append(reply)

    def end(self):
        """Behind a kill: reads what was told before it."""
        while self.read():
            pass
        if self.lines and self.waiting:
            self.take_reply(is_cut=True)
        if self.lines:
            raise Disagreement(f"client {self.number} was told what nobody asked: {self.lines[0]}")
        os.close(self.out)
        if self.into is not None:
            os.close(self.into)

    def under_way(self):
        """The refreshes that were written whole, and whose reply did not come."""
        return [request for request, end in self.waiting
                if end <= self.written and not isinstance(request, Question)]


class Steady(Balanced):
    """Refreshes that are seldom refused: they change what this client has added."""

    def refresh(self):
        if len(self.own) > MOST_OWN:
            return Refresh([Withdrawal(self.own.pop(0))])
        if self.own and self.chance(0.2):
            key = self.random.choice(self.own)
            return Refresh([Order(self.random.choice(["amend", "put"]), key, self.lines(key))])
        key = self.new_key()
        return Refresh([Order(self.random.choice(["add", "add", "put"]), key, self.lines(key))])


class Ahead(Client):
    """A client that always has refreshes under way."""

    def __init__(self, tables, number, ends, source, ahead):
        super().__init__(tables, number, ends, source, ahead)
        self.traffic = Steady(tables, number - 1, random.Random(source.random()))

    def send_more(self, now):
        if len(self.text) < LEAST_READY:
            self.queue(MORE)
        self.write()


def read_cut(lines, client, request):
    """The beginning of an answer: its head, and not all of its rows."""
    head = ANSWERED.fullmatch(lines.lines[0])
    count = len(lines.lines) - 1
    lines.lines[0] = f"{head[1]} at {head[2]} rows {count}"
    reply = read_reply(lines, client, request)
    reply.is_cut, reply.count = True, int(head[3])
    return reply
