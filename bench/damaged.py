"""Journals that are cut, changed or of something else, for `crash --damage`: each has to come back with the groups that
are whole, or to be refused by its name, with nothing served and the file as it was."""
import errno
import hashlib
import os
import shutil
import time

from common import journal_words, make_tables
from journals import CHECKSUM_BYTES, HEAD_BYTES, groups_of, head_text
from judge import Disagreement
from pipes import PATIENCE, Asker, Server, refreshes
from traffic import Tables

GROUPS = 3              # of commits, in the journal that is damaged
OTHER_SCALE = "0.01"    # of tables that it was not made over
TICK = 0.002            # seconds between two looks for a server that opens its ends


class Damaged:
    def __init__(self, data, folder):
        self.data, self.folder, self.journal = data, folder, folder / "damaged"
        self.told = {}              # of each kind of damage how often it was tried

    def start(self, data=None):
        """A start with this journal, which is ended by its one client, if it begins a session; its status and what it
        tells."""
        server = Server(data or self.data, self.folder, 1, "--journal", self.journal, quiet=False)
        into, out = server.ends[0]
        out = os.open(out, os.O_RDONLY | os.O_NONBLOCK)
        try:
            while server.process.poll() is None and not opens_and_closes(into):
                time.sleep(TICK)
            return server.end(PATIENCE), server.told()
        finally:
            server.stop()
            os.close(out)

    def make(self):
        """A journal of some groups, each of one commit: its bytes, and where its last group begins."""
        tables = Tables(self.data)
        server = Server(self.data, self.folder, 1, *journal_words(self.journal))
        client = Asker(server.ends[0])
        for number in range(GROUPS):
            client.ask(refreshes(tables, 10**12 + number, 1))
        client.close()
        server.end(PATIENCE)
        content = self.journal.read_bytes()
        texts, end = groups_of(content)
        if len(texts) != 1 + GROUPS or texts[0] != head_text(self.data) or content[end:] != b"0":
            raise Disagreement(f"the journal of {GROUPS} commits has not the form that FORMATS says")
        self.new = content[:HEAD_BYTES + CHECKSUM_BYTES + len(texts[0])]
        return content, len(content) - 1 - HEAD_BYTES - CHECKSUM_BYTES - len(texts[-1])

    def comes_back(self, kind, content, commits, whole):
        """Over these bytes a start tells so many commits, and leaves the whole groups, of so many bytes, and a gate."""
        self.journal.write_bytes(content)
        torn = b"" if content[whole:] == b"0" else content[whole:]
        expected = f"ssb_live: journal: {commits} commits" + (f", {len(torn)} bytes cut off" if torn else "") + "\n"
        status, told = self.start()
        left = self.journal.read_bytes()
        if (status, told) != (0, expected) or left != (content[:whole] or self.new) + b"0":
            raise Disagreement(f"{kind}, of {len(content)} bytes: status {status}, {told.strip()!r} in place of "
                               f"{expected.strip()!r}, and {len(left)} bytes left")
        self.told[kind] = self.told.get(kind, 0) + 1

    def is_refused(self, kind, content, fault, data=None):
        """Over these bytes nothing is served, and they stay."""
        self.journal.write_bytes(content)
        status, told = self.start(data)
        if (status, told) != (1, f"ssb_live: journal: {fault}\n") or self.journal.read_bytes() != content:
            raise Disagreement(f"{kind}: status {status}, {told.strip()!r} in place of {fault}, or another file")
        self.told[kind] = self.told.get(kind, 0) + 1

    def in_use(self, content):
        self.journal.write_bytes(content)
        server = Server(self.data, self.folder, 1, "--journal", self.journal)
        client = Asker(server.ends[0])
        client.ask(b"query|Q1.1\n")
        other = self.folder / "other"
        other.mkdir(exist_ok=True)
        second = Server(self.data, other, 1, "--journal", self.journal, quiet=False)
        status = second.end(PATIENCE)
        client.close()
        server.end(PATIENCE)
        if (status, second.told()) != (1, "ssb_live: journal: 94 InUse\n") or self.journal.read_bytes() != content:
            raise Disagreement(f"a journal in use: status {status}, {second.told().strip()!r}, or the file was changed")
        self.told["in use by another process: 94"] = 1


def opens_and_closes(into):
    """Whether the server has opened a client's IN; it is then ended."""
    try:
        os.close(os.open(into, os.O_WRONLY | os.O_NONBLOCK))
        return True
    except OSError as fault:
        if fault.errno != errno.ENXIO:
            raise
        return False


def changed(content, place):
    return content[:place] + bytes([content[place] ^ 1]) + content[place + 1:]


def of_form(content, head, form):
    """The journal with another form in its head, of one digit, and the checksum of that."""
    text = content[HEAD_BYTES + CHECKSUM_BYTES:head].replace(b"journal 2", b"journal %d" % form, 1)
    return content[:HEAD_BYTES] + hashlib.md5(text).hexdigest().encode() + b"\n" + text + content[head:]


def be_damaged(data, folder, step):
    """Tries each kind of damage, at each byte or every so many; gives how often each was tried."""
    damaged = Damaged(data, folder)
    content, before = damaged.make()
    whole, head = len(content) - 1, len(damaged.new)
    damaged.comes_back("as it was left", content, GROUPS, whole)
    for end in range(before, whole, step):
        damaged.comes_back("cut at a byte of its last group", content[:end], GROUPS - 1, before)
    damaged.comes_back("cut behind its last group", content[:whole], GROUPS, whole)
    for place in range(before + HEAD_BYTES, whole, 7 * step):
        damaged.is_refused("a byte of its last group changed: 93", changed(content, place), f"93 Damaged {GROUPS}")
    damaged.is_refused("a byte of its head changed: 93", changed(content, HEAD_BYTES + CHECKSUM_BYTES), "93 Damaged 0")
    damaged.is_refused("of other tables: 91", content, "91 OtherTables lineorder", make_tables(OTHER_SCALE))
    damaged.is_refused("of a newer form: 66", of_form(content, head, 3), "66 NewerForm 3")
    damaged.is_refused("a table in its place: 90", (data / "supplier.tbl").read_bytes(), "90 NotAJournal")
    for end in sorted({0, 1, 2, HEAD_BYTES, HEAD_BYTES + CHECKSUM_BYTES, head - 1, head}):
        damaged.comes_back("a beginning of the head alone", (b"0" + content[1:head])[:end], 0, 0)
        damaged.comes_back("a beginning of the head behind a torn gate", (b"x" + content[1:head])[:end], 0, 0)
    damaged.comes_back("the head alone behind a torn gate", b"x" + content[1:head] + b"0", 0, 0)
    damaged.is_refused("the gate of its head changed: 90", b"x" + content[1:], "90 NotAJournal")
    damaged.in_use(content)
    shutil.rmtree(folder)
    return damaged.told
