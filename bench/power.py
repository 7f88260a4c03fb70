"""Power cuts of a folder, for `crash --power`: what a cut may leave of it, by the calls that power.c has written down.

Of a file a cut leaves what its last sync has put on the disk, and of each write and each new length since then all,
nothing or some pieces. Of a folder it leaves the names that its last sync has put there, and any of the creations,
renames and removals since then, but of one name none without those before it, and of a rename both names or none.
Nothing else goes together: a synced file may be gone with its name, and a removed one may be back.
"""
import collections
import contextlib
import fcntl
import os
import shutil
import subprocess
import time

from common import HERE
from judge import Disagreement

PIECES = [1, 7, 512, 4096]          # bytes of a write, of which a cut leaves all or none
SHARES = [0.1, 0.5, 0.9]            # of what was not synced, how much is there
EACH = ["synced", "synced", "written", "torn", "torn"]
WAYS = [["synced"], ["written"], EACH, EACH, EACH]      # of a cut: what may become of each file, and of each folder
TURNS, TICK = 500, 0.001            # looks for a moment in which something is not synced, and seconds between two


class Node:
    """A file or a folder: what is on the disk of it, what it is, and the changes that lie between, in their order."""

    def __init__(self, synced, now):
        self.synced, self.now, self.since = synced, now, []
        self.count = 0                      # of changes that are on the disk
        self.syncing = {}                   # by the thread of a sync: how many changes there were as it began

    def change(self, *change):
        self.make(self.now, *change)
        self.since.append(change)

    def begin_sync(self, thread):
        self.syncing[thread] = self.count + len(self.since)

    def end_sync(self, thread):
        count = max(0, self.syncing.pop(thread) - self.count)
        for change in self.since[:count]:
            self.make(self.synced, *change)
        del self.since[:count]
        self.count += count

    def drawn(self, source, ways):
        """What a power cut leaves of it itself."""
        way = source.choice(ways)
        return self.torn(source) if way == "torn" and self.since else self.now if way == "written" else self.synced


class File(Node):
    """A change is a place and the bytes that were written there; or a new length, and None."""

    def __init__(self, content=b""):
        super().__init__(bytearray(content), bytearray(content))

    @staticmethod
    def make(content, place, written):
        if written is None:
            del content[place:]
        content.extend(bytes(max(0, place - len(content))))
        if written is not None:
            content[place:place + len(written)] = written

    def is_synced(self):
        return not self.since

    def as_written(self):
        return self.now

    def left(self, source, ways):
        return self.drawn(source, ways)

    def torn(self, source):
        left, sizes, share = bytearray(self.synced), [len(self.synced)], source.choice(SHARES)
        for place, written in self.since:
            sizes.append(place if written is None else max(sizes[-1], place + len(written)))
            for change in pieces(source, place, written):
                if source.random() < share:
                    self.make(left, *change)
        self.make(left, source.randint(min(sizes), max(sizes)), None)
        return left


def pieces(source, place, written):
    """A write in pieces, each with its place; a new length is one."""
    if written is None:
        yield place, None
        return
    begin = 0
    while begin < len(written):
        piece = written[begin:begin + source.choice(PIECES)]
        yield place + begin, piece
        begin += len(piece)


class Folder(Node):
    """A change is of names at once: what stands there from then on, None for nothing."""

    def __init__(self, names=()):
        super().__init__(dict(names), dict(names))

    @staticmethod
    def make(names, changed):
        names.update(changed)
        for name in changed:
            if names[name] is None:
                del names[name]

    def is_synced(self):
        return not self.since and all(inner.is_synced() for inner in self.now.values())

    def as_written(self):
        return {name: inner.as_written() for name, inner in self.now.items()}

    def left(self, source, ways):
        return {name: inner.left(source, ways) for name, inner in self.drawn(source, ways).items()}

    def torn(self, source):
        names, lost, share = dict(self.synced), set(), source.choice(SHARES)
        for changed, in self.since:
            if lost.isdisjoint(changed) and source.random() < share:
                self.make(names, changed)
            else:
                lost.update(changed)
        return names


class Disk:
    """A folder, all of which is on the disk at first."""

    def __init__(self, path):
        self.by_inode = {}
        self.root = self.find(path)

    def find(self, path):
        if path.is_dir():
            node = Folder({inner.name: self.find(inner) for inner in path.iterdir()})
        else:
            node = File(path.read_bytes())
        self.by_inode[path.stat().st_ino] = node
        return node

    def place(self, path):
        """The folder that has a path's name, and the name."""
        *parents, name = path.split("/")
        folder = self.root
        for parent in parents:
            folder = folder.now[parent]
        return folder, name

    def replay(self, log):
        """The calls of a log."""
        place = 0
        while place < len(log):
            end = log.index(b"\n", place)
            what, inode, at, count, path, other = log[place:end].decode().split("\t")
            place = end + 1 + int(count)
            if what in ("create", "mkdir"):
                self.by_inode[int(inode)] = File() if what == "create" else Folder()
                self.name(path, self.by_inode[int(inode)])
            elif what in ("write", "resize"):
                self.by_inode[int(inode)].change(int(at), log[end + 1:place] if what == "write" else None)
            elif what == "syncing":
                self.by_inode[int(inode)].begin_sync(at)
            elif what == "synced":
                self.by_inode[int(inode)].end_sync(at)
            elif what == "remove":
                self.name(path, None)
            else:
                self.rename(path, other)

    def name(self, path, node):
        folder, name = self.place(path)
        folder.change({name: node})

    def rename(self, path, other):
        (folder, old), (into, new) = self.place(path), self.place(other)
        if folder is not into:
            raise Disagreement(f"the model of power cuts has no rename into another folder: {path}, {other}")
        folder.change({old: None, new: folder.now[old]})


def read_tree(path):
    return {inner.name: read_tree(inner) for inner in path.iterdir()} if path.is_dir() else path.read_bytes()


def write_tree(path, tree):
    if not isinstance(tree, dict):
        path.write_bytes(tree)
        return
    path.mkdir()
    for name, inner in tree.items():
        write_tree(path / name, inner)


def paths_of(tree, path=""):
    """What stands at each path of a tree; None is a folder."""
    if not isinstance(tree, dict):
        return {path: tree}
    found = {path: None}
    for name, inner in tree.items():
        found.update(paths_of(inner, f"{path}/{name}"))
    return found


class Power:
    """The power of a folder `disk` in another one, whose processes have the library loaded."""

    def __init__(self, folder):
        self.path, self.log, self.library = folder.resolve() / "disk", folder / "calls", folder / "power.so"
        self.path.mkdir()
        subprocess.run(["cc", "-O2", "-shared", "-fPIC", "-o", self.library, HERE / "power.c", "-lpthread"], check=True)

    def environment(self):
        return {**os.environ, "LD_PRELOAD": str(self.library), "POWER_FOLDER": str(self.path),
                "POWER_LOG": str(self.log)}

    def begin(self):
        """While none of its processes runs: all that is there is on the disk."""
        self.disk, self.replayed = Disk(self.path), 0
        self.log.write_bytes(b"")

    def replay(self):
        """What was noted since the last time, while nobody notes more."""
        with open(self.log, "rb") as log:
            log.seek(self.replayed)
            calls = log.read()
        self.disk.replay(calls)
        self.replayed += len(calls)

    @contextlib.contextmanager
    def moment(self, is_within=False):
        """None of its processes changes the folder meanwhile: who is killed there has noted all that it did. Where it
        is to be within changes, something is not synced, unless that does not come for a while."""
        for turn in range(TURNS):
            with open(self.log) as log:
                fcntl.flock(log, fcntl.LOCK_EX)
                self.replay()
                if not is_within or turn == TURNS - 1 or not self.disk.root.is_synced():
                    yield
                    return
            time.sleep(TICK)

    def cut(self, source):
        """Behind the end of all its processes: leaves what a power cut may leave, and counts what that changed."""
        self.replay()
        written, left = self.disk.root.as_written(), self.disk.root.left(source, source.choice(WAYS))
        if written != read_tree(self.path):
            raise Disagreement("power.c has not seen all that was done to the folder")
        if left != written:
            shutil.rmtree(self.path)
            write_tree(self.path, left)
        return differences(paths_of(written), paths_of(left))


def differences(written, left):
    """Whether bytes of files were lost, names, and removals, whose names are back then."""
    lost = {"bytes": any(left[path] != written[path] for path in left.keys() & written.keys()),
            "names": bool(written.keys() - left.keys()), "removals": bool(left.keys() - written.keys())}
    return collections.Counter(kind for kind, is_lost in lost.items() if is_lost)
