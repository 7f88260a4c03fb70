"""The memory of a process and its children, watched while they work."""
import contextlib
import pathlib
import threading


class PeakMemory:
    """Adds up, 50 times a second, the memory of a process and its children: their own and what they share, each
    shared page once, without the pages of files. `peak` is the most that was seen, in MB."""

    def __init__(self):
        self.peak = 0

    @contextlib.contextmanager
    def of(self, process):
        over = threading.Event()
        watcher = threading.Thread(target=self.watch, args=(process, over))
        watcher.start()
        try:
            yield
        finally:
            over.set()
            watcher.join()

    def watch(self, process, over):
        while not over.wait(0.02):
            with contextlib.suppress(OSError):      # one of them may just have ended
                self.peak = max(self.peak, sum(map(megabytes, family(process))))


def family(process):
    """The numbers of a process and its children, and of theirs."""
    members = [process]
    for member in members:
        for task in pathlib.Path(f"/proc/{member}/task").glob("*/children"):
            members += task.read_text().split()
    return members


def megabytes(process):
    words = (line.split() for line in open(f"/proc/{process}/smaps_rollup"))
    return sum(int(word[1]) for word in words if word[0] in ("Pss_Anon:", "Pss_Shmem:")) / 1024
