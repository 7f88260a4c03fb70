"""The memory of a start and of an export over a journal whose orders came and went, for `live --restart`."""
import os
import pathlib
import re
import subprocess
import tempfile
import time

from balance import behind_the_key
from common import LIVE, NAMES, WORK, machine, say

LINES = 4                   # of an order
LIVE_ORDERS = 1000          # at once, in balance
AT_ONCE = 10_000            # requests that are made together
FIRST_KEY = 1_000_000_000   # no loaded order has one of these keys
LARGER, MORE = 1.1, 40      # a start's memory: of that of a start over no commits, and megabytes more


def orders_in_balance(data, refreshes):
    """Texts of requests: orders that are added, and withdrawn when so many others stand."""
    rest, texts = behind_the_key(data), []
    for number in range(refreshes // 2 + LIVE_ORDERS):
        if number < refreshes // 2:
            key = FIRST_KEY + number
            lines = "".join(f"line|{key}|{line}|{rest}\n" for line in range(1, LINES + 1))
            texts.append(f"begin\nadd\n{lines}commit\n")
        if number >= LIVE_ORDERS:
            texts.append(f"begin\nwithdraw|{FIRST_KEY + number - LIVE_ORDERS}\ncommit\n")
        if len(texts) >= AT_ONCE:
            yield "".join(texts).encode()
            texts = []
    yield "".join(texts).encode()


class Measured:
    """A command that has ended: its seconds, the most memory that it took, in MB, and what it wrote."""

    def __init__(self, words, texts=()):
        with tempfile.TemporaryFile(dir=WORK) as output, tempfile.TemporaryFile(dir=WORK) as errors:
            began = time.monotonic()
            process = subprocess.Popen([LIVE, *map(str, words)], stdin=subprocess.PIPE, stdout=output, stderr=errors)
            for text in texts:
                process.stdin.write(text)
            process.stdin.close()
            _, status, usage = os.wait4(process.pid, 0)
            process.returncode = os.waitstatus_to_exitcode(status)
            self.seconds, self.megabytes = time.monotonic() - began, usage.ru_maxrss / 1024
            output.seek(0)
            errors.seek(0)
            self.output, self.errors = output.read().decode(), errors.read().decode()
        if process.returncode:
            raise RuntimeError(f"{words[0]}: status {process.returncode}, {self.errors.strip()}")


def answers_of(output):
    """The rows of reports, without the number of commits after which they stand."""
    return re.sub(r"^(Q\d\.\d) at \d+ ", r"\1 ", output, flags=re.M)


def measure_restart(data, refreshes):
    """Measures and prints; whether a start and an export have the memory of the live lines, and the answers are so."""
    questions = ["".join(f"query|{name}\n" for name in NAMES).encode()]
    with tempfile.TemporaryDirectory(prefix="restart-", dir=WORK) as folder:
        folder = pathlib.Path(folder)
        none, full = folder / "none.journal", folder / "full.journal"
        serve, export = ["serve", "--data", data], ["export", "--data", data]
        new = Measured([*serve, "--new-journal", none], questions)
        say(f"{refreshes:,} refreshes")
        run = Measured([*serve, "--new-journal", full], orders_in_balance(data, refreshes))
        say(f"{full.stat().st_size / 1e6:,.0f} MB of journal, {run.seconds:.0f} s")
        commands = [("start over none", Measured([*serve, "--journal", none], questions)),
                    ("start over all", Measured([*serve, "--journal", full], questions)),
                    ("export over none", Measured([*export, "--journal", none, "--to", folder / "of-none"])),
                    ("export over all", Measured([*export, "--journal", full, "--to", folder / "of-all"]))]
    print("| command | seconds | most memory, MB |")
    print("|---|--:|--:|")
    for title, measured in commands:
        print(f"| {title} | {measured.seconds:.1f} | {measured.megabytes:,.0f} |")
    starts, exports = [[measured for _, measured in pair] for pair in (commands[:2], commands[2:])]
    per_commit = 1e6 * (starts[1].seconds - starts[0].seconds) / refreshes
    same = answers_of(new.output) == answers_of(starts[0].output) == answers_of(starts[1].output)
    small = (starts[1].megabytes <= LARGER * starts[0].megabytes + MORE
             and exports[1].megabytes <= LARGER * exports[0].megabytes)
    print(f"\n{refreshes:,} commits of orders of {LINES} lines, added and withdrawn; a start takes {per_commit:.1f} us a "
          f"commit more. The answers are {'the same' if same else 'NOT THE SAME'}. {machine()}; load average at the end "
          f"{os.getloadavg()[0]:.1f}.")
    return same and small
