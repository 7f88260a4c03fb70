"""What `./start` and `bench/build` share: the kit, what a program was made of, and the note beside it that says so."""
import dataclasses
import errno
import hashlib
import os
import pathlib
import shutil
import signal
import subprocess
import sys
import tempfile

ROOT = pathlib.Path(__file__).resolve().parent.parent
NO_ROOM = (errno.ENOSPC, errno.EDQUOT)
ENDS = (signal.SIGINT, signal.SIGTERM, signal.SIGHUP)


class Trouble(Exception):
    """What keeps a command from its end, as one line for the user."""


class Ended(BaseException):
    """A signal has ended the command."""


def end_by(name, call):
    """Ends the process with the status that the call returns; with one line and status 1 where something keeps it."""
    def end(number, _):
        for other in ENDS:
            signal.signal(other, lambda *_: None)     # what is left to do is not broken off by a second one
        raise Ended(128 + number)

    for number in ENDS:
        signal.signal(number, end)
    try:
        status = call()
    except Ended as ended:
        status = ended.args[0]
    except Trouble as trouble:
        status = f"{name}: {trouble}"
    except OSError as error:
        why = f"{error.filename}: {error.strerror}" if error.filename else error
        status = f"{name}: {no_room(error.filename) if error.errno in NO_ROOM else why}"
    sys.exit(status)


def no_room(path):
    """The line for a disk that is full, with the folder that the path lies in."""
    folder = pathlib.Path(path or tempfile.gettempdir())
    while not folder.is_dir():
        folder = folder.parent
    free = shutil.disk_usage(folder).free // 2**20
    return f"no room on the disk: {free} MB are free in {folder}"


@dataclasses.dataclass(frozen=True)
class Kit:
    """The Rattle kit: its folder, and the line that names it."""

    folder: pathlib.Path
    name: str


def find_kit():
    """The kit whose command `rt` is on the PATH, or None where there is none."""
    command = shutil.which("rt")
    for folder in pathlib.Path(command).resolve().parents if command else ():
        if (folder / "KIT-ID").is_file():
            return Kit(folder, (folder / "KIT-ID").read_text().strip())
    return None


def need_kit():
    kit = find_kit()
    if kit is None:
        raise Trouble("the Rattle kit is missing: no rt of it is on the PATH (see the first lines of README.md)")
    return kit


def run_to_its_end(words, **how):
    """Runs a command and returns its status; where this is to end before, the command is told so and waited for."""
    ran = subprocess.Popen(words, **how)
    try:
        return ran.wait()
    finally:
        ran.terminate()
        ran.wait()


def sum_of_file(path):
    return hashlib.sha256(path.read_bytes()).hexdigest()


def sum_of_crates():
    """The sum of crates.txt and of each file of crates/, but of the folders out, which hold what was made of them."""
    total = hashlib.sha256()
    paths = [ROOT / "crates.txt"]
    for at, folders, names in os.walk(ROOT / "crates"):
        folders[:] = sorted(name for name in folders if name != "out")
        paths += [pathlib.Path(at, name) for name in sorted(names)]
    for path in paths:
        total.update(f"{path.relative_to(ROOT)} {sum_of_file(path)}\n".encode())
    return total.hexdigest()


@dataclasses.dataclass(frozen=True)
class Note:
    """What is known of a program: the sums of its file and of crates/, the kit, and whether it is proved."""

    program: str
    crates: str
    kit: str
    proved: str


def note_path(program):
    return program.with_name(f"{program.name}.made")


def parse_note(program):
    """What the note beside a program says, or None where it is not there or no note."""
    try:
        return Note(**dict(line.split(" ", 1) for line in note_path(program).read_text().splitlines()))
    except (OSError, ValueError, TypeError):
        return None


def read_note(program):
    """The note of a program that is just as `bench/build` or `./start` made it, or None."""
    note = parse_note(program)
    return note if note and program.is_file() and note.program == sum_of_file(program) else None


def write_whole(path, content, mode=0o644):
    """Writes a file under another name, and names it once it is whole."""
    part = path.with_name(f".{path.name}.{os.getpid()}")
    try:
        part.write_bytes(content)
        part.chmod(mode)
        part.replace(path)
    except OSError as error:
        raise Trouble(no_room(part) if error.errno in NO_ROOM else f"cannot write {path}: {error.strerror}") from None
    finally:
        part.unlink(missing_ok=True)


def put_program(program, content, crates, kit, proved):
    """Puts a program at this path, and then its note: one without the other counts for nothing."""
    note = Note(hashlib.sha256(content).hexdigest(), crates, kit, proved)
    write_whole(program, content, 0o755)
    lines = "".join(f"{key} {word}\n" for key, word in dataclasses.asdict(note).items())
    write_whole(note_path(program), lines.encode())
