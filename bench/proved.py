"""The program that `rt run` or `rt ci` left in crates/ssb_live/out, if it is proved, of just these files and this kit.

What rt keeps of that is the kit's own, so its own functions are asked. They may be others in another kit: then nothing
is taken.
"""
import contextlib
import hashlib
import importlib.machinery
import importlib.util
import io
import json
import pathlib

from program import ROOT

LEFT = ROOT / "crates/ssb_live/out/ssb_live"


def load_rt(kit):
    """The kit's rt as a module, which knows what it left and of which files."""
    loader = importlib.machinery.SourceFileLoader("rt", str(kit.folder / "bin/rt"))
    rt = importlib.util.module_from_spec(importlib.util.spec_from_loader("rt", loader))
    loader.exec_module(rt)
    rt.Crate.allowed = rt.handles_of(str(ROOT))
    return rt


def is_of_rt_run(rt, crate, total):
    """Whether the stamp of `rt run` is that of these files, this kit and the program with this sum."""
    return rt.rtlib.text_of(f"{crate.folder}/out/{crate.name}.stamp") == crate.stamp() + total


def is_of_rt_ci(rt, crate, total):
    """Whether `rt ci` keeps the program with this sum under the key of these files, this kit and their libraries."""
    kept = object.__new__(rt.Kept)
    kept.at, kept.rlibs = rt.STORE, {}
    for it in [*crate.below(), crate]:
        key = kept.key(it)
        made = json.loads(pathlib.Path(kept.place(it, False, key), "made.json").read_text())
        kept.rlibs[it.name] = hashlib.sha256(repr([tuple(file) for file in made["files"]]).encode()).hexdigest()
    return made["key"] == key and [crate.name, total] in made["files"]


def proved_program(kit):
    """The program that `rt run` or `rt ci` left and proved of just these files, or None; where rt's own account of that
    cannot be read, as of another kit, it is None too."""
    if not LEFT.is_file():
        return None
    try:
        program = LEFT.read_bytes()
        with contextlib.redirect_stderr(io.StringIO()):
            rt = load_rt(kit)
            crate = next(it for it in rt.crates_of(str(ROOT)) if it.name == "ssb_live")
            for is_of_it in (is_of_rt_run, is_of_rt_ci):
                with contextlib.suppress(OSError):
                    if is_of_it(rt, crate, hashlib.sha256(program).hexdigest()):
                        return program
    except (Exception, SystemExit):
        pass
    return None
