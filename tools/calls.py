"""How the scripts of tools/ call floop: in a process of its own, in a folder that holds the call's files. No script by itself."""
import argparse
import importlib.machinery
import importlib.util
import os
import pathlib
import subprocess
import tempfile

import plain

ROOT = pathlib.Path(__file__).resolve().parent.parent
PROGRAM = ROOT / "crates" / "floop_main" / "out" / "floop_main"
# A call that takes longer has gone astray.
SECONDS = 300


class Astray(Exception):
    """A call that took too long."""


def arguments(about, *further):
    """The arguments of a script: the program's path, and further ones, each its name, default and help."""
    parser = argparse.ArgumentParser(description=about, formatter_class=argparse.RawDescriptionHelpFormatter)
    parser.add_argument("--program", type=pathlib.Path, default=PROGRAM, help="the program (default: the one that ./floop built)")
    for name, default, text in further:
        kind = type(default) if default is not None else str
        parser.add_argument("--" + name, type=kind, default=default, help=f"{text} (default: {default})")
    given = parser.parse_args()
    given.program = given.program.resolve()
    if not os.access(given.program, os.X_OK):
        parser.error(f"{given.program} isn't there: build it with ./floop, or name another with --program")
    return given


def folder():
    """A folder that goes with its `with`."""
    return tempfile.TemporaryDirectory(prefix="floop_")


def put_files(place, files):
    for name, data in files.items():
        (pathlib.Path(place) / name).write_bytes(data)


def call(program, words, place, seconds=SECONDS, **more):
    """The status of a call and what it wrote; a negative status is the number of the signal that ended it."""
    try:
        given = subprocess.run(["floop", *words], executable=program, cwd=place, stdin=subprocess.DEVNULL, stdout=subprocess.PIPE,
                               stderr=subprocess.PIPE, timeout=seconds, **more)
    except subprocess.TimeoutExpired:
        raise Astray(f"{' '.join(words)} took over {seconds} seconds") from None
    return given.returncode, given.stdout, given.stderr


def wanted(words, files):
    """What the plain loop answers over these files."""

    def read(name):
        if name not in files:
            raise plain.NotFound
        return files[name]

    return plain.answer(words, read)


def serves_pool(program):
    """Whether the program serves `pool`; if so, so does the plain loop from here on."""
    with folder() as place:
        serves = call(program, ["pool"], place)[1] != b"not served here\n"
    if serves:
        plain.SETTINGS["pool"] = ("loop", "data", "base", "workers", "report")
    return serves


def executors(program):
    """The words with which a loop is run in each way that the program serves."""
    ways = [["run", f"executor={name}"] for name in ("seq", "halves", "steal")]
    return ways + [["pool"]] if serves_pool(program) else ways


def cases():
    """The reader of the case files of crates/floop_cases, which is that of examples/cases."""
    loader = importlib.machinery.SourceFileLoader("cases", str(ROOT / "examples" / "cases"))
    module = importlib.util.module_from_spec(importlib.util.spec_from_loader("cases", loader))
    loader.exec_module(module)
    return module
