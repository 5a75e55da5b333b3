#!/usr/bin/env python3
"""Runs the program against real folders, files and outputs that fail.

    hostile/folders.py [PROGRAM] [--without-watchers]

Each case has its stated status and lines, and says which files may be left. What a machine can't do is skipped.
"""

import argparse
import contextlib
import ctypes
import os
import pathlib
import shutil
import subprocess
import tempfile
from dataclasses import dataclass, field

from program import found, lay_out

NOBODY = 65534
OPENING = b"seed 7\nunits 3 zones 2 targets 1 free 3\n"
RUN = b"run 1 score 39.0000 entries 0\n"
BEST = b"best 1 score 39.0000\n"
WATCHERS = b"watcher 1 0\nwatcher 2 0\n"
PARAMETERS = "PUNAME pu.dat\nFEATNAME feat.dat\nPUVSFEATNAME amounts.dat\nBOUNDNAME bound.dat\nBLM 1\n"
PARAMETERS += "RANDSEED 7\nRUNMODE 4\n"
TABLES = {
    "pu.dat": "id,cost\n1,10\n2,20\n3,30\n",
    "feat.dat": "id,target,spf,name\n1,4,2,f\n",
    "amounts.dat": "species,pu,amount\n1,1,2\n1,2,3\n1,3,4\n",
    "bound.dat": "id1,id2,boundary\n1,2,5\n2,3,7\n1,1,2\n",
}
SOLUTION = (b"planning_unit,zone\n1,2\n2,2\n3,1\nscore,39.0000\ncost,30.0000\nboundary,9.0000\npenalty,0.0000\n"
            b"shortfall,0.0000\n")


class Skipped(Exception):
    """A case that this machine can't do."""


@dataclass
class Case:
    """A project, what is done to its folder, how it is run, and what has to come of it."""

    name: str
    status: int
    said: bytes
    lines: str = "SAVEBEST 3\n"
    words: list = field(default_factory=lambda: ["input.dat", "1"])
    before: object = None  # a function of the folder
    written: dict = field(default_factory=dict)  # what may be written; a beginning of it where the status isn't 0
    output: object = None  # a function that gives the file that stands for the standard output
    as_nobody: bool = False
    around: object = None  # a function of the folder that gives a context in which all happens


def refused(text):
    return b"refused: " + text.encode() + b"\n"


def replaced(name, make):
    """Puts something else in the place of a file."""
    def change(folder):
        (folder / name).unlink(missing_ok=True)
        make(folder / name)
    return change


def link_to(target):
    return lambda path: path.symlink_to(target)


def mode(name, bits):
    return lambda folder: (folder / name).chmod(bits)


def renamed(old, new):
    return lambda folder: (folder / old).rename(folder / new)


def input_cases():
    """Inputs that aren't there, can't be read, have no end or are no files."""
    def case(name, status, text, before, **options):
        return Case(name, status, refused(text), before=before, **options)
    long_name = "u" * 256
    return [
        case("a link to nowhere as an input", 4, "absent: pu.dat", replaced("pu.dat", link_to("nowhere"))),
        case("a link to itself as an input", 3, "fault: pu.dat", replaced("pu.dat", link_to("pu.dat"))),
        case("a link to nowhere as the parameter file", 4, "absent: input.dat",
             replaced("input.dat", link_to("nowhere"))),
        case("a folder in the place of an input", 3, "fault: feat.dat", replaced("feat.dat", pathlib.Path.mkdir)),
        case("a folder in the place of the parameter file", 3, "fault: input.dat",
             replaced("input.dat", pathlib.Path.mkdir)),
        case("a file in the place of a folder", 3, "fault: bound.dat/pu.dat", None, lines="INPUTDIR bound.dat\n"),
        case("an endless input", 2, "units: too long", replaced("pu.dat", link_to("/dev/zero"))),
        case("an endless parameter file", 2, "input: too long", replaced("input.dat", link_to("/dev/zero"))),
        case("nothing as an input", 2, "units: no header", replaced("pu.dat", link_to("/dev/null"))),
        case("nothing as the parameter file", 2, "input: PUNAME missing", replaced("input.dat", link_to("/dev/null"))),
        case("an input that may not be read", 3, "fault: pu.dat", mode("pu.dat", 0), as_nobody=True),
        case("an input folder that may not be searched", 3, "fault: in/pu.dat",
             lambda folder: (folder / "in").mkdir(mode=0), lines="INPUTDIR in\n", as_nobody=True),
        case("an input's name of 256 bytes", 3, f"fault: {long_name}", None, words=[long_name, "1"]),
        Case("an input's name of 255 bytes", 0, OPENING + RUN + BEST, before=renamed("input.dat", "i" * 255),
             words=["i" * 255, "1"], written={"output_best.csv": SOLUTION}),
    ]


def output_cases():
    """Outputs that can't be written."""
    best = {"output_best.csv": SOLUTION}
    stopped = OPENING + RUN
    cases = [
        Case("a folder without write permission", 3, OPENING + refused("fault: output_r00001.csv"),
             lines="SAVERUN 3\nSAVEBEST 3\n", before=lambda folder: folder.chmod(0o555), as_nobody=True),
        Case("an output that may not be written", 3, stopped + refused("fault: output_best.csv"), as_nobody=True,
             before=replaced("output_best.csv", lambda path: (path.write_bytes(b""), path.chmod(0o444))),
             written={"output_best.csv": b""}),
        Case("a folder in the place of an output", 3, stopped + refused("fault: output_best.csv"),
             before=replaced("output_best.csv", pathlib.Path.mkdir)),
        Case("a link into nowhere as an output", 3, stopped + refused("fault: output_best.csv"),
             before=replaced("output_best.csv", link_to("nowhere/file"))),
        Case("a link to a new file as an output", 0, OPENING + RUN + BEST,
             before=replaced("output_best.csv", link_to("new.csv")), written={**best, "new.csv": SOLUTION}),
        Case("an output folder that isn't there", 3, stopped + refused("fault: out/output_best.csv"),
             lines="OUTPUTDIR out\nSAVEBEST 3\n"),
        Case("a full device as an output", 3, stopped + refused("fault: output_best.csv"),
             before=replaced("output_best.csv", link_to("/dev/full")), written={"output_best.csv": b""}),
        Case("a full disk", 3, stopped + refused("fault: out/output_best.csv"), lines="OUTPUTDIR out\nSAVEBEST 3\n",
             around=full_disk, written={"out/output_best.csv": SOLUTION}),
    ]
    for length in (255, 256):
        scenario = "s" * (length - len("_best.csv"))
        name = f"{scenario}_best.csv"
        good = length == 255
        cases.append(Case(f"an output's name of {length} bytes", 0 if good else 3,
                          OPENING + RUN + (BEST if good else refused(f"fault: {name}")),
                          lines=f"SCENNAME {scenario}\nSAVEBEST 3\n", written={name: SOLUTION} if good else {}))
    return cases


def closed_pipe():
    """A pipe that nobody reads."""
    reads, writes = os.pipe()
    os.close(reads)
    return os.fdopen(writes, "wb")


def saying_cases():
    """A standard output that fails: nothing can be said, and nothing is written behind the opening."""
    return [
        Case("a broken standard output", 3, b"", output=closed_pipe),
        Case("a full standard output", 3, b"", output=lambda: open("/dev/full", "wb")),
        Case("a closed standard output", 3, b"", output=lambda: None),
        Case("a broken standard output at a refusal", 1, b"", output=closed_pipe, words=["input.dat", "0"]),
        Case("a closed standard output at a refusal", 2, b"", output=lambda: None, lines="RUNMODE 4\n"),
        Case("an argument that isn't UTF-8", 1, b"", words=[b"\xff"]),
    ]


@contextlib.contextmanager
def full_disk(folder):
    """A small disk without room below the folder, as `out`."""
    out = folder / "out"
    out.mkdir()
    library = ctypes.CDLL(None, use_errno=True)
    if library.mount(b"none", os.fsencode(out), b"tmpfs", 0, b"size=64k,mode=777") != 0:
        raise Skipped("a small disk can't be mounted")
    try:
        with open(out / "filler", "wb", buffering=0) as filler, contextlib.suppress(OSError):
            while filler.write(b"x" * 512):
                pass
        yield
    finally:
        library.umount2(os.fsencode(out), 0)


def ended(program, folder, case):
    """The status and the said bytes of a run."""
    options = {"cwd": folder, "stdin": subprocess.DEVNULL, "stderr": subprocess.DEVNULL, "timeout": 120, "check": False}
    if case.as_nobody and os.getuid() == 0:
        options |= {"user": NOBODY, "group": NOBODY, "extra_groups": []}
    command = [program, *case.words]
    if case.output is None:
        done = subprocess.run(command, stdout=subprocess.PIPE, **options)
        return done.returncode, done.stdout
    output = case.output()
    if output is None:
        return subprocess.run(command, preexec_fn=lambda: os.close(1), **options).returncode, b""
    with output:
        return subprocess.run(command, stdout=output, **options).returncode, b""


def plain_files(folder):
    """What the files of a folder hold, by their names; links aren't followed."""
    paths = [path for path in folder.rglob("*") if path.is_file() and not path.is_symlink()]
    return {str(path.relative_to(folder)): path.read_bytes() for path in paths if os.access(path, os.R_OK)}


def wrong_files(case, before, after):
    """The files that the case doesn't allow: changed ones, or written ones that aren't what they may be."""
    for name in sorted({*before, *after, *case.written}):
        content, wanted = after.get(name), case.written.get(name, before.get(name))
        is_beginning = case.status != 0 and name in case.written and wanted.startswith(content or b"")
        is_link = name in case.written and name not in after and name not in before
        if content != wanted and not is_beginning and not is_link:
            yield name


def outcome(program, folder, case):
    """The status, the said bytes and the wrong files of a case."""
    with case.around(folder) if case.around else contextlib.nullcontext():
        if case.before:
            case.before(folder)
        before = plain_files(folder)
        status, said = ended(program, folder, case)
        return status, said, list(wrong_files(case, before, plain_files(folder)))


def check(program, case, with_watchers):
    """Runs a case in a folder of its own and prints what came of it."""
    said = case.said + (WATCHERS if with_watchers and case.said.endswith(BEST) else b"")
    with tempfile.TemporaryDirectory(prefix="hostile") as name:
        folder = pathlib.Path(name)
        folder.chmod(0o777)
        lay_out(folder, {"input.dat": PARAMETERS + case.lines, **TABLES})
        try:
            got = outcome(program, folder, case)
        except Skipped as skipped:
            print(f"skipped: {case.name}: {skipped}")
            return True
    good = got == (case.status, said, [])
    print(f"{'as stated' if good else 'DIFFERS'}: {case.name}: status {got[0]}")
    if not good:
        print(f"  said {got[1]!r}, wrong files {got[2]}; stated: {case.status}, {said!r}")
    return good


def main():
    parser = argparse.ArgumentParser(description=__doc__, formatter_class=argparse.RawDescriptionHelpFormatter)
    parser.add_argument("program", nargs="?")
    parser.add_argument("--without-watchers", action="store_true")
    chosen = parser.parse_args()
    with tempfile.TemporaryDirectory(prefix="program") as name:
        folder = pathlib.Path(name)
        folder.chmod(0o755)
        program = pathlib.Path(shutil.copy(found(chosen.program), folder / "marzone"))
        program.chmod(0o755)
        cases = [*input_cases(), *output_cases(), *saying_cases()]
        results = [check(program, case, not chosen.without_watchers) for case in cases]
    print(f"{len(results)} cases, {results.count(False)} differ")
    raise SystemExit(0 if all(results) else 1)


if __name__ == "__main__":
    main()
