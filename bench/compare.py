#!/usr/bin/env python3
"""Compares the program's best files with plans worked out by bench/outside.py.

    bench/compare.py [FOLDER..]
    bench/compare.py --made COUNT [FIRST]

Each folder is a project in which one worker anneals one run (RUNMODE 6) and the best file is kept; without
folders, those of examples/ that say so. It runs the program that `rt ci` left at crates/marzone/out/marzone
in a copy of the folder, and says whether the two files are the same, byte for byte. The second form makes
so many small projects by bench/made.py, from the seed FIRST on, and leaves one that differs where it is.
"""

import pathlib
import shutil
import subprocess
import sys
import tempfile

from made import project
from outside import Project, parameters

TOP = pathlib.Path(__file__).resolve().parent.parent
PROGRAM = TOP / "crates" / "marzone" / "out" / "marzone"
ENDINGS = {"1": "dat", "2": "txt", "3": "csv"}


def is_comparable(folder):
    keys = parameters((folder / "input.dat").read_text())
    return keys.get("RUNMODE") == "6" and keys.get("SAVEBEST", "0") != "0" and not keys.get("RANDSEED", "-1").startswith("-")


def files_of(folder):
    """The best file as it was worked out, and as the program writes it."""
    worked_out = Project(folder)
    keys = worked_out.keys
    wanted = worked_out.solution(worked_out.annealed(int(keys["RANDSEED"]), 1))
    run = subprocess.run([PROGRAM, "input.dat", "1"], cwd=folder, capture_output=True, text=True, check=False)
    if run.returncode != 0:
        sys.exit(f"{folder}: the program ended with status {run.returncode}: {run.stdout}")
    best = f"{keys.get('SCENNAME', 'output')}_best.{ENDINGS[keys['SAVEBEST']]}"
    return wanted, (folder / keys.get("OUTPUTDIR", "") / best).read_text()


def compare(folder):
    with tempfile.TemporaryDirectory() as name:
        copy = pathlib.Path(name) / "project"
        shutil.copytree(folder, copy)
        wanted, written = files_of(copy)
    score = next(line for line in wanted.splitlines() if line.startswith("score"))
    print(f"{folder.name}: {score}, {'the same file' if wanted == written else 'ANOTHER FILE'}")
    return wanted == written


def compare_made(count, first):
    for seed in range(first, first + count):
        folder = pathlib.Path(tempfile.mkdtemp(prefix=f"made{seed}_"))
        for name, text in project(seed).items():
            (folder / name).write_text(text)
        wanted, written = files_of(folder)
        if wanted != written:
            sys.exit(f"seed {seed}: the best file of {folder} differs; worked out was\n{wanted}")
        shutil.rmtree(folder)
    print(f"{count} projects from seed {first} on: the same files")


def main():
    if not PROGRAM.exists():
        sys.exit("there is no program: run `rt ci` first")
    if sys.argv[1:2] == ["--made"]:
        compare_made(int(sys.argv[2]), int(sys.argv[3]) if len(sys.argv) > 3 else 1)
        return
    folders = [pathlib.Path(name) for name in sys.argv[1:]] or sorted(
        path.parent for path in (TOP / "examples").glob("*/input.dat"))
    if not all([compare(folder) for folder in folders if is_comparable(folder)]):
        sys.exit(1)


if __name__ == "__main__":
    main()
