#!/usr/bin/env python3
"""Shows that a parameter file of one byte too many is refused, and that one of the greatest length is read.

    bench/long_file.py

It writes parameter files of 268,435,457 and of 268,435,456 bytes, in a folder of its own, and runs the
program that `rt ci` left at crates/marzone/out/marzone on each. It ends with status 1 where the program
says or answers anything else than it must.
"""

import pathlib
import subprocess
import sys
import tempfile

TOP = pathlib.Path(__file__).resolve().parent.parent
PROGRAM = TOP / "crates" / "marzone" / "out" / "marzone"
MOST_BYTES = 268_435_456


def answer(folder, length):
    """The exit status, and what is said, for a parameter file of so many bytes that names no unit file."""
    with open(folder / "input.dat", "wb") as file:
        file.write(b"\n")
        file.truncate(length)
    done = subprocess.run([PROGRAM, "input.dat", "1"], cwd=folder, capture_output=True)
    return done.returncode, done.stdout


def main():
    wanted = {
        MOST_BYTES + 1: (2, b"refused: input: too long\n"),
        MOST_BYTES: (2, b"refused: input: PUNAME missing\n"),
    }
    right = True
    with tempfile.TemporaryDirectory() as name:
        for length, want in wanted.items():
            found = answer(pathlib.Path(name), length)
            print(length, "bytes:", found)
            right = right and found == want
    return 0 if right else 1


if __name__ == "__main__":
    sys.exit(main())
