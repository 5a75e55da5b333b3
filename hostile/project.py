#!/usr/bin/env python3
"""Runs the program on a project of a folder, and compares all that it does with what the rules ask for.

    hostile/project.py FOLDER [WORKERS [PROGRAM]]

The project's parameter file is `input.dat`. It is run in a folder of its own, with `SAVETURNS 2` where the file has no
such line: one worker's run is worked out beforehand, and of several workers the written turns are played by whole
sums, and must lead to the lines and the files that the program left.
"""

import pathlib
import sys

import faults
from program import files_of, found


def project_of(folder):
    """The files of a project, with its turns asked for."""
    files = {name: text for name, text in files_of(folder).items() if not name.startswith("output")}
    if b"SAVETURNS" not in files["input.dat"]:
        files["input.dat"] += b"\nSAVETURNS 2\n"
    return files


def main():
    faults.MOST_ENTRIES = sys.maxsize
    program = found(sys.argv[3] if len(sys.argv) > 3 else None)
    words = ["input.dat", sys.argv[2] if len(sys.argv) > 2 else "4"]
    differing, line = faults.differences(program, words, project_of(pathlib.Path(sys.argv[1])), True)
    print("\n".join(differing) if differing else f"nothing differs: {line.decode()}")
    sys.exit(1 if differing else 0)


if __name__ == "__main__":
    main()
