#!/usr/bin/env python3
"""Times the judging of moves: judged moves per second, on one thread, for the proved program and a
plain Rust loop over the same data.

    bench/judging.py [MOVES]

It makes grids of 2,000 and of 100,000 units, in a folder of its own, each with targets that are met, with
targets that are missed (levels at 70% of the totals), and with missed targets of great numbers, whose
penalties don't fit 64 bits. It runs the program that `rt ci` left at crates/judge_bench/out/judge_bench,
and the loop of bench/judging.rs as rustc builds it. Without rustc only the first is timed. Reading the
region is timed by a run that judges nothing, and taken away. Both programs print the same sum where they
do the same work. The plain loop divides in 128 bits where the region's numbers ask for it.
"""

import pathlib
import random
import shutil
import subprocess
import sys
import tempfile
import time

TOP = pathlib.Path(__file__).resolve().parent.parent
PROGRAM = TOP / "crates" / "judge_bench" / "out" / "judge_bench"
LOOP = TOP / "bench" / "judging.rs"
FEATURES = 20
UNIT = 10_000  # scores are whole ten-thousandths
ROUNDS = 5


class Kind:
    """What a region's targets ask: a part of each total, and whether the numbers are great ones."""

    def __init__(self, name, tenths, great):
        self.name = name
        self.tenths = tenths
        self.great = great


KINDS = [
    Kind("targets met", 3, False),
    Kind("targets missed", 7, False),
    Kind("targets missed, great numbers", 7, True),
]
MOST = 10**12  # the greatest level and weight that the program reads


def region(rows, columns, kind, seed):
    """The numbers of a region, in the order in which crates/judge_bench/src/region.rt reads them."""
    rng = random.Random(seed)
    units = rows * columns
    numbers = [units]
    for _ in range(units):
        cost = rng.randint(1, 100) * UNIT
        numbers += [0, cost // 2, cost]
    pairs = []
    for unit in range(units):
        if unit % columns != columns - 1:
            pairs.append((unit, unit + 1, UNIT))
        if unit + columns < units:
            pairs.append((unit, unit + columns, UNIT))
    numbers.append(len(pairs))
    for pair in pairs:
        numbers += pair
    amounts = []
    totals = [0] * FEATURES
    for unit in range(units):
        for feature in range(FEATURES):
            if rng.randrange(4) == 0:
                amount = rng.randint(1, 10) * (10**7 if kind.great else UNIT)
                amounts.append((unit, feature, amount))
                totals[feature] += amount
    numbers.append(FEATURES)
    for total in totals:
        level = min(kind.tenths * total // 10, MOST)
        numbers += [level, MOST if kind.great else 5 * level]
    numbers.append(len(amounts))
    for amount in amounts:
        numbers += amount
    return numbers


def run(program, *words):
    """What the program prints, and how long it takes in seconds: the least of some rounds."""
    least = None
    for _ in range(ROUNDS):
        start = time.perf_counter()
        said = subprocess.run([str(program), *map(str, words)], capture_output=True, check=True, text=True).stdout
        took = time.perf_counter() - start
        least = took if least is None else min(least, took)
    return said.strip(), least


def timed(name, program, file, moves):
    """Judges the moves, and prints how many there are in a second beside the reading of the region."""
    _, reading = run(program, file, 0)
    said, whole = run(program, file, moves)
    judging = max(whole - reading, 1e-9)
    print(f"{name:16} {moves / judging:14,.0f} moves/s {1e9 * judging / moves:8.1f} ns each   {said}")
    return said


def built(folder):
    """The plain loop, as rustc builds it, or none where rustc is missing."""
    if shutil.which("rustc") is None:
        return None
    program = folder / "judging"
    subprocess.run(["rustc", "-O", "-C", "target-cpu=x86-64", "-o", str(program), str(LOOP)], check=True)
    return program


def main():
    moves = int(sys.argv[1]) if len(sys.argv) > 1 else 2_000_000
    if not PROGRAM.exists():
        sys.exit(f"{PROGRAM} isn't there: run `rt ci` first")
    with tempfile.TemporaryDirectory() as name:
        folder = pathlib.Path(name)
        loop = built(folder)
        for rows, columns in [(40, 50), (250, 400)]:
            for kind in KINDS:
                file = folder / "region"
                file.write_text("\n".join(map(str, region(rows, columns, kind, 1))) + "\n")
                print(f"{rows * columns:,} units, {kind.name}")
                proved = timed("proved", PROGRAM, file, moves)
                if loop is None:
                    print("plain Rust       left out: there is no rustc")
                elif timed("plain Rust", loop, file, moves) != proved:
                    sys.exit("the two programs say different things")


if __name__ == "__main__":
    main()
