#!/usr/bin/env python3
"""Runs the program on the greatest files that are accepted and on the first that are refused, one limit at a time.

    hostile/sizes.py [PROGRAM] [--without-watchers] [--only WORD]

For each it checks the status and the said lines, and prints the time and the peak memory, of which
some 16 MB are those of this script, in whose place the program starts.
"""

import argparse
import itertools
import os
import pathlib
import subprocess
import tempfile
import time
from dataclasses import dataclass, field

from program import found

LONGEST = 268_435_456
BASE = "PUNAME pu.dat\nRANDSEED 7\nSTARTTEMP 0\nRUNMODE 6\n"
UNITS = "id,cost\n1,10\n2,20\n3,30\n"


@dataclass
class Case:
    """Lines of the parameter file and other files, each a list of pieces, and what has to be said."""

    name: str
    status: int
    said: list  # the lines; of those that begin with `watcher` only the beginning counts
    lines: str = ""
    files: dict = field(default_factory=dict)
    workers: int = 1


def refused(text):
    return [f"refused: {text}"]


def done(units="units 3 zones 2 targets 0 free 3", score="0.0000", entries=0, runs=1):
    """The lines of a run that ends well."""
    said = ["seed 7", units, *(f"run {run} score {score} entries {entries}" for run in range(1, runs + 1))]
    return [*said, f"best 1 score {score}"]


def numbered(header, count, row):
    """A table of so many rows, in pieces."""
    yield header + "\n"
    for start in range(0, count, 10_000):
        yield "".join(f"{row(number)}\n" for number in range(start, min(start + 10_000, count)))


def units(count):
    return lambda: numbered("id,cost", count, lambda number: f"{number + 1},{number % 100}")


def pair(count):
    """A function of a row's number that goes through all pairs with one of so many."""
    return lambda number: (number // count + 1, number % count + 1)


def rows_of_pairs(header, rows, count, end):
    return lambda: numbered(header, rows, lambda number: f"{','.join(map(str, pair(count)(number)))}{end}")


def features(count):
    return lambda: numbered("id,target", count, lambda number: f"{number + 1},0")


def zones(count):
    return lambda: numbered("zoneid", count, lambda number: number + 1)


def neighbours(rows, units_count):
    """Pairs of units, each with those behind it."""
    def row(number):
        unit, step = number % units_count, number // units_count + 1
        return f"{unit + 1},{(unit + step) % units_count + 1},1"
    return lambda: numbered("id1,id2,boundary", rows, row)


def padded(text, length):
    """A text with so many empty lines behind it that it has a length in bytes."""
    def pieces():
        yield text
        left = length - len(text)
        while left > 0:
            yield "\n" * min(left, 1 << 20)
            left -= 1 << 20
    return pieces


def unit_cases():
    """The limits on units, amounts and boundaries: the last row that is taken, and the first too many."""
    many = "units 100000 zones 2 targets 0 free 100000"
    keys, lengths = "FEATNAME feat.dat\nPUVSFEATNAME amounts.dat\n", "BOUNDNAME bound.dat\nBLM 1\n"

    def held(rows):
        amounts = rows_of_pairs("puid,featureid,amount", rows, 100, ",1")
        return {"feat.dat": features(100), "pu.dat": units(50_000), "amounts.dat": amounts}

    def apart(rows):
        return {"pu.dat": units(100_000), "bound.dat": neighbours(rows, 100_000)}

    return [
        Case("100,000 units", 0, done(many), files={"pu.dat": units(100_000)}),
        Case("100,001 units", 2, refused("units: line 100002 too many"), files={"pu.dat": units(100_001)}),
        Case("5,000,000 amounts", 0, done("units 50000 zones 2 targets 100 free 50000"), keys, held(5_000_000)),
        Case("5,000,001 amounts", 2, refused("amounts: line 5000002 too many"), keys, held(5_000_001)),
        Case("1,000,000 boundaries", 0, done(many), lengths, apart(1_000_000)),
        Case("1,000,001 boundaries", 2, refused("bound: line 1000002 too many"), lengths, apart(1_000_001)),
    ]


def feature_cases():
    """The limits on features and zone targets."""
    keys = "FEATNAME feat.dat\nPUVSFEATNAME amounts.dat\n"
    zone_keys = f"{keys}ZONESNAME zones.dat\nZONETARGETNAME ztarget.dat\n"
    no_amounts = {"amounts.dat": lambda: ["featureid,puid,amount\n"], "zones.dat": zones(60)}

    def known(count):
        return {**no_amounts, "feat.dat": features(count)}

    def wanted(rows, count=1501):
        return {**known(count), "ztarget.dat": rows_of_pairs("featureid,zoneid,target", rows, 60, ",0")}

    return [
        Case("10,000 features", 0, done("units 3 zones 2 targets 10000 free 3"), keys, known(10_000)),
        Case("10,001 features", 2, refused("features: line 10002 too many"), keys, known(10_001)),
        Case("100,000 target rows", 0, done("units 3 zones 60 targets 100000 free 3"), zone_keys,
             wanted(90_000, 10_000)),
        Case("90,001 zone targets", 2, refused("zonetarget: line 90002 too many"), zone_keys, wanted(90_001)),
    ]


def zone_cases():
    """The limits on zones, costs and zone sets."""
    key = "ZONESNAME zones.dat\n"
    sets = f"{key}PUZONENAME puzone.dat\nAVAILABLEZONE 1\n"
    sixty = {"zones.dat": zones(60), "pu.dat": units(100_000)}
    listed = rows_of_pairs("puid,zoneid", 6_000_000, 60, "")

    def costs(count):
        return {"costs.dat": lambda: numbered("costid,costname", count, lambda number: f"{number + 1},cost")}

    return [
        Case("60 zones", 0, done("units 3 zones 60 targets 0 free 3"), key, {"zones.dat": zones(60)}),
        Case("61 zones", 2, refused("zones: line 62 too many"), key, {"zones.dat": zones(61)}),
        Case("60 costs", 0, done(), "COSTSNAME costs.dat\n", costs(60)),
        Case("61 costs", 2, refused("costs: line 62 too many"), "COSTSNAME costs.dat\n", costs(61)),
        Case("6,000,000 rows of zone sets", 0, done("units 100000 zones 60 targets 0 free 100000"), sets,
             {**sixty, "puzone.dat": listed}),
        Case("6,000,001 rows of zone sets", 2, refused("puzone: line 6000002 too many"), sets,
             {**sixty, "puzone.dat": lambda: itertools.chain(listed(), ["1,1\n"])}),
    ]


def keys_cases():
    """The limits on keys, words and the length of a file."""
    words = "words: use [file [workers]] or gen number"
    return [
        Case("NUMITNS 10,000,000", 0, done(entries=10_000_000), "NUMITNS 10000000\n"),
        Case("NUMITNS 10,000,000 and 60 workers", 0, done(entries=10_000_000), "NUMITNS 10000000\n", workers=60),
        Case("NUMITNS 10,000,001", 2, refused("input: NUMITNS out of range"), "NUMITNS 10000001\n"),
        Case("60 workers", 0, done(entries=100_000), "NUMITNS 100000\n", workers=60),
        Case("61 workers", 1, refused(words), "NUMITNS 100000\n", workers=61),
        Case("NUMREPS 1,000", 0, done(entries=100, runs=1000), "NUMITNS 100\nNUMREPS 1000\nSAVERUN 3\nSAVESUMSOLN 3\n"),
        Case("NUMREPS 1,001", 2, refused("input: NUMREPS out of range"), "NUMREPS 1001\n"),
        Case("NUMTEMP 1,000,000", 0, done(entries=1000), "NUMITNS 1000\nNUMTEMP 1000000\n"),
        Case("NUMTEMP 1,000,001", 2, refused("input: NUMTEMP out of range"), "NUMTEMP 1000001\n"),
        Case("1,000,000,001 entries and more in all runs", 2, refused("input: NUMITNS out of range"),
             "NUMITNS 1000001\nNUMREPS 1000\n"),
        Case("200,000,000 turns", 0, done(entries=10_000_000, runs=20), "NUMITNS 10000000\nNUMREPS 20\nSAVETURNS 1\n"),
        Case("200,000,001 turns and more", 2, refused("input: SAVETURNS out of range"),
             "NUMITNS 1000000\nNUMREPS 201\nSAVETURNS 1\n"),
        Case("a parameter file of 268,435,456 bytes", 0, done(), files={"input.dat": padded(BASE, LONGEST)}),
        Case("a parameter file of 268,435,457 bytes", 2, refused("input: too long"),
             files={"input.dat": padded(BASE, LONGEST + 1)}),
        Case("a unit file of 268,435,456 bytes", 0, done(), files={"pu.dat": padded(UNITS, LONGEST)}),
        Case("a unit file of 268,435,457 bytes", 2, refused("units: too long"),
             files={"pu.dat": padded(UNITS, LONGEST + 1)}),
    ]


def lay_out(folder, case):
    """Writes a case's files piece by piece, so that this script stays small."""
    files = {"input.dat": lambda: [BASE + case.lines], "pu.dat": lambda: [UNITS], **case.files}
    for name, pieces in files.items():
        with open(folder / name, "w", encoding="ascii", newline="") as file:
            file.writelines(pieces())


def measured(program, folder, case):
    """The status, the said lines, the seconds and the peak memory in MB of a run."""
    with open(folder / "said", "wb") as said:
        began = time.monotonic()
        process = subprocess.Popen([program, "input.dat", str(case.workers)], cwd=folder, stdin=subprocess.DEVNULL,
                                   stdout=said)
        _, status, used = os.wait4(process.pid, 0)
        process.returncode = os.waitstatus_to_exitcode(status)
    seconds = time.monotonic() - began
    lines = (folder / "said").read_text(errors="backslashreplace").splitlines()
    return process.returncode, lines, seconds, used.ru_maxrss / 1024


def check(program, case, with_watchers):
    """Runs a case and prints what came of it."""
    with tempfile.TemporaryDirectory(prefix="sizes") as name:
        folder = pathlib.Path(name)
        lay_out(folder, case)
        status, lines, seconds, memory = measured(program, folder, case)
    watchers = [line for line in lines if line.startswith("watcher ")]
    rest = [line for line in lines if not line.startswith("watcher ")]
    wanted = 2 if with_watchers and case.status == 0 else 0
    good = (status, rest, len(watchers)) == (case.status, case.said, wanted)
    verdict = "as stated" if good else "DIFFERS"
    print(f"{verdict}: {case.name}: status {status}, {seconds:.2f} s, {memory:.0f} MB", flush=True)
    if not good:
        print(f"  said {lines[-5:]}, stated {case.status}, {case.said[-5:]}")
    return good


def main():
    parser = argparse.ArgumentParser(description=__doc__, formatter_class=argparse.RawDescriptionHelpFormatter)
    parser.add_argument("program", nargs="?")
    parser.add_argument("--without-watchers", action="store_true")
    parser.add_argument("--only", default="", help="the cases whose name holds this word")
    chosen = parser.parse_args()
    program = found(chosen.program)
    cases = [*keys_cases(), *unit_cases(), *feature_cases(), *zone_cases()]
    cases = [case for case in cases if chosen.only in case.name]
    results = [check(program, case, not chosen.without_watchers) for case in cases]
    print(f"{len(results)} cases, {results.count(False)} differ")
    raise SystemExit(0 if all(results) else 1)


if __name__ == "__main__":
    main()
