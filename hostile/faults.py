#!/usr/bin/env python3
"""Runs the program on small projects made at random, with faults among them, and compares all that it does.

    hostile/faults.py [PROGRAM] [--cases COUNT] [--seed FIRST] [--without-watchers] [--keep FOLDER] [--kinds]

For each case the first fault, or the scores, texts and counts of the written plans, are worked out from the
rules of the profile. Exit status, said bytes and every file are compared. A case that differs is kept.
"""

import argparse
import collections
import pathlib
import random
import shutil
import subprocess
import tempfile
import time

from damage import Damage
from expected import Contradicted, can_tell, entries_of, expected
from program import found, lay_out, run
from projects import Maker
from writing import Writer

MOST_ENTRIES = 20_000
BAD_WORDS = [
    ["input.dat", "0"], ["input.dat", "61"], ["gen", "x"], ["input.dat", "1", "b"], ["gen", "2147483648"],
    ["gen", "-1"], ["input.dat", "00000000001"], ["input.dat", "+1"], ["input.dat", ""], ["gen", "12345678901"],
    ["input.dat", " 1"], ["input.dat", "٣"], ["gen"], ["nowhere.dat"], ["", "1"], [], ["", "gen"], ["gen", "1", "1"],
]


def case_of(seed):
    """The words and the files of a case."""
    dice = random.Random(seed)
    project = Maker(dice).made()
    damage = Damage(dice)
    for _ in range(dice.choice([0, 0, 0, 1, 1, 1, 1, 2, 3])):
        damage.project(project)
    files = Writer(dice).files(project)
    if dice.random() < 0.25:
        damage.files(files)
    return words_of(dice, files), files


def words_of(dice, files):
    """The words: a file and workers in most cases. Several workers only where the rules settle what comes of them."""
    if dice.random() < 0.04:
        words = dice.choice(BAD_WORDS)
        return words if len(words) == 2 or can_tell(words, files) else ["input.dat", "1"]
    workers = str(dice.choice([1, 1, 1, 2, 4, 7]))
    words = ["input.dat", dice.choice([workers, f"000{workers}"])]
    return words if can_tell(words, files) else ["input.dat", "1"]


def differences(program, words, files, with_watchers):
    """What the program did in another way than the rules ask for, and the line that they ask for."""
    if entries_of(words, files) > MOST_ENTRIES:
        return [], b"too long to be worked out"
    with tempfile.TemporaryDirectory(prefix="hostile") as name:
        folder = pathlib.Path(name)
        lay_out(folder, files)
        before = int(time.time())
        try:
            ended = run(program, folder, words)
        except subprocess.TimeoutExpired:
            return ["the program didn't end"], None
    times = before, int(time.time()) + 1
    try:
        status, said, left = expected(words, files, ended, times, with_watchers)
    except Contradicted as contradicted:
        return [f"{contradicted}: status {ended.status}, said {ended.said!r}"], None
    found = []
    if (ended.status, ended.said) != (status, said):
        found.append(f"status {ended.status}, said {ended.said!r}; by the rules status {status}, said {said!r}")
    for file in sorted({*ended.files, *left}):
        if ended.files.get(file) != left.get(file):
            found.append(f"{file}: {ended.files.get(file)!r}; by the rules {left.get(file)!r}")
    return found, said.splitlines()[-1] if status else b"done"


def kind_of(line):
    """The kind of an end, without its numbers, for the count of what was met."""
    return "".join("#" if letter.isdigit() else letter for letter in (line or b"?").decode("utf-8", "replace"))


def keep(folder, seed, words, files, found):
    """Keeps a case that differs."""
    kept = folder / f"case{seed}"
    shutil.rmtree(kept, ignore_errors=True)
    kept.mkdir(parents=True)
    lay_out(kept, files)
    (kept / "DIFFERS.txt").write_text(f"words: {words}\n" + "\n".join(found) + "\n", errors="backslashreplace")
    print(f"seed {seed}, words {words}, kept in {kept}:")
    print("\n".join(found)[:2000], flush=True)


def main():
    parser = argparse.ArgumentParser(description=__doc__, formatter_class=argparse.RawDescriptionHelpFormatter)
    parser.add_argument("program", nargs="?")
    parser.add_argument("--cases", type=int, default=1000)
    parser.add_argument("--seed", type=int, default=1)
    parser.add_argument("--without-watchers", action="store_true")
    parser.add_argument("--kinds", action="store_true", help="print how often each kind of end was met")
    parser.add_argument("--keep", type=pathlib.Path, default=pathlib.Path(tempfile.gettempdir()) / "hostile_cases")
    chosen = parser.parse_args()
    program, differing, kinds = found(chosen.program), 0, collections.Counter()
    print(f"{chosen.cases} cases from seed {chosen.seed} on; those that differ are kept in {chosen.keep}", flush=True)
    for seed in range(chosen.seed, chosen.seed + chosen.cases):
        words, files = case_of(seed)
        differs, line = differences(program, words, files, not chosen.without_watchers)
        kinds[kind_of(line)] += 1
        if differs:
            differing += 1
            keep(chosen.keep, seed, words, files, differs)
    print(f"{chosen.cases} cases, {differing} differ, {kinds['done']} accepted, {len(kinds) - 1} kinds of refusal")
    if chosen.kinds:
        print("\n".join(f"{count:7} {kind}" for kind, count in kinds.most_common()))
    raise SystemExit(1 if differing else 0)


if __name__ == "__main__":
    main()
