#!/usr/bin/env python3
"""Times whole runs of the program, by 1, 2 and 4 workers, per proposal, beside a plain Rust annealer.

    bench/annealing.py [PROPOSALS [REGION ..]]

It makes regions of the generator's form (seed 7) with 2,000, 20,000 and 100,000 units, and one of 2,000 units that
touch some 100 target rows each, twice: with found temperatures, where most moves are accepted, and at one where few
are. They lie in a folder of its own. It runs the program that `rt ci` left at crates/marzone/out/marzone, and the
annealer of bench/annealing.rs as rustc builds it, on one thread. One worker decides the same history as the annealer,
so their best files must be the same, byte for byte. The program's time for its proposals is that of a run with all of
them less that of a run with none; each is the least of some runs. A line says the region, the workers, the time for a
proposal, the rate as a part of one worker's, the annealer's time, the ratio to it, and how many of 1,000 proposals
found their reading overtaken, as the gate of crates/anneal_bench counts them; that of one worker goes on with how many
of 1,000 were accepted, and with the score. Without a program, or without rustc, what lacks is skipped.
"""

import pathlib
import shutil
import subprocess
import sys
import tempfile
import time
import typing

TOP = pathlib.Path(__file__).resolve().parent.parent
PROGRAM = TOP / "crates" / "marzone" / "out" / "marzone"
COUNTER = TOP / "crates" / "anneal_bench" / "out" / "anneal_bench"
ANNEALER = TOP / "bench" / "annealing.rs"
SEED = 7
ROUNDS = 5
WORKERS = [1, 2, 4]
MASK = 2**64 - 1

KEYS = """PUNAME pu.dat
FEATNAME feat.dat
PUVSFEATNAME amounts.dat
BOUNDNAME bound.dat
ZONESNAME zones.dat
ZONECOSTNAME zonecost.dat
ZONEBOUNDCOSTNAME zonebound.dat
ZONECONTRIBNAME contrib.dat
ZONETARGETNAME ztarget.dat
PULOCKNAME pulock.dat
PUZONENAME puzone.dat
BLM 0.5
RANDSEED {seed}
NUMREPS 1
NUMITNS {proposals}
STARTTEMP {start}
NUMTEMP 1000
RUNMODE 6
SAVEBEST 3
"""


class Region(typing.NamedTuple):
    """A grid of units, how many of 40 draws of a feature give a unit an amount of it, and the temperature, or -1 where
    it is found."""

    rows: int
    columns: int
    features: int
    present: int
    start: int = -1


REGIONS = {
    "2000 units": Region(40, 50, 20, 10),
    "20000 units": Region(100, 200, 20, 10),
    "100000 units": Region(250, 400, 20, 10),
    "2000 units, 100 rows each": Region(40, 50, 200, 20),
    "2000 units, 100 rows each, cool": Region(40, 50, 200, 20, 5),
}


class Pcg32:
    """The words of Pcg32 of a state and a stream."""

    def __init__(self, state, stream):
        self.increment = (stream << 1 | 1) & MASK
        self.state = (state + self.increment) & MASK
        self.step()

    def step(self):
        self.state = (self.state * 6364136223846793005 + self.increment) & MASK

    def pick(self, choices):
        state = self.state
        self.step()
        word = ((state >> 18) ^ state) >> 27 & 0xFFFFFFFF
        turn = state >> 59
        word = (word >> turn | word << (32 - turn)) & 0xFFFFFFFF
        return choices * word >> 32


def table(header, rows):
    return "\n".join([header, *(",".join(map(str, row)) for row in rows)]) + "\n"


def project(region):
    """The files of a region of the generator's form, but for the parameter file."""
    words = Pcg32(SEED, 4095)
    columns, units = region.columns, region.rows * region.columns
    costs, amounts = [], []
    for unit in range(1, units + 1):
        costs.append((unit, 1 + words.pick(100)))
        for feature in range(1, region.features + 1):
            amount = words.pick(40)
            if amount < region.present:
                amounts.append((feature, unit, amount + 1))
    edges = []
    for i in range(units):
        if i % columns != columns - 1:
            edges.append((i + 1, i + 2, 1))
        if i + columns < units:
            edges.append((i + 1, i + 1 + columns, 1))
    features = range(1, region.features + 1)
    return {
        "zones.dat": table("zoneid,zonename", [(1, "available"), (2, "partial"), (3, "full")]),
        "pu.dat": table("id,cost", costs),
        "zonecost.dat": table("zoneid,costid,multiplier", [(2, 1, 0.5), (3, 1, 1)]),
        "feat.dat": table("id,prop,spf,name", [(f, 0.3, 1, f"f{f}") for f in features]),
        "amounts.dat": table("featureid,puid,amount", amounts),
        "contrib.dat": table("zoneid,featureid,fraction", [row for f in features for row in [(2, f, 0.5), (3, f, 1)]]),
        "ztarget.dat": table("zoneid,featureid,target,targettype", [(3, 1, 0.1, 1)]),
        "puzone.dat": table("puid,zoneid", [(i + 1, z) for i in range(100, units, 200) for z in (1, 2)]),
        "pulock.dat": table("puid,zoneid", [(i + 1, 3) for i in range(0, units, 200)]),
        "bound.dat": table("id1,id2,boundary", edges),
        "zonebound.dat": table("zoneid1,zoneid2,cost", [(1, 2, 1), (1, 3, 1), (2, 3, 0.5)]),
    }


def ask(folder, start, proposals):
    """Puts down the parameter file of a run of so many proposals."""
    (folder / "input.dat").write_text(KEYS.format(seed=SEED, start=start, proposals=proposals))


def seconds(folder, workers):
    """The time of a run of the program."""
    began = time.perf_counter()
    run = subprocess.run([PROGRAM, "input.dat", f"{workers}"], cwd=folder, capture_output=True, text=True, check=False)
    taken = time.perf_counter() - began
    if run.returncode != 0:
        sys.exit(f"the program ended with status {run.returncode}: {run.stdout}")
    return taken


def annealed(annealer, folder):
    """The annealer's time for its proposals in nanoseconds, its last score, and how many it accepted."""
    run = subprocess.run([annealer, "."], cwd=folder, capture_output=True, text=True, check=True)
    nanoseconds, score, accepted = run.stdout.split()
    return int(nanoseconds), score, int(accepted)


def measure(folder, start, proposals, annealer):
    """The program's time for a proposal by each number of workers, and the annealer's, in nanoseconds: the least of
    some rounds, in each of which every run is made once, so that a slow moment of the machine tells on all."""
    crews = WORKERS if PROGRAM.exists() else []
    none, whole, simple = {}, {}, []
    for _ in range(ROUNDS):
        ask(folder, start, 0)
        for workers in crews:
            none.setdefault(workers, []).append(seconds(folder, workers))
        ask(folder, start, proposals)
        for workers in crews:
            whole.setdefault(workers, []).append(seconds(folder, workers))
        if annealer:
            simple.append(annealed(annealer, folder)[0])
    times = {workers: (min(whole[workers]) - min(none[workers])) / proposals * 1e9 for workers in crews}
    return times, min(simple) / proposals if simple else None


def overtaken(folder, workers, proposals):
    """How many of 1,000 proposals were overtaken, each time counted."""
    if not COUNTER.exists():
        return "not counted"
    run = subprocess.run([COUNTER, "input.dat", f"{workers}"], cwd=folder, capture_output=True, text=True, check=True)
    counts = dict(line.split() for line in run.stdout.splitlines())
    return f"{1000 * int(counts['again']) / proposals:.2f}"


def verdict(folder, annealer, proposals):
    """How many of 1,000 proposals the annealer accepted, its score, and whether its best file is that of one worker of
    the program."""
    seconds(folder, 1)
    _, score, accepted = annealed(annealer, folder)
    same = (folder / "output_best.csv").read_bytes() == (folder / "plain_best.csv").read_bytes()
    return [f"{1000 * accepted / proposals:.0f}", f"{score}, {'same best file' if same else 'the best files differ'}"]


def compare(name, folder, start, proposals, annealer):
    """Prints a line for each number of workers."""
    times, simple = measure(folder, start, proposals, annealer)
    for workers, taken in times.items():
        cells = [name, f"{workers}", f"{taken:.0f} ns", f"{times[1] / taken:.2f}"]
        if annealer:
            cells += [f"{simple:.0f} ns", f"{taken / simple:.2f}"]
        cells.append(overtaken(folder, workers, proposals))
        if annealer and workers == 1:
            cells += verdict(folder, annealer, proposals)
        print("| " + " | ".join(cells) + " |", flush=True)


def main():
    proposals = int(sys.argv[1]) if len(sys.argv) > 1 else 1_000_000
    with tempfile.TemporaryDirectory() as name:
        top = pathlib.Path(name)
        annealer = None
        if shutil.which("rustc"):
            annealer = top / "annealing"
            subprocess.run(["rustc", "--edition", "2021", "-O", "-C", "target-cpu=x86-64-v2", "-o", annealer, ANNEALER],
                           check=True)
        for place, region in enumerate(sys.argv[2:] or REGIONS):
            folder = top / f"{place}"
            folder.mkdir()
            for file, text in project(REGIONS[region]).items():
                (folder / file).write_text(text)
            compare(region, folder, REGIONS[region].start, proposals, annealer)


if __name__ == "__main__":
    main()
