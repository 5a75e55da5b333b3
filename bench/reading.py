#!/usr/bin/env python3
"""Times how the program reads a project: time and peak memory, beside a plain pass over the same bytes.

    bench/reading.py

It makes projects of 2,000, 20,000 and 100,000 planning units (three zones, two costs, zone costs, zone
sets, locks, 20 features with amounts in a quarter of the pairs, contributions, a zone target, the
boundaries of a grid, zone boundary costs), one with 5,000,000 rows of amounts, one at the limits (100,000
units, 60 zones, 1,500 features, 5,000,000 amounts, 90,000 zone targets), and unit files of 5,000,000 rows,
short and long ones, whose tables are read whole before the 100,001st row is refused; and, where rustc is there,
100,000 units with 1,000,000 amounts, once with ids that share a place in an index whose hash has a fixed key,
and once with plain ids: both should take the same time. It runs the
program that `rt ci` left at crates/marzone/out/marzone on each, in a folder of its own, and `wc -l` over
the same files. A figure is the least of three runs.
"""

import os
import pathlib
import random
import shutil
import subprocess
import sys
import tempfile
import time

TOP = pathlib.Path(__file__).resolve().parent.parent
PROGRAM = TOP / "crates" / "marzone" / "out" / "marzone"
RUNS = 3

INPUT = """PUNAME pu.dat
ZONESNAME zones.dat
COSTSNAME costs.dat
ZONECOSTNAME zonecost.dat
FEATNAME feat.dat
PUVSFEATNAME amounts.dat
ZONECONTRIBNAME contrib.dat
ZONETARGETNAME ztarget.dat
PUZONENAME puzone.dat
PULOCKNAME pulock.dat
BOUNDNAME bound.dat
ZONEBOUNDCOSTNAME zonebound.dat
BLM 0.5
RANDSEED 1
NUMITNS 0
STARTTEMP 0
RUNMODE 6
"""


def grid(units, columns):
    """The boundaries of units in rows of so many columns, each of length 1."""
    for unit in range(1, units + 1):
        if unit % columns != 0:
            yield f"{unit},{unit + 1},1"
        if unit + columns <= units:
            yield f"{unit},{unit + columns},1"


def project(folder, units, features, part):
    """Writes a project of so many units and features, with amounts in one of `part` pairs, and gives the
    names of its files."""
    rng = random.Random(units)
    texts = {
        "input.dat": INPUT,
        "zones.dat": "zoneid,zonename\n1,available\n2,partial\n3,full\n",
        "costs.dat": "costid,costname\n1,land\n2,care\n",
        "zonecost.dat": "zoneid,costid,multiplier\n2,1,0.5\n3,1,1\n3,2,1\n",
        "zonebound.dat": "zoneid1,zoneid2,cost\n1,2,1\n1,3,1\n2,3,0.5\n",
        "ztarget.dat": "zoneid,featureid,target,targettype\n3,1,0.1,1\n",
    }
    rows = {
        "pu.dat": ["id,land,care"],
        "puzone.dat": ["puid,zoneid"],
        "pulock.dat": ["puid,zoneid"],
        "feat.dat": ["id,prop,spf,name"],
        "amounts.dat": ["featureid,puid,amount"],
        "contrib.dat": ["zoneid,featureid,fraction"],
        "bound.dat": ["id1,id2,boundary", *grid(units, 50)],
    }
    rows["pu.dat"] += [f"{unit},{rng.randint(1, 10000) / 100},{rng.randint(0, 500) / 100}" for unit in range(1, units + 1)]
    rows["puzone.dat"] += [f"{unit},{zone}" for unit in range(1, units + 1, 20) for zone in (1, 2)]
    rows["pulock.dat"] += [f"{unit},3" for unit in range(2, units + 1, 20)]
    rows["feat.dat"] += [f"{feature},0.3,1,f{feature}" for feature in range(1, features + 1)]
    rows["contrib.dat"] += [f"{zone},{feature},{part_of}" for feature in range(1, features + 1) for zone, part_of in ((2, 0.5), (3, 1))]
    rows["amounts.dat"] += [
        f"{feature},{unit},{rng.randint(1, 10)}"
        for unit in range(1, units + 1)
        for feature in range(1, features + 1)
        if part == 1 or rng.randrange(part) == 0
    ]
    for name, lines in rows.items():
        texts[name] = "\n".join(lines) + "\n"
    for name, text in texts.items():
        (folder / name).write_text(text)
    return sorted(texts)


def at_the_limits(folder):
    """Writes a project of 100,000 units, 60 zones, 1,500 features, 50 amounts of each unit and a zone target of
    each feature in each zone, and gives the names of its files."""
    units, zones, features, each = 100_000, 60, 1_500, 50
    rng = random.Random(zones)
    rows = {
        "input.dat": [
            "PUNAME pu.dat",
            "ZONESNAME zones.dat",
            "FEATNAME feat.dat",
            "PUVSFEATNAME amounts.dat",
            "ZONETARGETNAME ztarget.dat",
            "RANDSEED 1",
            "NUMITNS 0",
            "STARTTEMP 0",
            "RUNMODE 6",
        ],
        "zones.dat": ["zoneid,zonename", *(f"{zone},z{zone}" for zone in range(1, zones + 1))],
        "pu.dat": ["id,cost", *(f"{unit},{rng.randint(1, 10000) / 100}" for unit in range(1, units + 1))],
        "feat.dat": ["id,prop,spf,name", *(f"{feature},0.3,1,f{feature}" for feature in range(1, features + 1))],
        "amounts.dat": ["featureid,puid,amount"],
        "ztarget.dat": ["zoneid,featureid,target,targettype"],
    }
    rows["amounts.dat"] += [
        f"{(unit + 30 * step) % features + 1},{unit},{rng.randint(1, 10)}" for unit in range(1, units + 1) for step in range(each)
    ]
    rows["ztarget.dat"] += [f"{zone},{feature},0.01,1" for feature in range(1, features + 1) for zone in range(1, zones + 1)]
    for name, lines in rows.items():
        (folder / name).write_text("\n".join(lines) + "\n")
    return sorted(rows)


def long_table(folder, rows, note):
    """Writes a project whose unit file has so many rows, with a note in each that no column asks for."""
    (folder / "input.dat").write_text("PUNAME pu.dat\nSTARTTEMP 0\nRUNMODE 6\n")
    with open(folder / "pu.dat", "w") as file:
        file.write("id,cost,note\n")
        for first in range(1, rows + 1, 100_000):
            last = min(first + 100_000, rows + 1)
            file.write("".join(f"{unit},{unit % 100000 / 100:.2f},{note}\n" for unit in range(first, last)))
    return ["input.dat", "pu.dat"]


def looked_up(folder, ids):
    """Writes a project of units of these ids and ten times as many rows of amounts, which name the last of them."""
    (folder / "input.dat").write_text("PUNAME pu.dat\nFEATNAME feat.dat\nPUVSFEATNAME amounts.dat\nNUMITNS 0\nSTARTTEMP 0\nRUNMODE 6\n")
    (folder / "feat.dat").write_text("id\n1\n")
    (folder / "pu.dat").write_text("id,cost\n" + "".join(f"{unit},1\n" for unit in ids))
    last = ids[-10_000:]
    with open(folder / "amounts.dat", "w") as file:
        file.write("featureid,puid,amount\n")
        for _ in range(10 * len(ids) // len(last)):
            file.write("".join(f"1,{unit},1\n" for unit in last))
    return ["input.dat", "feat.dat", "pu.dat", "amounts.dat"]


def colliding(folder, count):
    """Ids that share a place in an index whose hash has a fixed key; none without rustc."""
    if shutil.which("rustc") is None:
        return []
    program = folder / "colliding"
    subprocess.run(["rustc", "-O", "-o", str(program), str(TOP / "bench" / "colliding.rs")], check=True)
    return subprocess.run([str(program), str(count)], check=True, capture_output=True, text=True).stdout.split()


def measured(command, folder):
    """The seconds and the peak memory, in MiB, of a command in a folder; the least time of some runs."""
    best = None
    for _ in range(RUNS):
        start = time.perf_counter()
        child = os.fork()
        if child == 0:
            os.chdir(folder)
            null = os.open(os.devnull, os.O_WRONLY)
            os.dup2(null, 1)
            os.execv(command[0], command)
        _, _, usage = os.wait4(child, 0)
        seconds = time.perf_counter() - start
        if best is None or seconds < best[0]:
            best = (seconds, usage.ru_maxrss / 1024)
    return best


def line(title, folder, names):
    size = sum((folder / name).stat().st_size for name in names) / 2**20
    seconds, memory = measured([str(PROGRAM), "input.dat", "1"], folder)
    plain, plain_memory = measured([shutil.which("wc"), "-l", *names], folder)
    print(f"| {title} | {size:.1f} MiB | {seconds:.3f} s | {memory:.0f} MiB | {plain:.3f} s | {plain_memory:.0f} MiB |", flush=True)


def main():
    if not PROGRAM.exists():
        print("skipped: run `rt ci` first, it leaves the program at", PROGRAM.relative_to(TOP))
        return 0
    print("| Project | Files | Read | Peak memory | Plain pass | Its memory |\n|---|---|---|---|---|---|")
    with tempfile.TemporaryDirectory() as name:
        for title, units, features, part in (
            ("2000 units", 2_000, 20, 4),
            ("20000 units", 20_000, 20, 4),
            ("100000 units", 100_000, 20, 4),
            ("5000000 amounts", 100_000, 50, 1),
        ):
            folder = pathlib.Path(name) / title.replace(" ", "_")
            folder.mkdir()
            line(title, folder, project(folder, units, features, part))
        folder = pathlib.Path(name) / "at_the_limits"
        folder.mkdir()
        line("60 zones, 90000 zone targets", folder, at_the_limits(folder))
        for title, note in (("5000000 rows", ""), ("5000000 long rows", "n" * 38)):
            folder = pathlib.Path(name) / title.replace(" ", "_")
            folder.mkdir()
            line(title, folder, long_table(folder, 5_000_000, note))
        ids = colliding(pathlib.Path(name), 100_000)
        for title, some in (("colliding ids", ids), ("plain ids", [str(unit) for unit in range(1, len(ids) + 1)])):
            if some:
                folder = pathlib.Path(name) / title.replace(" ", "_")
                folder.mkdir()
                line(title, folder, looked_up(folder, some))
    return 0


if __name__ == "__main__":
    sys.exit(main())
