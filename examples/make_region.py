#!/usr/bin/env python3
"""Makes the project examples/region: a grid of 400 planning units in three zones, with 12 features.

    examples/make_region.py [FOLDER]

The units stand in 20 rows of 20. Each has a cost, which rises towards one corner, and holds some of the
features; a feature lies round a centre of its own. The partial zone holds half of an amount at half the
cost. A corner is locked into the full zone, and the opposite one may not be reserved in full. The numbers
are drawn from a fixed seed, so the files are the same each time.
"""

import pathlib
import random
import sys

SIDE = 20
FEATURES = 12

INPUT = """A region of 400 planning units, made by examples/make_region.py.

PUNAME pu.dat
FEATNAME feat.dat
PUVSFEATNAME amounts.dat
BOUNDNAME bound.dat
ZONESNAME zones.dat
ZONECOSTNAME zonecost.dat
ZONECONTRIBNAME contrib.dat
ZONETARGETNAME ztarget.dat
ZONEBOUNDCOSTNAME zonebound.dat
PUZONENAME puzone.dat
PULOCKNAME pulock.dat
BLM 0.5
RANDSEED 3
NUMITNS 20000
STARTTEMP 2
RUNMODE 6
SAVEBEST 3
SCENNAME output_region
"""


def unit_at(row, column):
    return row * SIDE + column + 1


def places():
    return [(row, column) for row in range(SIDE) for column in range(SIDE)]


def costs(rng):
    for row, column in places():
        yield f"{unit_at(row, column)},{5 + (row + column) // 2 + rng.randint(0, 400) / 100:.2f}"


def amounts(rng):
    for feature in range(1, FEATURES + 1):
        centre = rng.randrange(SIDE), rng.randrange(SIDE)
        reach = rng.randint(3, 8)
        for row, column in places():
            away = abs(row - centre[0]) + abs(column - centre[1])
            if away < reach:
                yield f"{feature},{unit_at(row, column)},{(reach - away) * rng.randint(5, 20) / 10:.1f}"


def boundaries():
    for row, column in places():
        if column + 1 < SIDE:
            yield f"{unit_at(row, column)},{unit_at(row, column + 1)},1"
        if row + 1 < SIDE:
            yield f"{unit_at(row, column)},{unit_at(row + 1, column)},1"


def corner(rows):
    return [unit_at(row, column) for row in rows for column in rows]


def files():
    rng = random.Random(3)
    far = corner(range(SIDE - 3, SIDE))
    return {
        "zones.dat": ("zoneid,zonename", ["1,available", "2,partial", "3,full"]),
        "zonecost.dat": ("zoneid,costid,multiplier", ["2,1,0.5", "3,1,1"]),
        "zonebound.dat": ("zoneid1,zoneid2,cost", ["1,2,1", "1,3,1", "2,3,0.5"]),
        "pu.dat": ("id,cost", costs(rng)),
        "feat.dat": ("id,prop,spf,name", [f"{feature},0.3,2,feature {feature}" for feature in range(1, FEATURES + 1)]),
        "amounts.dat": ("featureid,puid,amount", amounts(rng)),
        "contrib.dat": ("zoneid,featureid,fraction", [f"{zone},{feature},{part}" for feature in range(1, FEATURES + 1) for zone, part in ((2, 0.5), (3, 1))]),
        "ztarget.dat": ("zoneid,featureid,target,targettype", ["3,1,0.1,1"]),
        "puzone.dat": ("puid,zoneid", [f"{unit},{zone}" for unit in far for zone in (1, 2)]),
        "pulock.dat": ("puid,zoneid", [f"{unit},3" for unit in corner(range(2))]),
        "bound.dat": ("id1,id2,boundary", boundaries()),
    }


def main():
    top = pathlib.Path(__file__).resolve().parent
    folder = pathlib.Path(sys.argv[1]) if len(sys.argv) > 1 else top / "region"
    folder.mkdir(parents=True, exist_ok=True)
    (folder / "input.dat").write_text(INPUT)
    for name, (header, rows) in files().items():
        (folder / name).write_text("\n".join([header, *rows]) + "\n")


if __name__ == "__main__":
    main()
