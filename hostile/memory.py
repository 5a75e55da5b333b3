#!/usr/bin/env python3
"""Refuses each allocation of the program in turn, and checks what it then leaves.

    hostile/memory.py [PROGRAM] [--without-watchers]

Two projects are run: the stored one of the program, and one with every file, two workers and 100 entries. Each
allocation is refused alone, and then with all that follow. A run has to end with status 5 and a beginning of what
a whole run does, each file and line whole; or with status 0 and all of it.
"""

import argparse
import collections
import pathlib
import sys
import tempfile

from expected import performed
from outputs import Acts, output_name, turns_of
from program import TOP, found, lay_out, run
from reading import read_project
from refusing import library, run_refusing
from search import Run, Search

NO_MEMORY = 5
ALL = 10**9
TWO_WORKERS = {
    "input.dat": "INPUTDIR in\nPUNAME pu.dat\nFEATNAME feat.dat\nPUVSFEATNAME amounts.dat\nBOUNDNAME bound.dat\n"
                 "ZONESNAME zones.dat\nCOSTSNAME costs.dat\nZONECOSTNAME zonecost.dat\n"
                 "ZONEBOUNDCOSTNAME zonebound.dat\nZONECONTRIBNAME contrib.dat\nZONETARGETNAME ztarget.dat\n"
                 "PULOCKNAME pulock.dat\nPUZONENAME puzone.dat\nBLM 0.5\nPROP 0.5\nRANDSEED 7\nNUMREPS 2\n"
                 "NUMITNS 100\nSTARTTEMP -1\nNUMTEMP 5\nRUNMODE 1\nSAVERUN 1\nSAVEBEST 2\nSAVESUMMARY 3\n"
                 "SAVETARGMET 1\nSAVESUMSOLN 2\nSAVETURNS 3\n",
    "in/zones.dat": "zoneid,zonename\n1,available\n2,partial\n3,full\n",
    "in/costs.dat": "costid,costname\n1,land\n2,care\n",
    "in/pu.dat": "id,land,care\n1,10,1\n2,20,2.5\n3,30,0\n4,15,1\n5,25,3\n",
    "in/zonecost.dat": "zoneid,costid,multiplier\n2,1,0.5\n3,1,1\n3,2,1\n",
    "in/feat.dat": "id,target,prop,spf,name\n1,4,0,2,oak\n2,0,0.4,1,\"a \"\"wet\"\" heath\"\n",
    "in/amounts.dat": "featureid,puid,amount\n1,1,2\n1,2,3\n1,3,4\n2,3,1\n2,4,2\n2,5,6\n",
    "in/contrib.dat": "zoneid,featureid,fraction\n2,1,0.5\n3,1,1\n3,2,1\n",
    "in/ztarget.dat": "zoneid,featureid,target,targettype\n3,1,0.3,1\n2,2,1,0\n",
    "in/puzone.dat": "puid,zoneid\n2,1\n2,3\n",
    "in/pulock.dat": "puid,zoneid\n5,3\n",
    "in/bound.dat": "id1,id2,boundary\n1,2,5\n2,3,7\n3,4,2\n4,5,1\n1,1,2\n",
    "in/zonebound.dat": "zoneid1,zoneid2,cost\n1,2,1\n1,3,1\n2,3,0.5\n",
}


def stored_project():
    """The files and the words of the program's stored run."""
    crate = TOP / "crates" / "marzone"
    words = (crate / "args").read_text().split("\n")
    return {path.name: path.read_bytes() for path in (crate / "data").iterdir()}, [word for word in words if word]


def written_plan(problem, text):
    """The plan that a file of a solution states."""
    lines = text.decode().splitlines()[1:1 + len(problem.unit_ids)]
    plan = [problem.zone_ids.index(int(line.split(",")[1])) for line in lines]
    if any(zone not in zones for zone, zones in zip(plan, problem.allowed)):
        raise ValueError("a written plan has a zone that a unit may not have")
    return plan


class Promise:
    """What the program may leave of a project: the states along the acts of its runs."""

    def __init__(self, files, words, with_watchers):
        self.files, self.words, self.with_watchers = files, words, with_watchers
        self.keys, self.problem = read_project(files, words[0])
        self.search = Search(self.keys, self.problem, self.keys["RANDSEED"])
        self.settled = None

    def runs_of(self, ended):
        """The runs as far as the files settle them: one worker's are known, others stand in the files."""
        if int(self.words[1]) == 1:
            turns = [[0] * self.search.entries() for _ in range(self.keys["NUMREPS"])]
        else:
            text = ended.files.get(output_name(self.keys, "SAVETURNS", "_turns"))
            turns = turns_of(text) if text else None
        if turns is not None:
            if self.settled is None or self.settled[0] != turns:
                self.settled = turns, [self.search.run(number, run) for number, run in enumerate(turns, 1)]
            return self.settled[1]
        names = [output_name(self.keys, "SAVERUN", f"_r{number:05}") for number in range(1, self.keys["NUMREPS"] + 1)]
        plans = [written_plan(self.problem, ended.files[name]) for name in names if name in ended.files]
        return [Run(plan, [0] * self.search.entries()) for plan in plans]

    def beginnings(self, ended):
        """The acts that are settled: those of the runs so far, and the closing where these are all."""
        runs = self.runs_of(ended)
        acts = Acts(self.keys, self.problem, runs or [Run(self.search.start(1), [])], self.keys["RANDSEED"],
                    self.with_watchers).acts
        if not runs:
            return acts[:1]
        if len(runs) < self.keys["NUMREPS"]:
            closing = next((place for place, act in enumerate(acts) if "_best." in act.name), len(acts))
            return acts[:closing]
        return acts

    def is_kept(self, ended, was_refused):
        """Whether a run's end is one of those that are promised."""
        acts = self.beginnings(ended)
        if ended.status == 0:
            return performed(acts, self.files) == (0, ended.said, ended.files)
        return was_refused and ended.status == NO_MEMORY and any(
            performed(acts[:count], self.files)[1:] == (ended.said, ended.files) for count in range(len(acts) + 1))


def once(program, promise, **options):
    """One run in a folder of its own."""
    with tempfile.TemporaryDirectory(prefix="hostile") as folder:
        lay_out(pathlib.Path(folder), promise.files)
        return run(program, pathlib.Path(folder), promise.words, **options)


def refuse_in_turn(program, made, promise, onwards):
    """Refuses each allocation, alone or with all that follow: how many there were, the ends, and the differing ones."""
    ends, differing, number = collections.Counter(), [], 0
    while True:
        number += 1
        ended, was_refused = run_refusing(lambda **options: once(program, promise, **options), made, number,
                                          ALL if onwards else number)
        if not promise.is_kept(ended, was_refused):
            differing.append((number, ended))
        if not was_refused:
            return number - 1, ends, differing
        ends[ended.status] += 1


def check(program, made, name, promise):
    """Both ways to refuse, over one project."""
    good = True
    for onwards in (False, True):
        count, ends, differing = refuse_in_turn(program, made, promise, onwards)
        way = "with all that follow" if onwards else "alone"
        print(f"{name}: {count} allocations, each refused {way}: ends {dict(ends)}, {len(differing)} not as promised")
        for number, ended in differing[:20]:
            written = sorted(set(ended.files) - set(promise.files))
            print(f"  allocation {number}: status {ended.status}, said {ended.said!r}, written {written}")
        good = good and not differing and count > 0
    return good


def main():
    parser = argparse.ArgumentParser(description=__doc__, formatter_class=argparse.RawDescriptionHelpFormatter)
    parser.add_argument("program", nargs="?")
    parser.add_argument("--without-watchers", action="store_true")
    chosen = parser.parse_args()
    program = found(chosen.program)
    files, words = stored_project()
    two = {name: text.encode() for name, text in TWO_WORKERS.items()}
    projects = [("the stored project", files, words), ("two workers", two, ["input.dat", "2"])]
    with tempfile.TemporaryDirectory(prefix="refusing") as folder:
        made = library(folder)
        if made is None:
            sys.exit("skipped: there is no C compiler for the library that refuses")
        results = [check(program, made, name, Promise(files, words, not chosen.without_watchers))
                   for name, files, words in projects]
    raise SystemExit(0 if all(results) else 1)


if __name__ == "__main__":
    main()
