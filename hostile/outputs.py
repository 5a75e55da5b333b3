"""What a project that is accepted says and writes, in the order in which it does so."""

from dataclasses import dataclass

from number_texts import MILLION, TEN4
from parameter_file import in_folder
from search import watchers

ENDINGS = {1: "dat", 2: "txt", 3: "csv"}
SEATS = "0123456789ABCDEFGHIJKLMNOPQRSTUVWXYZabcdefghijklmnopqrstuvwx"


@dataclass
class Act:
    """A file that is written, or a text that is said where it has no name."""

    name: str
    content: bytes


def four(value):
    """Ten-thousandths as text."""
    return f"{value // TEN4}.{value % TEN4:04}"


def quoted(name):
    """A name as a field: in quotes where it holds a comma, a quote or a line's end."""
    if any(byte in name for byte in (b",", b'"', b"\r", b"\n")):
        name = b'"' + name.replace(b'"', b'""') + b'"'
    return name


def solution_text(problem, plan):
    lines = ["planning_unit,zone"]
    lines += [f"{unit},{problem.zone_ids[zone]}" for unit, zone in zip(problem.unit_ids, plan)]
    cost, boundary, penalty, shortfall = problem.score(plan)
    numbers = [cost + boundary + penalty, cost, boundary, penalty, shortfall]
    names = ["score", "cost", "boundary", "penalty", "shortfall"]
    lines += [f"{name},{four(number)}" for name, number in zip(names, numbers)]
    return "".join(f"{line}\n" for line in lines).encode()


def is_met(keys, row, held):
    return held * MILLION >= keys["MISSLEVEL"] * row["level"]


def missing_text(keys, problem, plan):
    text = b"target,zone,feature,name,level,held,shortfall,met\n"
    for number, (row, held) in enumerate(zip(problem.rows, problem.held(plan)), 1):
        short = max(0, row["level"] - held)
        met = "yes" if is_met(keys, row, held) else "no"
        text += f"{number},{row['zone']},{row['feature']},".encode() + quoted(row["name"])
        text += f",{four(row['level'])},{four(held)},{four(short)},{met}\n".encode()
    return text


def summary_text(keys, problem, runs, seed):
    lines = ["run,score,cost,boundary,penalty,shortfall,missing,entries,seed"]
    for number, run in enumerate(runs, 1):
        scores = problem.score(run.plan)
        missing = sum(not is_met(keys, row, held) for row, held in zip(problem.rows, problem.held(run.plan)))
        numbers = [four(sum(scores[:3])), *map(four, scores), missing, len(run.turns), seed]
        lines.append(",".join(map(str, [number, *numbers])))
    return "".join(f"{line}\n" for line in lines).encode()


def summed_text(problem, runs):
    lines = ["planning_unit" + "".join(f",zone{zone}" for zone in problem.zone_ids)]
    for unit, number in enumerate(problem.unit_ids):
        zones = [run.plan[unit] for run in runs]
        lines.append(",".join(map(str, [number, *(zones.count(zone) for zone in range(len(problem.zone_ids)))])))
    return "".join(f"{line}\n" for line in lines).encode()


def turns_text(runs, seed):
    lines = ["marzone turns 1"]
    for number, run in enumerate(runs, 1):
        lines.append(f"run {number} seed {seed} entries {len(run.turns)}")
        seats = "".join(SEATS[seat] for seat in run.turns)
        lines += [seats[at:at + 64] for at in range(0, len(seats), 64)]
    return "".join(f"{line}\n" for line in lines).encode()


def turns_of(text):
    """The seats of each run in a file of turns."""
    found = []
    for line in text.decode().splitlines()[1:]:
        if line.startswith("run "):
            found.append([])
        else:
            found[-1] += [SEATS.index(seat) for seat in line]
    return found


class Acts:
    """All acts of a project's runs."""

    def __init__(self, keys, problem, runs, seed, with_watchers):
        self.keys, self.problem, self.runs, self.seed = keys, problem, runs, seed
        self.acts = []
        self.say(f"seed {seed}\nunits {len(problem.unit_ids)} zones {len(problem.zone_ids)} "
                 f"targets {len(problem.rows)} free {len(problem.free)}\n")
        for number, run in enumerate(runs, 1):
            self.add_run(number, run)
        self.add_closing(with_watchers)

    def say(self, text):
        self.acts.append(Act("", text.encode()))

    def write(self, key, part, content):
        """Writes a file where its key asks for it."""
        if self.keys[key]:
            name = output_name(self.keys, key, part)
            self.acts.append(Act(name, content))

    def total(self, run):
        return sum(self.problem.score(run.plan)[:3])

    def add_run(self, number, run):
        self.write("SAVERUN", f"_r{number:05}", solution_text(self.problem, run.plan))
        self.write("SAVETARGMET", f"_mv{number:05}", missing_text(self.keys, self.problem, run.plan))
        self.say(f"run {number} score {four(self.total(run))} entries {len(run.turns)}\n")

    def add_closing(self, with_watchers):
        best = min(range(len(self.runs)), key=lambda run: (self.total(self.runs[run]), run))
        plan = self.runs[best].plan
        self.write("SAVEBEST", "_best", solution_text(self.problem, plan))
        self.write("SAVETARGMET", "_mvbest", missing_text(self.keys, self.problem, plan))
        self.write("SAVESUMMARY", "_sum", summary_text(self.keys, self.problem, self.runs, self.seed))
        self.write("SAVESUMSOLN", "_ssoln", summed_text(self.problem, self.runs))
        self.write("SAVETURNS", "_turns", turns_text(self.runs, self.seed))
        reports = watchers(self.runs) if with_watchers else []
        lines = "".join(f"watcher {number} {report}\n" for number, report in enumerate(reports, 1))
        self.say(f"best {best + 1} score {four(self.total(self.runs[best]))}\n{lines}")


def output_name(keys, key, part):
    """The name of an output file."""
    return in_folder(keys["OUTPUTDIR"], f"{keys['SCENNAME']}{part}.{ENDINGS[keys[key]]}")
