"""A run of the search: the starting plan, the history that turns play, and the improved plan, by whole sums."""

from dataclasses import dataclass, field

import reading  # noqa: F401 (makes bench/ importable)
from number_texts import MILLION
from outside import SAMPLE_SEAT, START_SEAT, Words, greatest_factor, is_accepted, pick


@dataclass
class Run:
    """What a run ends with: its plan, its turns and the changes of its entries (none where refused)."""

    plan: list
    turns: list
    accepted: list = field(default_factory=list)


class Search:
    """The runs of a project for one random seed."""

    def __init__(self, keys, problem, seed):
        self.keys, self.problem, self.seed = keys, problem, seed
        self.totals = {}

    def total(self, plan):
        """The score of a plan."""
        plan = tuple(plan)
        if plan not in self.totals:
            self.totals[plan] = self.problem.total(plan)
        return self.totals[plan]

    def entries(self):
        """How many entries a run has."""
        return self.keys["NUMITNS"] if self.keys["RUNMODE"] != 4 and self.problem.free else 0

    def start(self, run):
        """The starting plan of a run."""
        words, plan = Words(self.seed, run, START_SEAT), []
        drawn_below = self.keys["PROP"] * 2**32 // MILLION
        for zones in self.problem.allowed:
            if len(zones) == 1:
                plan.append(zones[0])
                continue
            first, second = words.next(), words.next()
            settled = self.problem.available if self.problem.available in zones else zones[0]
            plan.append(zones[pick(len(zones), second)] if first < drawn_below else settled)
        return plan

    def first_and_factor(self, plan, run):
        """The first temperature and the factor from level to level."""
        if self.keys["STARTTEMP"] is not None:
            return max(1, 1000 * self.keys["STARTTEMP"]), self.keys["COOLFAC"] * 1000
        words, before = Words(self.seed, run, SAMPLE_SEAT), self.total(plan)
        sizes = [abs(self.total(self.problem.move(plan, self.problem.draw(words))) - before) for _ in range(1000)]
        first = 1000 * max(1, *sizes)
        end = max(1, 100 * min((size for size in sizes if size), default=0))
        return first, greatest_factor(first, end, self.keys["NUMTEMP"])

    def temperatures(self, plan, run):
        """The temperature of each level."""
        first, factor = self.first_and_factor(plan, run)
        found = [first]
        while len(found) < self.keys["NUMTEMP"]:
            found.append(max(1, found[-1] * factor // 10**9))
        return found

    def annealed(self, run, turns):
        """The history that turns play."""
        plan = self.start(run)
        if not turns:
            return Run(plan, turns)
        temperatures, words, changes = self.temperatures(plan, run), {}, []
        for position, seat in enumerate(turns):
            seat_words = words.setdefault(seat, Words(self.seed, run, seat))
            draw = self.problem.draw(seat_words)
            moved = self.problem.move(plan, draw)
            change = self.total(moved) - self.total(plan)
            accepted = is_accepted(change, temperatures[position * len(temperatures) // len(turns)], draw[2])
            plan = moved if accepted else plan
            changes.append(change if accepted else None)
        return Run(plan, turns, changes)

    def improved(self, plan):
        """The plan after passes over the units, of which the last changes nothing."""
        plan, changed = list(plan), True
        while changed:
            changed = False
            for unit, zones in enumerate(self.problem.allowed):
                best = min(zones, key=lambda zone: (self.moved_total(plan, unit, zone), zone != plan[unit], zone))
                changed = changed or best != plan[unit]
                plan[unit] = best
        return plan

    def moved_total(self, plan, unit, zone):
        """The score with one unit in another zone."""
        return self.total([*plan[:unit], zone, *plan[unit + 1:]])

    def run(self, number, turns):
        """A whole run."""
        ended = self.annealed(number, turns)
        if self.keys["RUNMODE"] != 6:
            ended.plan = self.improved(ended.plan)
        return ended


def watchers(runs):
    """The reports of the two watchers: how many entries were accepted; where the last run scored least."""
    accepted = sum(change is not None for run in runs for change in run.accepted)
    total = least = place = 0
    for at, change in enumerate(runs[-1].accepted if runs else []):
        total += change or 0
        if change is not None and total < least:
            least, place = total, at + 1
    return [accepted, place]
