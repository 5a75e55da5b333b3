"""Works out small projects by itself, from the rules of the profile and not from the program's code.

It reads a project that has no faults and gives its plan's file as the program should write it: one worker,
one run. Whole sums are taken for every proposal, so it is slow, and simple enough to be read.
"""

import csv
import io
import pathlib
from dataclasses import dataclass, field
from decimal import ROUND_HALF_UP, Decimal

TEN4 = 10_000
MILLION = 1_000_000
MASK = 2**64 - 1
SAMPLE_SEAT, START_SEAT = 61, 62


def rounded(p, q):
    return (2 * p + q) // (2 * q)


def scaled(text, scale):
    return int((Decimal(text.strip()) * scale).to_integral_value(ROUND_HALF_UP))


class Words:
    """The words of a seat in a run: Pcg32 with the random seed as state and run * 64 + seat as stream."""

    def __init__(self, seed, run, seat):
        self.increment = ((run * 64 + seat) << 1 | 1) & MASK
        self.state = (seed + self.increment) & MASK
        self._step()

    def _step(self):
        self.state = (self.state * 6364136223846793005 + self.increment) & MASK

    def next(self):
        old = self.state
        self._step()
        word = ((old >> 18) ^ old) >> 27 & 0xFFFFFFFF
        turn = old >> 59
        return (word >> turn | word << (32 - turn)) & 0xFFFFFFFF


def pick(choices, word):
    return word * choices >> 32


def stairs():
    steps = [2**32]
    while len(steps) < 1408:
        steps.append(steps[-1] - steps[-1] // 64)
    return steps


STAIRS = stairs()


def is_accepted(change, temperature, word):
    if change <= 0:
        return True
    step = 64_000 * change // temperature
    return step < len(STAIRS) and word < STAIRS[step]


@dataclass
class Problem:
    unit_ids: list
    zone_ids: list
    available: int
    raw: list  # unit -> sum of its costs
    cost: list  # unit -> zone -> term
    allowed: list
    pairs: dict  # (u, v) -> length
    outer: list
    rate: list
    rows: list = field(default_factory=list)  # target rows

    @property
    def free(self):
        return [u for u, zones in enumerate(self.allowed) if len(zones) > 1]

    def held(self, plan):
        return [sum(row["gain"](u, plan[u]) for u in row["amounts"]) for row in self.rows]

    def score(self, plan):
        """Cost, boundary, penalty and shortfall of a plan."""
        cost = sum(self.cost[u][zone] for u, zone in enumerate(plan))
        boundary = sum(rounded(length * self.rate[plan[u]][plan[v]], MILLION) for (u, v), length in self.pairs.items())
        boundary += sum(rounded(self.outer[u] * self.rate[zone][self.available], MILLION) for u, zone in enumerate(plan))
        short = [max(0, row["level"] - held) for row, held in zip(self.rows, self.held(plan))]
        terms = [rounded(row["weight"] * s, row["level"]) for row, s in zip(self.rows, short) if row["level"] > 0]
        return cost, boundary, sum(terms), sum(short)

    def total(self, plan):
        return sum(self.score(plan)[:3])

    def move(self, plan, draw):
        unit, shift, _ = draw
        zones = self.allowed[unit]
        moved = list(plan)
        moved[unit] = zones[(zones.index(plan[unit]) + shift) % len(zones)]
        return moved

    def draw(self, words):
        free = self.free
        unit = free[pick(len(free), words.next())]
        shift = 1 + pick(len(self.allowed[unit]) - 1, words.next())
        return unit, shift, words.next()


def parameters(text):
    found = {}
    for line in text.lstrip("\ufeff").split("\n"):
        parts = line.strip(" \t\r").split(None, 1)
        if len(parts) == 2 and parts[0].isascii():
            found.setdefault(parts[0].upper(), parts[1].strip(" \t"))
    return found


class Project:
    def __init__(self, folder, parameter_file="input.dat"):
        self.folder = pathlib.Path(folder)
        self.keys = parameters((self.folder / parameter_file).read_text())
        self.problem = self._read()

    def number(self, key, default, scale):
        return scaled(self.keys.get(key, str(default)), scale)

    def table(self, key, names):
        """The rows of a given file, as dictionaries by the first of each column's names; None without it."""
        if key not in self.keys:
            return None
        text = (self.folder / self.keys.get("INPUTDIR", "") / self.keys[key]).read_text()
        head = text.lstrip("\ufeff").split("\n", 1)[0]
        delimiter = max("\t;,", key=lambda mark: (mark in head, mark == "\t", mark == ";"))
        rows = list(csv.reader(io.StringIO(text.lstrip("\ufeff")), delimiter=delimiter))
        header = [cell.strip() for cell in rows[0]]
        places = {}
        for name, others in names.items():
            for other in (name, *others):
                if other in header:
                    places[name] = header.index(other)
                    break
        return [{name: row[place].strip() for name, place in places.items()} for row in rows[1:] if row]

    def _read(self):
        zones = self.table("ZONESNAME", {"zoneid": ["id"]})
        zone_ids = [int(row["zoneid"]) for row in zones] if zones is not None else [1, 2]
        available = zone_ids.index(int(self.keys.get("AVAILABLEZONE", "1")))
        costs = self.table("COSTSNAME", {"costid": ["id"], "costname": ["name"]})
        cost_ids, cost_names = [1], ["cost"]
        if costs is not None:
            cost_ids, cost_names = [int(r["costid"]) for r in costs], [r["costname"] for r in costs]
        units = self.table("PUNAME", {"id": [], **{name: [] for name in cost_names}})
        unit_ids = [int(row["id"]) for row in units]
        own = [[scaled(row[name], TEN4) for name in cost_names] for row in units]
        places = range(len(zone_ids))
        factor = [[0 if z == available else MILLION for _ in cost_ids] for z in places]
        zone_costs = self.table("ZONECOSTNAME", {"zoneid": [], "costid": [], "multiplier": []})
        if zone_costs is not None:
            factor = [[0] * len(cost_ids) for _ in places]
            for row in zone_costs:
                zone, cost = zone_ids.index(int(row["zoneid"])), cost_ids.index(int(row["costid"]))
                factor[zone][cost] = scaled(row["multiplier"], MILLION)
        terms = [[rounded(sum(f * c for f, c in zip(factor[z], row)), MILLION) for z in places] for row in own]
        pairs, outer = self._boundaries(unit_ids)
        problem = Problem(unit_ids, zone_ids, available, [sum(row) for row in own], terms,
                          self._allowed(unit_ids, zone_ids), pairs, outer, self._rates(zone_ids))
        self._targets(problem)
        return problem

    def _allowed(self, unit_ids, zone_ids):
        allowed = [list(range(len(zone_ids))) for _ in unit_ids]
        listed = {}
        for row in self.table("PUZONENAME", {"puid": [], "zoneid": []}) or []:
            listed.setdefault(unit_ids.index(int(row["puid"])), set()).add(zone_ids.index(int(row["zoneid"])))
        for unit, zones in listed.items():
            allowed[unit] = sorted(zones)
        for row in self.table("PULOCKNAME", {"puid": [], "zoneid": []}) or []:
            allowed[unit_ids.index(int(row["puid"]))] = [zone_ids.index(int(row["zoneid"]))]
        return allowed

    def _rates(self, zone_ids):
        places = range(len(zone_ids))
        between = [[0 if a == b else MILLION for b in places] for a in places]
        rows = self.table("ZONEBOUNDCOSTNAME", {"zoneid1": [], "zoneid2": [], "cost": []})
        if rows is not None:
            between = [[0] * len(zone_ids) for _ in places]
            for row in rows:
                a, b = zone_ids.index(int(row["zoneid1"])), zone_ids.index(int(row["zoneid2"]))
                between[a][b] = between[b][a] = scaled(row["cost"], MILLION)
        modifier = self.number("BLM", 0, MILLION)
        return [[rounded(cost * modifier, MILLION) for cost in row] for row in between]

    def _boundaries(self, unit_ids):
        pairs, outer = {}, [0] * len(unit_ids)
        for row in self.table("BOUNDNAME", {"id1": [], "id2": [], "boundary": []}) or []:
            a, b = sorted(unit_ids.index(int(row[name])) for name in ("id1", "id2"))
            length = scaled(row["boundary"], TEN4)
            if a == b:
                outer[a] += length
            else:
                pairs[a, b] = pairs.get((a, b), 0) + length
        return pairs, outer

    def _targets(self, problem):
        wanted = {"id": [], "target": [], "prop": [], "spf": ["fpf"]}
        features = self.table("FEATNAME", wanted) or []
        ids = [int(row["id"]) for row in features]
        amounts = [{} for _ in ids]
        for row in self.table("PUVSFEATNAME", {"featureid": ["species"], "puid": ["pu"], "amount": []}) or []:
            feature, unit = ids.index(int(row["featureid"])), problem.unit_ids.index(int(row["puid"]))
            amounts[feature][unit] = amounts[feature].get(unit, 0) + scaled(row["amount"], TEN4)
        zones = range(len(problem.zone_ids))
        share = [[0 if z == problem.available else MILLION for z in zones] for _ in ids]
        rows = self.table("ZONECONTRIBNAME", {"zoneid": [], "featureid": [], "fraction": []})
        if rows is not None:
            share = [[0 for _ in zones] for _ in ids]
            for row in rows:
                share[ids.index(int(row["featureid"]))][problem.zone_ids.index(int(row["zoneid"]))] = \
                    scaled(row["fraction"], MILLION)
        weights = [scaled(row.get("spf") or "1", MILLION) for row in features]
        for feature, row in enumerate(features):
            proportion = scaled(row.get("prop") or "0", MILLION)
            whole = sum(amounts[feature].values())
            level = rounded(proportion * whole, MILLION) if proportion else scaled(row.get("target") or "0", TEN4)
            held = amounts[feature]
            fractions = share[feature]
            gain = lambda u, z, held=held, fractions=fractions: rounded(held[u] * fractions[z], MILLION)
            self._add_row(problem, held, level, weights[feature], gain)
        wanted = {"zoneid": [], "featureid": [], "target": [], "targettype": []}
        for row in self.table("ZONETARGETNAME", wanted) or []:
            zone, feature = problem.zone_ids.index(int(row["zoneid"])), ids.index(int(row["featureid"]))
            held = amounts[feature]
            if int(row.get("targettype") or "0") == 1:
                level = rounded(scaled(row["target"], MILLION) * sum(held.values()), MILLION)
            else:
                level = scaled(row["target"], TEN4)
            gain = lambda u, z, held=held, zone=zone: held[u] if z == zone else 0
            self._add_row(problem, held, level, weights[feature], gain)

    @staticmethod
    def _add_row(problem, amounts, level, weight, gain):
        order = sorted((u for u, amount in amounts.items() if amount > 0),
                       key=lambda u: (Decimal(problem.raw[u]) / amounts[u], u))
        base, reached = 0, 0
        for unit in order:
            if reached >= level:
                break
            base, reached = base + problem.raw[unit], reached + amounts[unit]
        problem.rows.append({"amounts": amounts, "level": level, "gain": gain,
                             "weight": rounded(weight * max(base, TEN4), MILLION)})

    # The search.

    def start(self, seed, run):
        words = Words(seed, run, START_SEAT)
        share = self.number("PROP", 0, MILLION)
        plan = []
        for zones in self.problem.allowed:
            if len(zones) == 1:
                plan.append(zones[0])
                continue
            first, second = words.next(), words.next()
            if first < share * 2**32 // MILLION:
                plan.append(zones[pick(len(zones), second)])
            else:
                plan.append(self.problem.available if self.problem.available in zones else zones[0])
        return plan

    def temperatures(self, plan, seed, run):
        levels = int(self.keys.get("NUMTEMP", "1"))
        if Decimal(self.keys.get("STARTTEMP", "-1")) >= 0:
            first = max(1, 1000 * self.number("STARTTEMP", 0, TEN4))
            factor = self.number("COOLFAC", 1, MILLION) * 1000
        else:
            words, changes = Words(seed, run, SAMPLE_SEAT), [0] * 1000
            if self.problem.free:
                before = self.problem.total(plan)
                changes = [self.problem.total(self.problem.move(plan, self.problem.draw(words))) - before
                           for _ in changes]
            sizes = [abs(change) for change in changes]
            first = 1000 * max(1, *sizes)
            end = max(1, 100 * min((size for size in sizes if size), default=0))
            factor = greatest_factor(first, end, levels)
        found = [first]
        while len(found) < levels:
            found.append(max(1, found[-1] * factor // 10**9))
        return found

    def annealed(self, seed, run):
        """The plan that one worker leaves, and the changes of score that were accepted."""
        plan = self.start(seed, run)
        proposals = int(self.keys.get("NUMITNS", "0"))
        if not self.problem.free or int(self.keys.get("RUNMODE", "1")) == 4:
            return plan
        temperatures = self.temperatures(plan, seed, run)
        words = Words(seed, run, 0)
        before = self.problem.total(plan)
        for position in range(proposals):
            draw = self.problem.draw(words)
            moved = self.problem.move(plan, draw)
            after = self.problem.total(moved)
            temperature = temperatures[position * len(temperatures) // proposals]
            if is_accepted(after - before, temperature, draw[2]):
                plan, before = moved, after
        return plan

    def solution(self, plan):
        """The text of a plan's file."""
        lines = ["planning_unit,zone"]
        lines += [f"{unit},{self.problem.zone_ids[zone]}" for unit, zone in zip(self.problem.unit_ids, plan)]
        cost, boundary, penalty, shortfall = self.problem.score(plan)
        numbers = [cost + boundary + penalty, cost, boundary, penalty, shortfall]
        for name, number in zip(("score", "cost", "boundary", "penalty", "shortfall"), numbers):
            lines.append(f"{name},{number // TEN4}.{number % TEN4:04}")
        return "\n".join(lines) + "\n"


def greatest_factor(first, end, levels):
    """The greatest factor below one whose steps lead from the first temperature to at most the end."""
    def last(factor):
        temperature = first
        for _ in range(levels):
            temperature = max(1, temperature * factor // 10**9)
        return temperature
    low, high = 0, 10**9
    while low + 1 < high:
        middle = (low + high) // 2
        low, high = (middle, high) if last(middle) <= end else (low, middle)
    return low
