"""A whole project: its files in their order, then its limits, or the first fault of all."""

import pathlib
import sys
from fractions import Fraction

import rows
from number_texts import GREATEST, MILLION, TEN4, rounded
from parameter_file import in_folder, read_parameters, refuse
from refusal import ABSENT, FAULT, Refused, refused_input

sys.path.insert(0, str(pathlib.Path(__file__).resolve().parent.parent / "bench"))
from outside import Problem  # noqa: E402

LONGEST = 268_435_456
WORDS = {
    "ZONESNAME": "zones", "COSTSNAME": "costs", "PUNAME": "units", "ZONECOSTNAME": "zonecost", "FEATNAME": "features",
    "PUVSFEATNAME": "amounts", "ZONECONTRIBNAME": "zonecontrib", "ZONETARGETNAME": "zonetarget",
    "PUZONENAME": "puzone", "PULOCKNAME": "pulock", "BOUNDNAME": "bound", "ZONEBOUNDCOSTNAME": "zoneboundcost",
}


def content_of(files, name, word):
    """The bytes of a file. A folder, a name below a file and a name that no file can have are faults."""
    parts = name.split("/")
    if f"{name}/" in files or "\0" in name or any("/".join(parts[:count]) in files for count in range(1, len(parts))):
        raise Refused(FAULT, f"fault: {name}")
    if name not in files:
        raise Refused(ABSENT, f"absent: {name}")
    if len(files[name]) > LONGEST:
        raise refused_input(f"{word}: too long")
    return files[name]


class Reader:
    """Reads the given files one after the other, in the order of faults."""

    def __init__(self, files, name):
        self.files = files
        self.keys = read_parameters(content_of(files, name, "input"))
        self.zones, self.cost_ids, self.cost_names = {1: 0, 2: 1}, {1: 0}, [b"cost"]
        self.features, self.feature_rows, self.amounts = {}, [], {}
        self.targets, self.sets, self.locks, self.lengths = [], {}, {}, {}
        self.read_files()

    def given(self, key):
        """The bytes of the file that a key names; none where it isn't given."""
        if not self.keys[key]:
            return None
        return content_of(self.files, in_folder(self.keys["INPUTDIR"], self.keys[key]), WORDS[key])

    def taken(self, key, read, default, *others):
        """What the file of a key holds; the default where it isn't given."""
        content = self.given(key)
        return default if content is None else read(content, *others)

    def read_files(self):
        self.zones = self.taken("ZONESNAME", rows.read_zones, self.zones)
        if self.keys["AVAILABLEZONE"] not in self.zones:
            raise refuse("AVAILABLEZONE", "out of range")
        self.available = self.zones[self.keys["AVAILABLEZONE"]]
        self.cost_ids, self.cost_names = self.taken("COSTSNAME", rows.read_costs, (self.cost_ids, self.cost_names))
        self.units, self.costs = rows.read_units(self.given("PUNAME"), self.cost_names)
        self.factors = self.taken("ZONECOSTNAME", rows.read_zone_costs, None, self.zones, self.cost_ids)
        self.features, self.feature_rows = self.taken("FEATNAME", rows.read_features, ({}, []))
        self.amounts = self.taken("PUVSFEATNAME", rows.read_amounts, {}, self.units, self.features)
        self.fractions = self.taken("ZONECONTRIBNAME", rows.read_contributions, None, self.zones, self.features)
        self.targets = self.taken("ZONETARGETNAME", rows.read_zone_targets, [], self.zones, self.features)
        self.sets = self.taken("PUZONENAME", rows.read_zone_sets, {}, self.units, self.zones)
        allowed = [sorted(self.sets.get(unit, range(len(self.zones)))) for unit in range(len(self.units))]
        self.locks = self.taken("PULOCKNAME", rows.read_locks, {}, self.units, self.zones, allowed)
        self.allowed = [[self.locks[u]] if u in self.locks else zones for u, zones in enumerate(allowed)]
        self.lengths = self.taken("BOUNDNAME", rows.read_boundaries, {}, self.units)
        self.between = self.taken("ZONEBOUNDCOSTNAME", rows.read_zone_boundaries, None, self.zones)

    # The parts of the problem.

    def factor(self, given, zone, place):
        """A multiplier or a fraction: what isn't listed is 0; without a file 1 outside the available zone."""
        if given is None:
            return 0 if zone == self.available else MILLION
        return given.get((zone, place), 0)

    def cost_terms(self):
        """What each unit costs in each zone."""
        zones = range(len(self.zones))
        return [[rounded(sum(self.factor(self.factors, zone, place) * cost for place, cost in enumerate(own)), MILLION)
                 for zone in zones] for own in self.costs]

    def rates(self):
        """What a boundary of length 1 costs between two zones."""
        zones = range(len(self.zones))
        apart = {(a, b): 0 if a == b else MILLION for a in zones for b in zones}
        between = apart if self.between is None else self.between
        return [[rounded(between.get((a, b), 0) * self.keys["BLM"], MILLION) for b in zones] for a in zones]

    def problem(self):
        """The problem that stands behind the files, within its limits."""
        pairs = {pair: length for pair, length in self.lengths.items() if pair[0] != pair[1]}
        outer = [self.lengths.get((unit, unit), 0) for unit in range(len(self.units))]
        problem = Problem(list(self.units), list(self.zones), self.available, [sum(own) for own in self.costs],
                          self.cost_terms(), self.allowed, pairs, outer, self.rates())
        self.check_sums(problem)
        held = self.held_by_feature()
        if any(sum(own.values()) > GREATEST for own in held):
            raise refused_input("limit: amount")
        problem.rows = [*self.overall_rows(held), *self.zone_rows(held)]
        self.check_rows(problem)
        return problem

    def check_sums(self, problem):
        """The limits on costs and boundaries."""
        dearest = sum(max(terms) for terms in problem.cost)
        if sum(problem.raw) > GREATEST or dearest > GREATEST:
            raise refused_input("limit: cost")
        greatest = max(max(row) for row in problem.rate)
        if greatest > GREATEST:
            raise refused_input("limit: rate")
        if any(length > GREATEST for length in self.lengths.values()):
            raise refused_input("limit: boundary")
        if any(rounded(length * greatest, MILLION) > GREATEST for length in self.lengths.values()):
            raise refused_input("limit: edge")

    def held_by_feature(self):
        """For each feature the positive amounts of units."""
        held = [{} for _ in self.features]
        for (unit, feature), amount in sorted(self.amounts.items()):
            if amount:
                held[feature][unit] = amount
        return held

    def overall_rows(self, held):
        """A target row for each feature."""
        ids = list(self.features)
        for feature, (target, share, factor, name) in enumerate(self.feature_rows):
            amounts = held[feature]
            level = rounded(share * sum(amounts.values()), MILLION) if share else target
            fractions = [self.factor(self.fractions, zone, feature) for zone in range(len(self.zones))]
            yield {"zone": 0, "feature": ids[feature], "name": name, "level": level, "factor": factor,
                   "amounts": amounts, "gain": overall_gain(amounts, fractions)}

    def zone_rows(self, held):
        """A target row for each zone target."""
        ids, zone_ids = list(self.features), list(self.zones)
        for zone, feature, value, kind in self.targets:
            amounts = held[feature]
            level = rounded(value * sum(amounts.values()), MILLION) if kind == 1 else value
            _, _, factor, name = self.feature_rows[feature]
            yield {"zone": zone_ids[zone], "feature": ids[feature], "name": name, "level": level, "factor": factor,
                   "amounts": amounts, "gain": zone_gain(amounts, zone)}

    def check_rows(self, problem):
        """The limits on target rows, and their weights."""
        zones = range(len(self.zones))
        for row in problem.rows:
            if sum(max(row["gain"](unit, zone) for zone in zones) for unit in row["amounts"]) > GREATEST:
                raise refused_input("limit: gain")
        if any(row["level"] > GREATEST for row in problem.rows):
            raise refused_input("limit: level")
        for row in problem.rows:
            row["weight"] = rounded(row["factor"] * base_of(problem.raw, row["amounts"], row["level"]), MILLION)
            if row["weight"] > GREATEST:
                raise refused_input(f"limit: weight of feature {row['feature']}")


def overall_gain(amounts, fractions):
    return lambda unit, zone: rounded(amounts[unit] * fractions[zone], MILLION)


def zone_gain(amounts, wanted):
    return lambda unit, zone: amounts[unit] if zone == wanted else 0


def base_of(raw, amounts, level):
    """The raw cost of the units that reach the level, taken by cost per amount."""
    base, reached = 0, 0
    for unit in sorted(amounts, key=lambda unit: (Fraction(raw[unit], amounts[unit]), unit)):
        if reached >= level:
            break
        base, reached = base + raw[unit], reached + amounts[unit]
    return max(base, TEN4)


def read_project(files, name):
    """The parameters and the problem of a project, or the refusal of its first fault."""
    reader = Reader(files, name)
    return reader.keys, reader.problem()
