"""Projects made at random: their parameters and tables, not yet written out as files."""

from dataclasses import dataclass, field

SHARES = ["0", "0.25", "0.333333", "0.5", "1", "1.5", "2E-1", ".7", "1.", "+1", "0.0000005"]
SAVES = ["SAVERUN", "SAVEBEST", "SAVESUMMARY", "SAVETARGMET", "SAVESUMSOLN", "SAVETURNS"]
NAMES = ["f", "", "a wood", 'a "b" c', "x,y", "line\nend", "café", "tab\there", '"', "cr\rend", " padded "]


@dataclass
class Table:
    """A table's columns, each by the names that it may have, and its rows."""

    columns: list
    rows: list


@dataclass
class Project:
    """The lines of a parameter file, each a key and a value, and the tables by the keys of their names."""

    lines: list = field(default_factory=list)
    tables: dict = field(default_factory=dict)
    names: dict = field(default_factory=dict)

    def value(self, key):
        """The first value of a key."""
        return next((value for name, value in self.lines if name == key), None)


def amount(dice, most):
    """An amount; often one of a few, so that ties come."""
    if dice.random() < 0.4:
        return dice.choice(["0", "1", "2", "4"])
    return f"{dice.randrange(most * 10_000) / 10_000:.{dice.choice([0, 1, 4, 5])}f}"


class Maker:
    """Makes one project by rolls of its dice."""

    def __init__(self, dice):
        self.dice = dice
        self.project = Project()
        self.units = dice.sample(range(0, 60), dice.choice([0, 1, 2, 3, 4, 5, 6, 7]))
        self.zones, self.costs, self.features = [1, 2], [(1, "cost")], []

    def chance(self, share):
        return self.dice.random() < share

    def give(self, key, columns, rows):
        self.project.tables[key] = Table(columns, [list(map(str, row)) for row in rows])
        self.project.names[key] = f"{key.lower().removesuffix('name')}.dat"

    def made(self):
        self.add_zones_and_costs()
        self.add_units()
        if self.chance(0.8):
            self.add_features()
        self.add_zone_sets()
        self.add_boundaries()
        self.add_parameters()
        return self.project

    def add_zones_and_costs(self):
        if self.chance(0.7):
            self.zones = self.dice.sample(range(0, 9), self.dice.randrange(1, 5))
            self.give("ZONESNAME", [["zoneid", "id"], ["zonename", "name"]], [(z, f"z{z}") for z in self.zones])
        if self.chance(0.6):
            names = ["land", "care", "Cost", "land", "the, cost"]
            ids = self.dice.sample(range(9), self.dice.randrange(3))
            self.costs = [(number, self.dice.choice(names)) for number in ids]
            self.give("COSTSNAME", [["costid", "id"], ["costname", "name"]], self.costs)

    def add_units(self):
        """Costs of one name read one column, so each name has one."""
        names = list(dict.fromkeys(name for _, name in self.costs))
        rows = [[unit, *(amount(self.dice, 50) for _ in names)] for unit in self.units]
        self.give("PUNAME", [["id"], *([name] for name in names)], rows)
        if self.chance(0.6):
            pairs = [(zone, cost) for zone in self.zones for cost, _ in self.costs if self.chance(0.8)]
            rows = [(*pair, self.dice.choice(SHARES)) for pair in pairs]
            self.give("ZONECOSTNAME", [["zoneid"], ["costid"], ["multiplier"]], rows)

    def add_features(self):
        dice = self.dice
        self.features = dice.sample(range(20), dice.randrange(4))
        rows = [(f, amount(dice, 30), dice.choice(["0", "", dice.choice(SHARES)]), dice.choice(["", *SHARES, "10"]),
                 dice.choice(NAMES), dice.choice(["", "0", "0.0"])) for f in self.features]
        left_out = dice.choice(["target2", "sepnum", "sepdistance", "targetocc"])
        columns = [["id"], ["target"], ["prop"], ["spf", "fpf"], ["name"], [left_out]]
        self.give("FEATNAME", columns, rows)
        self.add_amounts()
        pairs = [(zone, feature) for zone in self.zones for feature in self.features]
        if self.chance(0.6):
            rows = [(*pair, dice.choice(SHARES)) for pair in pairs if self.chance(0.8)]
            self.give("ZONECONTRIBNAME", [["zoneid"], ["featureid"], ["fraction"]], rows)
        if self.chance(0.6):
            pairs = [pair for pair in pairs if self.chance(0.4)]
            rows = [(*pair, dice.choice([*SHARES, "7"]), dice.choice(["0", "1", ""])) for pair in pairs]
            self.give("ZONETARGETNAME", [["zoneid"], ["featureid"], ["target"], ["targettype"]], rows)

    def add_amounts(self):
        """Amounts at random, or as large as a cost of their unit: cost per amount is then the same for all."""
        dice = self.dice
        costs = {row[0]: row[-1] for row in self.project.tables["PUNAME"].rows} if self.chance(0.2) else {}
        held = [(f, u, costs.get(str(u)) or amount(dice, 20)) for f in self.features for u in self.units
                for _ in range(1 if costs else dice.randrange(3))]
        dice.shuffle(held)
        self.give("PUVSFEATNAME", [["featureid", "species"], ["puid", "pu"], ["amount"]], held)

    def add_zone_sets(self):
        dice, listed = self.dice, {}
        if self.chance(0.5):
            listed = {u: dice.choices(self.zones, k=dice.randrange(1, 4)) for u in self.units if self.chance(0.4)}
            rows = [(u, zone) for u, zones in listed.items() for zone in zones]
            dice.shuffle(rows)
            self.give("PUZONENAME", [["puid"], ["zoneid"]], rows)
        if self.chance(0.5):
            rows = [(u, dice.choice(listed.get(u, self.zones))) for u in self.units if self.chance(0.3)]
            self.give("PULOCKNAME", [["puid"], ["zoneid"]], rows)

    def add_boundaries(self):
        dice = self.dice
        if self.chance(0.7):
            count = dice.randrange(12) if self.units else 0
            rows = [(dice.choice(self.units), dice.choice(self.units), amount(dice, 9)) for _ in range(count)]
            self.give("BOUNDNAME", [["id1"], ["id2"], ["boundary"]], rows)
        if self.chance(0.5):
            zones = self.zones
            pairs = [dice.sample([zones[i], zones[j]], 2) for i in range(len(zones)) for j in range(i + 1)]
            rows = [(*pair, dice.choice(SHARES)) for pair in pairs if self.chance(0.8)]
            rows += [[row[1], row[0], row[2]] for row in rows if self.chance(0.2)]
            self.give("ZONEBOUNDCOSTNAME", [["zoneid1"], ["zoneid2"], ["cost"]], rows)

    def add_parameters(self):
        dice = self.dice
        choices = {
            "BLM": [*SHARES, "10"], "PROP": ["0", "0.5", "1", "0.25"], "MISSLEVEL": ["0", "0.5", "1", "0.999999"],
            "RANDSEED": [*map(str, range(50)), "2147483647", "-1", "-0"], "NUMREPS": ["1", "1", "2", "3"],
            "NUMITNS": [*map(str, range(0, 150, 7)), "64", "65"],
            "STARTTEMP": ["-1", "0", "3", "40", "1E3", "-0.00000001", "-1E9999"], "COOLFAC": ["0", "0.5", "0.9", "1"],
            "NUMTEMP": [*map(str, range(1, 8)), "1000"], "RUNMODE": ["1", "4", "6", "6", "+1"],
            **dict.fromkeys(SAVES, ["0", "1", "2", "3", "3"]), "SCENNAME": ["output", "a b", "x.y", "", "é"],
            "CLUMPTYPE": ["0"], "COSTTHRESH": ["0.0000001"], "ASYMMETRICCONNECTIVITY": ["-0"],
        }
        lines = [(key, dice.choice(values)) for key, values in choices.items() if self.chance(0.8)]
        if "ZONESNAME" in self.project.tables or self.chance(0.3):
            lines.append(("AVAILABLEZONE", str(dice.choice(self.zones))))
        lines += list(self.project.names.items())
        if self.chance(0.3):
            lines.append(("INPUTDIR", dice.choice(["in", "in/", "in\\", "in/deep", ""])))
        if self.chance(0.3):
            lines.append(("OUTPUTDIR", dice.choice(["out", "out/", "in", ""])))
        dice.shuffle(lines)
        self.project.lines = lines
