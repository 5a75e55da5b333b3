"""Great numbers that stand at a limit, or just above it: for each limit a recipe for a project's tables and keys."""

PARTS = [["100000000000000"], ["100000000000000", "0.0001"], ["99999999999999.9999", "0.0001"],
         ["99999999999999.9999", "0.0002"], ["60000000000000", "40000000000000.0001"], ["50000000000000"] * 2]
FACTORS = ["1", "1.000001", "0.999999", "2", "0.5"]


class Limits:
    """Fills the columns of a project by rolls of its dice."""

    def __init__(self, dice):
        self.dice = dice
        self.recipes = [self.cost, self.zone_cost, self.rate, self.boundary, self.edge, self.amount, self.gain,
                        self.level, self.zone_level, self.weight, self.great_penalty]

    def fill(self, project, key, column, values, rest="0"):
        """Puts values into rows of a column, in any order, and something else into all others."""
        table = project.tables.get(key)
        places = [place for place, names in enumerate(table.columns) if names[0] == column] if table else []
        if not places:
            return
        rows = [row for row in table.rows if places[0] < len(row)]
        self.dice.shuffle(filled := list(rows))
        for number, row in enumerate(filled):
            row[places[0]] = values[number] if number < len(values) else rest

    def set_key(self, project, key, value):
        project.lines = [line for line in project.lines if line[0] != key] + [(key, value)]

    def factor(self):
        return self.dice.choice(FACTORS)

    def fill_costs(self, project, values, rest="0"):
        columns = project.tables["PUNAME"].columns[1:] if "PUNAME" in project.tables else []
        for names in columns:
            self.fill(project, "PUNAME", names[0], values if names is columns[-1] else [], rest)

    def damage(self, project):
        """Follows one recipe."""
        self.dice.choice(self.recipes)(project)

    def cost(self, project):
        self.fill_costs(project, self.dice.choice(PARTS))

    def zone_cost(self, project):
        self.fill_costs(project, self.dice.choice(PARTS))
        self.fill(project, "ZONECOSTNAME", "multiplier", [self.factor()], self.factor())

    def rate(self, project):
        self.fill(project, "ZONEBOUNDCOSTNAME", "cost", ["1000000000000"])
        self.set_key(project, "BLM", self.factor())

    def boundary(self, project):
        self.fill(project, "BOUNDNAME", "boundary", self.dice.choice(PARTS))
        self.set_key(project, "BLM", self.dice.choice(["0", "0.5", "1"]))
        if (table := project.tables.get("BOUNDNAME")) and len(table.rows) > 1 and len(table.rows[0]) > 1:
            self.same_pair(table)

    def same_pair(self, table):
        """Makes all rows one pair, in either order."""
        pair = table.rows[0][:2]
        for row in table.rows:
            row[:2] = self.dice.choice([pair, pair[::-1]])

    def edge(self, project):
        self.fill(project, "BOUNDNAME", "boundary", ["100000000000000"])
        self.set_key(project, "BLM", self.factor())

    def amount(self, project):
        self.fill(project, "PUVSFEATNAME", "featureid", [], self.first_feature(project))
        self.fill(project, "PUVSFEATNAME", "amount", self.dice.choice(PARTS))

    def first_feature(self, project):
        table = project.tables.get("FEATNAME")
        return table.rows[0][0] if table and table.rows and table.rows[0] else "1"

    def gain(self, project):
        self.amount(project)
        self.fill(project, "ZONECONTRIBNAME", "fraction", [self.factor()], self.factor())

    def level(self, project):
        self.amount(project)
        self.fill(project, "FEATNAME", "prop", [self.factor()], self.factor())

    def zone_level(self, project):
        self.amount(project)
        self.fill(project, "ZONETARGETNAME", "target", [], self.factor())
        self.fill(project, "ZONETARGETNAME", "targettype", [], "1")

    def weight(self, project):
        """A hundred times the greatest penalty factor is at the limit."""
        costs = [["100"], ["100.0001"], ["50", "50"], ["50", "50.0001"], ["0"]]
        self.fill_costs(project, self.dice.choice(costs))
        self.fill(project, "FEATNAME", "spf", [self.dice.choice(["1000000000000", "999999999999.999999"])], "1")
        self.fill(project, "FEATNAME", "target", ["100000000000000"] * 9)
        self.fill(project, "FEATNAME", "prop", [])

    def great_penalty(self, project):
        """Great weights and levels that are within the limits, so that scores are great."""
        self.fill(project, "FEATNAME", "spf", [], "1000000000")
        self.fill(project, "FEATNAME", "target", [], self.dice.choice(["100000000000000", "0.0001", "7"]))
        self.fill_costs(project, [], "1000")
