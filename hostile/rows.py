"""The rows of each table: what they hold, or the first fault of a row."""

from dataclasses import dataclass

from number_texts import MILLION, NumberFault, mic6, ten4, whole
from refusal import refused_input
from tables import read_table

UNITS, FEATURES, ZONES, COSTS = 100_000, 10_000, 60, 60
AMOUNTS, BOUNDARIES, ZONE_TARGETS, ZONE_SETS = 5_000_000, 1_000_000, 90_000, 6_000_000


@dataclass
class Column:
    """A column: its name in messages, the names that its header may have, and whether it is needed."""

    title: str
    names: list
    is_needed: bool = True


class Sheet:
    """A table that is read row by row, with refusals that name its word, a line and a column."""

    def __init__(self, word, content, columns, most=None):
        self.word, self.most = word, most
        self.titles = [column.title for column in columns]
        self.rows = read_table(word, content, columns)
        self.line = 1

    def refuse(self, text):
        return refused_input(f"{self.word}: line {self.line} {text}")

    def each(self):
        """The rows in order, each tested for being one too many."""
        for number, row in enumerate(self.rows):
            self.line = number + 2
            if self.most is not None and number >= self.most:
                raise self.refuse("too many")
            yield row

    def number(self, row, column, read=whole):
        """The number of a field."""
        try:
            return read(row[column])
        except NumberFault as fault:
            raise self.refuse(f"bad number in {self.titles[column]}: {fault.kind}") from None

    def optional(self, row, column, default, read):
        """The number of a field that may be empty or not there."""
        return self.number(row, column, read) if row[column] else default

    def place(self, row, column, ids):
        """The place of an id that has to be known."""
        number = self.number(row, column)
        if number not in ids:
            raise self.refuse(f"unknown {self.titles[column]}")
        return ids[number]

    def add(self, ids, number):
        """Adds an id, which may not stand earlier."""
        if number in ids:
            raise self.refuse("repeated")
        ids[number] = len(ids)


def needed(*names):
    """A needed column, by its names."""
    return Column(names[0], [name.encode() for name in names])


def optional(*names):
    """A column that may be left out."""
    return Column(names[0], [name.encode() for name in names], is_needed=False)


def read_zones(content):
    """The places of the zones by their ids."""
    sheet, ids = Sheet("zones", content, [needed("zoneid", "id"), optional("zonename", "name")], ZONES), {}
    for row in sheet.each():
        sheet.add(ids, sheet.number(row, 0))
    return ids


def read_costs(content):
    """The places of the costs by their ids, and their names."""
    sheet, ids, names = Sheet("costs", content, [needed("costid", "id"), needed("costname", "name")], COSTS), {}, []
    for row in sheet.each():
        sheet.add(ids, sheet.number(row, 0))
        names.append(row[1])
    return ids, names


def read_units(content, cost_names):
    """The places of the units by their ids, and the costs of each."""
    columns = [Column(f"cost {place}", [name]) for place, name in enumerate(cost_names, 1)]
    sheet, ids, costs = Sheet("units", content, [needed("id"), *columns], UNITS), {}, []
    for row in sheet.each():
        number = sheet.number(row, 0)
        costs.append([sheet.number(row, column, ten4) for column in range(1, len(row))])
        sheet.add(ids, number)
    return ids, costs


def read_keyed(word, content, columns, first, second):
    """The millionths of pairs of ids, each pair once."""
    sheet, found = Sheet(word, content, columns), {}
    for row in sheet.each():
        pair = sheet.place(row, 0, first), sheet.place(row, 1, second)
        value = sheet.number(row, 2, mic6)
        if pair in found:
            raise sheet.refuse("repeated")
        found[pair] = value
    return found


def read_zone_costs(content, zones, costs):
    return read_keyed("zonecost", content, [needed("zoneid"), needed("costid"), needed("multiplier")], zones, costs)


def read_contributions(content, zones, features):
    columns = [needed("zoneid"), needed("featureid"), needed("fraction")]
    return read_keyed("zonecontrib", content, columns, zones, features)


def read_features(content):
    """The places of the features by their ids, and each one's target, proportion, factor and name."""
    later = [optional(name) for name in ("target2", "sepnum", "sepdistance", "targetocc")]
    columns = [needed("id"), optional("target"), optional("prop"), optional("spf", "fpf"), optional("name"), *later]
    sheet, ids, found = Sheet("features", content, columns, FEATURES), {}, []
    for row in sheet.each():
        number = sheet.number(row, 0)
        values = [sheet.optional(row, 1, 0, ten4), sheet.optional(row, 2, 0, mic6),
                  sheet.optional(row, 3, MILLION, mic6), row[4] or b""]
        for column in range(5, 9):
            if sheet.optional(row, column, 0, ten4):
                raise sheet.refuse(f"left out {sheet.titles[column]}")
        sheet.add(ids, number)
        found.append(values)
    return ids, found


def read_amounts(content, units, features):
    """The amount of each unit and feature, added."""
    columns = [needed("featureid", "species"), needed("puid", "pu"), needed("amount")]
    sheet, found = Sheet("amounts", content, columns, AMOUNTS), {}
    for row in sheet.each():
        feature, unit = sheet.place(row, 0, features), sheet.place(row, 1, units)
        found[unit, feature] = found.get((unit, feature), 0) + sheet.number(row, 2, ten4)
    return found


def target_kind(text):
    """The kind of a zone target; none where it doesn't read."""
    try:
        return whole(text) if text else 0
    except NumberFault:
        return None


def read_zone_targets(content, zones, features):
    """The zone, feature, value and kind of each zone target."""
    columns = [needed("zoneid"), needed("featureid"), needed("target"), optional("targettype")]
    sheet, found = Sheet("zonetarget", content, columns, ZONE_TARGETS), {}
    for row in sheet.each():
        pair = sheet.place(row, 0, zones), sheet.place(row, 1, features)
        value = sheet.number(row, 2, mic6 if target_kind(row[3]) == 1 else ten4)
        kind = sheet.optional(row, 3, 0, whole)
        if kind > 1:
            raise sheet.refuse("left out targettype")
        if pair in found:
            raise sheet.refuse("repeated")
        found[pair] = value, kind
    return [(*pair, *value) for pair, value in found.items()]


def read_zone_sets(content, units, zones):
    """The zones of each unit that is listed."""
    sheet, found = Sheet("puzone", content, [needed("puid"), needed("zoneid")], ZONE_SETS), {}
    for row in sheet.each():
        found.setdefault(sheet.place(row, 0, units), set()).add(sheet.place(row, 1, zones))
    return found


def read_locks(content, units, zones, allowed):
    """The zone of each locked unit."""
    sheet, found, ids = Sheet("pulock", content, [needed("puid"), needed("zoneid")]), {}, list(units)
    for row in sheet.each():
        unit, zone = sheet.place(row, 0, units), sheet.place(row, 1, zones)
        if unit in found:
            raise sheet.refuse("repeated")
        if zone not in allowed[unit]:
            raise sheet.refuse(f"unit {ids[unit]} is locked outside its zones")
        found[unit] = zone
    return found


def read_boundaries(content, units):
    """The added length of each pair, in either order; a unit twice is its outer length."""
    sheet, found = Sheet("bound", content, [needed("id1"), needed("id2"), needed("boundary")], BOUNDARIES), {}
    for row in sheet.each():
        pair = tuple(sorted((sheet.place(row, 0, units), sheet.place(row, 1, units))))
        found[pair] = found.get(pair, 0) + sheet.number(row, 2, ten4)
    return found


def read_zone_boundaries(content, zones):
    """The cost of a boundary between two zones, in both orders."""
    sheet, found = Sheet("zoneboundcost", content, [needed("zoneid1"), needed("zoneid2"), needed("cost")]), {}
    for row in sheet.each():
        first, second = sheet.place(row, 0, zones), sheet.place(row, 1, zones)
        cost = sheet.number(row, 2, mic6)
        if found.setdefault((first, second), cost) != cost:
            raise sheet.refuse("repeated")
        found[second, first] = cost
    return found
