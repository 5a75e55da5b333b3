"""Faults that are put into a project: into its parameters, its tables or the bytes of its files."""

from limits import Limits
from parameter_file import BOM

NUMBERS = [
    "", " ", "1e", "e1", "-1", "-0", "+5", "1.", ".5", ".", "1E4", "1e-4", "0x1", "1,5", "1E99999", "1E9999",
    "1E-9999", "0" * 37 + "1", "0" * 38 + "1", "1" * 38, "100000000000000", "100000000000000.0001",
    "100000000000000.00004", "100000000000000.00005", "1000000000000", "1000000000000.000001",
    "1000000000000.0000004", "99999999999999", "--1", "1 2", "NaN", "inf", "1e+2", "1E+0002", "٣", "1_000",
    "2147483647", "2147483648", "-2147483648", "-2147483649", "-1E9999", "-0.0", "-0.00000001", "-00", "1\x00",
    "\udcff", "0.5", "2", "3", "4", "61", "1000000000000000000", "1000000000000000001", "1.5e3", "5e-7", "4.9e-7",
    "- 1", "+", "-", "1e1.5", "00000000000", "1\u00a0", "−1", "1E00001", "1" * 39, "18446744073709551617",
]
KEY_VALUES = {
    "BLM": ["1000000000000", "1000000000000.000001", "-1"], "PROP": ["1.000001", "1.0000004", "1.0000005"],
    "MISSLEVEL": ["1.000001", "2"], "RANDSEED": ["2147483648", "-2147483649", "1.0"], "NUMREPS": ["0", "1001", "-1"],
    "NUMITNS": ["10000001", "-1"], "STARTTEMP": ["1E15", "100000000000000.0001"], "COOLFAC": ["1.000001", "6", "-1"],
    "NUMTEMP": ["0", "1000001"], "RUNMODE": ["0", "2", "3", "5", "7", "-1", "2147483648", "1.0"],
    "SAVERUN": ["4", "-1", "3.0"], "SAVEBEST": ["4", "-1"], "SAVESUMMARY": ["4"], "SAVETARGMET": ["4"],
    "SAVESUMSOLN": ["4"], "SAVETURNS": ["4"], "CLUMPTYPE": ["1", "-1", "1E9999", "0.000001"], "COSTTHRESH": ["1", "-1"],
    "ASYMMETRICCONNECTIVITY": ["1", "0.5"], "AVAILABLEZONE": ["77", "2147483648", "-1", "1.0"],
}
TEXT_KEYS = ["INPUTDIR", "OUTPUTDIR", "SCENNAME"]
LARGE = ["100000000000000", "60000000000000", "99999999999999.9999", "1000000000000", "999999999999.999999", "7E8"]


class Damage:
    """Puts faults into projects by rolls of its dice."""

    def __init__(self, dice):
        self.dice, self.limits = dice, Limits(dice)
        self.to_lines = [self.repeat_line, self.spoil_number, self.spoil_number, self.spoil_text, self.drop_line,
                         self.spoil_together, self.rename_file, self.drop_line, self.glue]
        self.to_tables = [*[self.spoil_cell] * 5, self.enlarge, self.enlarge_all, self.repeat_row, self.repeat_id,
                          self.unknown_id, self.drop_column, self.rename_column, self.many_rows,
                          self.leave_out, self.lock_outside, self.lock_outside, self.drop_rows, self.drop_table,
                          *[self.limits.damage] * 7]
        self.to_bytes = [self.cut, self.flip, self.insert, self.empty, self.remove, self.folder, self.lead_with_line,
                         self.uneven, self.uneven, self.end_line]

    def project(self, project):
        """Puts one fault into a project."""
        self.dice.choice(self.dice.choice([self.to_lines, self.to_tables, self.to_tables]))(project)

    def files(self, files):
        """Puts one fault into the bytes of a file."""
        names = sorted(name for name in files if not name.endswith("/"))
        self.dice.choice(self.to_bytes)(files, self.dice.choice(names))

    # Parameters.

    def repeat_line(self, project):
        key, value = self.dice.choice(project.lines)
        value = self.dice.choice([value, "", "x", "0"])
        project.lines.insert(self.dice.randrange(len(project.lines) + 1), (key, value))

    def set_line(self, project, key, value):
        project.lines = [line for line in project.lines if line[0] != key]
        project.lines.insert(self.dice.randrange(len(project.lines) + 1), (key, value))

    def spoil_number(self, project):
        key = self.dice.choice(sorted(KEY_VALUES))
        self.set_line(project, key, self.dice.choice([*NUMBERS, *KEY_VALUES[key] * 12]))

    def spoil_text(self, project):
        key = self.dice.choice([*TEXT_KEYS, *project.names])
        self.set_line(project, key, self.dice.choice(["\udcff", "a\udcc3b", "\udced\udca0\udc80", "", "nowhere", "nowhere/x", "é"]))

    def drop_line(self, project):
        if project.lines:
            project.lines.pop(self.dice.randrange(len(project.lines)))

    def glue(self, project):
        """A key and its value that no blank parts."""
        if project.lines:
            place = self.dice.randrange(len(project.lines))
            key, value = project.lines[place]
            project.lines[place] = (key + self.dice.choice(["\x00", "=", ":", "\u00a0", "\x0b"]) + value, "")

    def spoil_together(self, project):
        rows = [
            [("NUMREPS", "1000"), ("NUMITNS", self.dice.choice(["1000001", "10000000"]))],
            [("COOLFAC", "1.000001"), ("STARTTEMP", self.dice.choice(["0", "5", "-1", "-0"]))],
            [("NUMREPS", "201"), ("NUMITNS", "1000000"), ("SAVETURNS", "1")],
        ]
        for key, value in self.dice.choice(rows):
            self.set_line(project, key, value)
        if self.dice.random() < 0.3:
            gone = self.dice.choice(["PUNAME", "FEATNAME", "PUVSFEATNAME"])
            project.lines = [line for line in project.lines if line[0] != gone]

    def rename_file(self, project):
        key = self.dice.choice(sorted(project.names))
        self.set_line(project, key, self.dice.choice(["gone.dat", *project.names.values()]))

    # Tables.

    def any_table(self, project, with_rows=True):
        found = [table for table in project.tables.values() if table.rows or not with_rows]
        return self.dice.choice(found) if found else None

    def spoil_cell(self, project):
        if table := self.any_table(project):
            row = self.dice.choice(table.rows)
            row[self.dice.randrange(len(row))] = self.dice.choice(NUMBERS) if row else ""

    def enlarge(self, project):
        """A great number: the limits are on sums of such."""
        if table := self.any_table(project):
            row = self.dice.choice(table.rows)
            place = self.dice.randrange(len(row))
            if table.columns[place][0] not in ("id", "zoneid", "costid", "puid", "featureid"):
                row[place] = self.dice.choice(LARGE)

    def enlarge_all(self, project):
        """Great numbers in the last column of each row of a table, and one in a key."""
        if table := self.any_table(project):
            for row in table.rows:
                row[self.dice.choice([-1, len(row) - 1, min(2, len(row) - 1)])] = self.dice.choice(LARGE)
        if self.dice.random() < 0.3:
            self.set_line(project, "BLM", self.dice.choice(["1000000000000", "500000", "1"]))

    def repeat_row(self, project):
        if table := self.any_table(project):
            table.rows.insert(self.dice.randrange(len(table.rows) + 1), list(self.dice.choice(table.rows)))

    def repeat_id(self, project):
        if table := self.any_table(project):
            row = list(self.dice.choice(table.rows))
            row[-1] = self.dice.choice(["1", "0.125", "2", row[-1]])
            table.rows.append(row)

    def unknown_id(self, project):
        if table := self.any_table(project):
            row = self.dice.choice(table.rows)
            row[self.dice.randrange(min(2, len(row)))] = self.dice.choice(["99", "1000", "0", "2147483647"])

    def drop_column(self, project):
        if (table := self.any_table(project, with_rows=False)) and len(table.columns) > 1:
            place = self.dice.randrange(len(table.columns))
            table.columns.pop(place)
            for row in table.rows:
                del row[place:place + 1]

    def rename_column(self, project):
        if table := self.any_table(project, with_rows=False):
            place = self.dice.randrange(len(table.columns))
            table.columns[place] = [self.dice.choice(["ID", "name", "x", "", "amount", "zoneid", "i d"])]

    def many_rows(self, project):
        key = self.dice.choice(["ZONESNAME", "COSTSNAME"])
        if table := project.tables.get(key):
            count = self.dice.choice([60, 61, 62])
            name = table.rows[0][1] if table.rows and len(table.rows[0]) > 1 else "cost"
            used = {row[0] for row in table.rows}
            spare = [str(number) for number in range(100, 200) if str(number) not in used]
            table.rows += [[number, name] for number in spare[:max(0, count - len(table.rows))]]

    def leave_out(self, project):
        rows = [("FEATNAME", 5, ["1", "0.0001", "0.00004", "-0", "x"]),
                ("ZONETARGETNAME", 3, ["2", "1.0", "2147483648"])]
        key, place, values = self.dice.choice(rows)
        if (table := project.tables.get(key)) and table.rows:
            row = self.dice.choice(table.rows)
            if place < len(row):
                row[place] = self.dice.choice(values)

    def lock_outside(self, project):
        """Locks that may stand outside the zones of a set, or twice."""
        if (locks := project.tables.get("PULOCKNAME")) and (sets := project.tables.get("PUZONENAME")) and sets.rows:
            unit = self.dice.choice(sets.rows)[0]
            zone = self.dice.choice(self.dice.choice([sets, locks]).rows or sets.rows)[-1]
            locks.rows.insert(self.dice.randrange(len(locks.rows) + 1), [unit, zone])

    def drop_rows(self, project):
        if table := self.any_table(project):
            del table.rows[self.dice.randrange(len(table.rows)):]

    def drop_table(self, project):
        key = self.dice.choice(sorted(project.tables))
        del project.tables[key]
        if self.dice.random() < 0.5:
            project.lines = [line for line in project.lines if line[0] != key]

    # Bytes.

    def place(self, files, name):
        return self.dice.randrange(len(files[name]) + 1)

    def uneven(self, files, name):
        """A line with a field more, or with the last one gone."""
        lines = files[name].split(b"\n")
        place = self.dice.randrange(len(lines))
        line = lines[place]
        lines[place] = self.dice.choice([line + b",", line + b",1", line + b"\t1", line[:max(0, line.rfind(b","))]])
        files[name] = b"\n".join(lines)

    def end_line(self, files, name):
        """A line that ends in another way."""
        lines = files[name].split(b"\n")
        place = self.dice.randrange(len(lines))
        lines[place] += self.dice.choice([b"\r", b"\r\r", b" \r", b"\r ", b"\x0b", b"\x0c", b"\xc2\xa0"])
        files[name] = b"\n".join(lines)

    def cut(self, files, name):
        files[name] = files[name][:self.place(files, name)]

    def flip(self, files, name):
        place = self.place(files, name)
        byte = bytes([self.dice.choice([*b'",\t\n\r -+.eE019', self.dice.randrange(256)])])
        files[name] = files[name][:place] + byte + files[name][place + 1:]

    def insert(self, files, name):
        place = self.place(files, name)
        pieces = [b'"', b",", b"\t", b"\n", b"\r", b"\n\n", b" ", b"\x00", b"\xff", b'""', b",,", b"\r\n"]
        files[name] = files[name][:place] + self.dice.choice(pieces) + files[name][place:]

    def empty(self, files, name):
        files[name] = self.dice.choice([b"", b"\n", b"\r\n\r\n", b" ", b"\xef\xbb\xbf", b'"', b",", b"\n\n\r\r", b'""'])

    def remove(self, files, name):
        del files[name]

    def folder(self, files, name):
        """A folder in the place of a file."""
        del files[name]
        files[f"{name}/"] = b""

    def lead_with_line(self, files, name):
        files[name] = self.dice.choice([b"\n", b"\r\n", b" \n", b"#\n", BOM, BOM + BOM]) + files[name]
