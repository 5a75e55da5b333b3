"""Writes a project out as files, in one of the many lawful forms that the profile takes."""

from parameter_file import in_folder

BOM = b"\xef\xbb\xbf"


class Writer:
    """Writes the files of a project by rolls of its dice."""

    def __init__(self, dice):
        self.dice = dice

    def chance(self, share):
        return self.dice.random() < share

    def files(self, project):
        """The files by their names; an output folder is there too."""
        folder = project.value("INPUTDIR")
        files = {"input.dat": self.parameter_file(project)}
        for key, table in project.tables.items():
            files[in_folder(folder, project.names[key])] = self.table(table)
        out = (project.value("OUTPUTDIR") or "").rstrip("/\\")
        if out and self.chance(0.9):
            files[f"{out}/"] = b""
        return files

    def parameter_file(self, project):
        lines = []
        for key, value in project.lines:
            key = self.dice.choice([key, key, key, key.lower(), key.title()])
            gap = self.dice.choice([" ", " ", "\t", "  \t "])
            behind = " words behind" if self.is_number(value) and self.chance(0.1) else ""
            lines.append(self.dice.choice(["", "", "", " ", "\t"]) + key + gap + value + behind)
            if self.chance(0.05):
                lines.append(self.dice.choice(["", "VERSION 0.1", "# PUNAME x", "BLMX 3", "PUNAME: x", "   "]))
        end = self.dice.choice(["\n", "\n", "\n", "\r\n"])
        text = end.join(lines) + self.dice.choice([end, end, ""])
        return self.dice.choice([b"", b"", b"", b"", BOM]) + text.encode("utf-8", "surrogateescape")

    @staticmethod
    def is_number(value):
        return value[:1] in "+-.0123456789" and value != ""

    def table(self, table):
        """A table with its columns in any order, others among them, and one of the delimiters and line ends."""
        columns = [(self.header(names), [row[place] if place < len(row) else "" for row in table.rows])
                   for place, names in enumerate(table.columns)]
        if self.chance(0.2):
            columns.append(("spare", [self.dice.choice(["", "x", "1"]) for _ in table.rows]))
        if self.chance(0.1) and columns:
            name = self.dice.choice(columns)[0]
            columns.append((name, ["7" for _ in table.rows]))
        elif self.chance(0.3):
            self.dice.shuffle(columns)
        lines = [[name for name, _ in columns], *(list(fields) for fields in zip(*(cells for _, cells in columns)))]
        return self.text(lines)

    def header(self, names):
        name = self.dice.choice(names)
        return self.dice.choice([name, name, name, name.upper(), f" {name} "])

    def text(self, lines):
        """Fields and lines put together. A single column has no comma, so tabs."""
        end = self.dice.choice(["\n", "\n", "\n", "\r\n", "\r"])
        delimiter = self.dice.choice([",", ",", ",", "\t"])
        if len(lines[0]) == 1:
            delimiter = "\t"
        if any("," in name for name in lines[0]):
            delimiter = ","
        written = []
        for line in lines:
            written.append(delimiter.join(self.field(value, delimiter) for value in line))
            if self.chance(0.03):
                written.append("")
        text = end.join(written) + self.dice.choice([end, end, ""])
        return self.dice.choice([b"", b"", b"", b"", BOM]) + text.encode("utf-8", "surrogateescape")

    def field(self, value, delimiter):
        """A field, in quotes where it has to be and sometimes else."""
        if any(mark in value for mark in (delimiter, '"', "\n", "\r")) or self.chance(0.03):
            return '"' + value.replace('"', '""') + '"'
        return self.dice.choice(["", "", "", "", "", " ", "\t" if delimiter == "," else " "]) + value
