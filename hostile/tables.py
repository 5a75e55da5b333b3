"""Tables: records, the wanted columns of a header, and the first fault of a table's form."""

from refusal import refused_input

BOM = b"\xef\xbb\xbf"


def records(content, delimiter):
    """The records of a text: quotes may hold delimiters and line ends, empty lines are none."""
    found, fields, field = [], [], bytearray()
    state = "record"
    for place in range(len(content)):
        byte = content[place:place + 1]
        if state == "quoted":
            if byte == b'"':
                state = "quote"
            else:
                field += byte
        elif state == "quote" and byte == b'"':
            field += byte
            state = "quoted"
        elif byte in b"\r\n":
            if state != "record":
                found.append([*fields, bytes(field)])
                fields, field = [], bytearray()
            state = "record"
        elif byte == delimiter:
            fields.append(bytes(field))
            field = bytearray()
            state = "start"
        elif byte == b'"' and state in ("record", "start"):
            state = "quoted"
        else:
            field += byte
            state = "field"
    if state != "record":
        found.append([*fields, bytes(field)])
    return found


def delimiter_of(content):
    """The comma where the first line holds one, else the tab."""
    first = content.replace(b"\r", b"\n").split(b"\n", 1)[0]
    return b"," if b"," in first else b"\t"


def place_of(header, names):
    """The place of the first cell with the first name, else of one with the next; none without."""
    cells = [cell.strip(b" \t").lower() for cell in header]
    return next((cells.index(name.lower()) for name in names if name.lower() in cells), None)


def read_table(word, content, columns):
    """The rows of the wanted columns, each a list; a field of a column that isn't there is None."""
    content = content.removeprefix(BOM)
    found = records(content, delimiter_of(content))
    if not found:
        raise refused_input(f"{word}: no header")
    places = []
    for column in columns:
        place = place_of(found[0], column.names)
        if column.is_needed and place is None:
            raise refused_input(f"{word}: column {column.title} missing")
        places.append(place)
    for line, record in enumerate(found, 1):
        if len(record) != len(found[0]):
            raise refused_input(f"{word}: line {line} uneven")
    return [[None if place is None else record[place].strip(b" \t") for place in places] for record in found[1:]]
