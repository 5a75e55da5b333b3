"""The parameter file: its keys, their values, and its first fault, by the rules of the profile."""

from number_texts import GREATEST, GREATEST_ID, MILLION, NumberFault, mic6, signed, ten4, whole
from refusal import refused_input

BOM = b"\xef\xbb\xbf"
FILES = ["PUNAME", "FEATNAME", "PUVSFEATNAME", "BOUNDNAME", "ZONESNAME", "COSTSNAME", "ZONECOSTNAME",
         "ZONEBOUNDCOSTNAME", "ZONECONTRIBNAME", "ZONETARGETNAME", "PULOCKNAME", "PUZONENAME"]
TEXTS = ["INPUTDIR", "OUTPUTDIR", "SCENNAME", *FILES]
SAVES = ["SAVERUN", "SAVEBEST", "SAVESUMMARY", "SAVETARGMET", "SAVESUMSOLN", "SAVETURNS"]
LEFT_OUT = ["CLUMPTYPE", "COSTTHRESH", "ASYMMETRICCONNECTIVITY"]
# The reader, the least and the greatest value, and the value where the key isn't given.
NUMBERS = {
    "AVAILABLEZONE": (whole, 0, GREATEST_ID, 1),
    "BLM": (mic6, 0, GREATEST, 0),
    "PROP": (mic6, 0, MILLION, 0),
    "MISSLEVEL": (mic6, 0, MILLION, MILLION),
    "RANDSEED": (signed, -(2**31), 2**31 - 1, -1),
    "NUMREPS": (whole, 1, 1000, 1),
    "NUMITNS": (whole, 0, 10_000_000, 0),
    "COOLFAC": (mic6, 0, GREATEST, MILLION),
    "NUMTEMP": (whole, 1, 1_000_000, 1),
    **{key: (whole, 0, 3, 0) for key in SAVES},
}
KEYS = [*TEXTS, *NUMBERS, "STARTTEMP", "RUNMODE", *LEFT_OUT]


def refuse(key, kind):
    """The refusal of a key."""
    return refused_input(f"input: {key} {kind}")


def text_value(key, rest):
    """The value of a text key; none where it is empty."""
    try:
        return rest.decode("utf-8") or None
    except UnicodeDecodeError:
        raise refuse(key, "bad value") from None


def number_value(key, word):
    """The value of a number key."""
    try:
        if key in LEFT_OUT:
            return left_out_value(key, word)
        if key == "STARTTEMP":
            return start_value(word)
        if key == "RUNMODE":
            return mode_value(word)
        read, least, most, _ = NUMBERS[key]
        value = read(word)
    except NumberFault as fault:
        kind = "bad value" if fault.kind in ("empty", "not a number") else "out of range"
        raise refuse(key, kind) from None
    if not least <= value <= most:
        raise refuse(key, "out of range")
    return value


def start_value(word):
    """The first temperature; none where it is negative."""
    try:
        return ten4(word)
    except NumberFault as fault:
        if fault.kind == "negative":
            return None
        raise


def mode_value(word):
    """The mode of a run, of which three are taken."""
    mode = signed(word)
    if mode not in (1, 4, 6):
        raise refuse("RUNMODE", "left out")
    return mode


def left_out_value(key, word):
    """The value of a key that may be 0 alone."""
    try:
        value = mic6(word)
    except NumberFault as fault:
        if fault.kind in ("empty", "not a number"):
            raise
        value = 1
    if value:
        raise refuse(key, "left out")
    return value


def key_and_rest(line):
    """The key of a line and what stands behind it; none where its first word is no key."""
    line = line.removesuffix(b"\r").strip(b" \t")
    end = min((place for place in (line.find(b" "), line.find(b"\t")) if place >= 0), default=len(line))
    word = line[:end].upper()
    key = word.decode() if word.isascii() else ""
    return (key, line[end:].strip(b" \t")) if key in KEYS else None


def first_word(rest):
    """The first word of what stands behind a key."""
    words = rest.replace(b"\t", b" ").split(b" ")
    return words[0]


def given_keys(content):
    """The values of all keys that are given."""
    found = {}
    for line in content.removeprefix(BOM).split(b"\n"):
        taken = key_and_rest(line)
        if taken is None:
            continue
        key, rest = taken
        if key in found:
            raise refuse(key, "repeated")
        found[key] = text_value(key, rest) if key in TEXTS else number_value(key, first_word(rest))
    return found


def check_missing(keys):
    """Refuses what has to be given."""
    if not keys["PUNAME"]:
        raise refuse("PUNAME", "missing")
    if keys["PUVSFEATNAME"] and not keys["FEATNAME"]:
        raise refuse("FEATNAME", "missing")
    if keys["FEATNAME"] and not keys["PUVSFEATNAME"]:
        raise refuse("PUVSFEATNAME", "missing")


def check_together(keys):
    """Refuses values that are out of range together."""
    entries = keys["NUMREPS"] * keys["NUMITNS"]
    if entries > 10**9:
        raise refuse("NUMITNS", "out of range")
    if keys["STARTTEMP"] is not None and keys["COOLFAC"] > MILLION:
        raise refuse("COOLFAC", "out of range")
    if keys["SAVETURNS"] and entries > 200_000_000:
        raise refuse("SAVETURNS", "out of range")


def read_parameters(content):
    """The value of every key, or the refusal of the first fault."""
    numbers = {key: row[3] for key, row in NUMBERS.items()}
    keys = {**dict.fromkeys(TEXTS), **numbers, "STARTTEMP": None, "RUNMODE": 1, **given_keys(content)}
    keys["SCENNAME"] = keys["SCENNAME"] or "output"
    check_missing(keys)
    check_together(keys)
    return keys


def in_folder(folder, name):
    """A file's name within a folder that may not be given."""
    folder = folder or ""
    if folder[-1:] in ("/", "\\"):
        folder = folder[:-1]
    return f"{folder}/{name}" if folder else name
