"""What the program has to do on given words and files: its status, its lines and its files."""

import re

from outputs import Acts, output_name, turns_of
from reading import read_project
from refusal import FAULT, WORDS, Refused
from search import Search

DIGITS = re.compile(r"[0-9]{1,10}\Z")


class Contradicted(Exception):
    """What the program left contradicts the rules before all of it can be worked out."""


def can_tell(words, files):
    """Whether the rules settle what comes of several workers: refused, or turns that are written."""
    try:
        keys, problem = read_project(files, parsed_words(words)[0])
    except Refused:
        return True
    if not Search(keys, problem, 0).entries():
        return True
    return bool(keys["SAVETURNS"]) and output_name(keys, "SAVETURNS", "_turns").rpartition("/")[0] in folders_of(files)


def parsed_words(words):
    """The parameter file and the number of workers."""
    if len(words) == 0:
        return "input.dat", 4
    if len(words) == 1:
        return words[0], 4
    takes_workers = len(words) == 2 and words[0] != "gen" and DIGITS.match(words[1])
    if not takes_workers or not 1 <= int(words[1]) <= 60:
        raise Refused(WORDS, "words: use [file [workers]] or gen number")
    return words[0], int(words[1])


def entries_of(words, files):
    """How many entries all runs have; none where the words or the files are refused."""
    try:
        keys, problem = read_project(files, parsed_words(words)[0])
    except Refused:
        return 0
    return keys["NUMREPS"] * Search(keys, problem, 0).entries()


def seed_of(keys, ended, times):
    """The random seed: the given one, or the clock's within the time of the run."""
    if keys["RANDSEED"] >= 0:
        return keys["RANDSEED"]
    match = re.match(rb"seed ([0-9]+)\n", ended.said)
    if not match or not times[0] <= int(match[1]) <= times[1]:
        raise Contradicted("the seed isn't the clock's")
    return int(match[1])


def played_turns(keys, search, workers, ended):
    """The turns of each run: all of seat 0 for one worker, else those that the program wrote."""
    count = search.entries()
    if workers == 1 or count == 0:
        return [[0] * count for _ in range(keys["NUMREPS"])]
    text = ended.files.get(output_name(keys, "SAVETURNS", "_turns")) if keys["SAVETURNS"] else None
    if text is None:
        raise Contradicted("turns of several workers aren't written")
    turns = turns_of(text)
    lengths = [len(run) for run in turns]
    if lengths != [count] * keys["NUMREPS"] or any(seat >= workers for run in turns for seat in run):
        raise Contradicted("the turns are too many, too few or of other seats")
    return turns


def folders_of(files):
    """The folders that a project's files make."""
    found = {""}
    for name in files:
        parts = name.split("/")[:-1]
        found |= {"/".join(parts[:count]) for count in range(1, len(parts) + 1)}
    return found


def performed(acts, files):
    """The status, the said bytes and the files after the acts, up to the first that fails."""
    said, left, folders = b"", {name: text for name, text in files.items() if not name.endswith("/")}, folders_of(files)
    for act in acts:
        if not act.name:
            said += act.content
        elif "\0" in act.name or act.name.rpartition("/")[0] not in folders or act.name in folders:
            refused = Refused(FAULT, f"fault: {act.name}")
            return refused.status, said + refused.line, left
        else:
            left[act.name] = act.content
    return 0, said, left


def expected(words, files, ended, times, with_watchers):
    """The status, the said bytes and the files that the rules ask for.

    What the program left is read for the clock's seed and for the turns of several workers alone.
    """
    try:
        name, workers = parsed_words(words)
        keys, problem = read_project(files, name)
    except Refused as refused:
        return refused.status, refused.line, {name: text for name, text in files.items() if not name.endswith("/")}
    seed = seed_of(keys, ended, times)
    search = Search(keys, problem, seed)
    turns = played_turns(keys, search, workers, ended)
    runs = [search.run(number, run) for number, run in enumerate(turns, 1)]
    return performed(Acts(keys, problem, runs, seed, with_watchers).acts, files)
