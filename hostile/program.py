"""The program under test: where it stands, and one run of it in a folder."""

import pathlib
import subprocess
import sys
from dataclasses import dataclass

TOP = pathlib.Path(__file__).resolve().parent.parent
BUILT = TOP / "crates" / "marzone" / "out" / "marzone"


@dataclass
class Ended:
    """What a run of the program left behind."""

    status: int
    said: bytes
    files: dict


def found(path):
    """The program's path, made whole; ends the script with a message where there is none."""
    program = pathlib.Path(path or BUILT).resolve()
    if not program.is_file():
        print(f"skipped: there is no program at {program}; `rt ci` builds it")
        sys.exit(0)
    return program


def files_of(folder):
    """The files below a folder, by their names within it."""
    return {str(path.relative_to(folder)): path.read_bytes() for path in folder.rglob("*") if path.is_file()}


def lay_out(folder, files):
    """Writes files below a folder; a name that ends with a slash is an empty folder."""
    for name, content in files.items():
        path = folder / name
        if name.endswith("/"):
            path.mkdir(parents=True, exist_ok=True)
            continue
        path.parent.mkdir(parents=True, exist_ok=True)
        path.write_bytes(content if isinstance(content, bytes) else content.encode())


def run(program, folder, words, seconds=120, **options):
    """Runs the program in a folder and gives its end, with all files that then stand there."""
    ended = subprocess.run([program, *words], cwd=folder, stdin=subprocess.DEVNULL, stdout=subprocess.PIPE,
                           stderr=subprocess.STDOUT, timeout=seconds, check=False, **options)
    return Ended(ended.returncode, ended.stdout, files_of(folder))
