"""The refusal that ends a run of the program: its exit status and its line."""

WORDS, INPUT, FAULT, ABSENT = 1, 2, 3, 4


class Refused(Exception):
    """A run that is refused, with its status and the text of its line."""

    def __init__(self, status, text):
        super().__init__(text)
        self.status = status
        self.line = b"refused: " + (text if isinstance(text, bytes) else text.encode()) + b"\n"


def refused_input(text):
    """A refusal for what a file holds."""
    return Refused(INPUT, text)
