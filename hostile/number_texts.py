"""The texts of numbers: what they read as, or their first fault."""

import re
from fractions import Fraction

TEN4, MILLION = 10**4, 10**6
GREATEST = 10**18
GREATEST_ID = 2147483647
MANTISSA = re.compile(rb"([+-]?)([0-9]*)(?:(\.)([0-9]*))?(?:[Ee]([+-]?[0-9]{1,4}))?\Z")
WHOLE = re.compile(rb"([+-]?)([0-9]{1,38})\Z")


class NumberFault(Exception):
    """A fault of a number's text: `empty`, `not a number`, `negative` or `too large`."""

    def __init__(self, kind):
        super().__init__(kind)
        self.kind = kind


def rounded(p, q):
    """p / q, rounded half up."""
    return (2 * p + q) // (2 * q)


def trimmed(text):
    """The text without spaces and tabs at its ends."""
    return text.strip(b" \t")


def parts(text):
    """The sign, the digits and the value of a decimal number's text."""
    text = trimmed(text)
    if not text:
        raise NumberFault("empty")
    match = MANTISSA.match(text)
    if not match:
        raise NumberFault("not a number")
    sign, whole, _, behind, exponent = match.groups()
    digits = whole + (behind or b"")
    if not 1 <= len(digits) <= 38:
        raise NumberFault("not a number")
    power = int(exponent or 0) - len(behind or b"")
    return sign == b"-", int(digits), power


def scaled(text, scale):
    """A decimal number, times the scale and rounded half up."""
    minus, mantissa, power = parts(text)
    if minus and mantissa:
        raise NumberFault("negative")
    exact = Fraction(mantissa * scale) * Fraction(10) ** power
    value = rounded(exact.numerator, exact.denominator)
    if value > GREATEST:
        raise NumberFault("too large")
    return value


def ten4(text):
    """Whole ten-thousandths."""
    return scaled(text, TEN4)


def mic6(text):
    """Whole millionths."""
    return scaled(text, MILLION)


def whole_parts(text):
    """The sign and the size of a whole number's text."""
    text = trimmed(text)
    if not text:
        raise NumberFault("empty")
    match = WHOLE.match(text)
    if not match:
        raise NumberFault("not a number")
    return match[1] == b"-", int(match[2])


def whole(text, most=GREATEST_ID):
    """A whole number from 0 to a greatest one."""
    minus, size = whole_parts(text)
    if minus and size:
        raise NumberFault("negative")
    if size > most:
        raise NumberFault("too large")
    return size


def signed(text):
    """A whole number of 32 bits with its sign."""
    minus, size = whole_parts(text)
    value = -size if minus else size
    if not -(2**31) <= value < 2**31:
        raise NumberFault("too large")
    return value
