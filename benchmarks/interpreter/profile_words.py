"""Reads the words of a command that say what a core has: lists of registers, causes and ranges.

The rules are those of docs/REFERENCE.md, written here a second time; a part of judge.py. Each of these
functions raises a ValueError where its text is refused.
"""
import os

from hart_choices import CAUSES_WITH_VALUE, VALUES
from hart_memory import PAGE, Ranges
from hart_profile import WORDS, Bits, is_lawful
from trace_text import read_number

PHYSICAL_END = 1 << 56
MOST_RANGES = 8


def word_number(text):
    """A number as the words and traces have them; None where the text is none."""
    return read_number(os.fsencode(text))


def needed_number(text):
    number = word_number(text)
    if number is None:
        raise ValueError(f"{text} is not a number")
    return number


def read_registers(text):
    """What a list of registers tells of them, by their names: items parted by commas.

    Each is NAME=MASK, NAME=MASK:FIXED, NAME=row, NAME=none or NAME=maybe.
    """
    told = {}
    for item in text.split(","):
        name, _, what = item.partition("=")
        how = what if what in WORDS else read_bits(what)
        if name in told or not is_lawful(name, how):
            raise ValueError(f"{item} cannot be")
        told[name] = how
    return told


def read_bits(text):
    """The Bits of MASK or MASK:FIXED."""
    mask, colon, fixed = text.partition(":")
    return Bits(needed_number(mask), needed_number(fixed) if colon else 0)


def read_trap_values(text):
    """What mtval and stval tell: `value`, `zero`, or for `zero:C,..` the set of the causes that are listed."""
    if text in VALUES["trap_values"]:
        return text
    word, _, listed = text.partition(":")
    causes = [needed_number(cause) for cause in listed.split(",")]
    if word != "zero" or len(set(causes)) < len(causes) or not CAUSES_WITH_VALUE.issuperset(causes):
        raise ValueError(f"{text} cannot be")
    return frozenset(causes)


def read_range(text):
    """The addresses of B:S: so many from B on."""
    base, size = (needed_number(part) for part in text.split(":"))
    if base % PAGE or size % PAGE or not size or base + size > PHYSICAL_END:
        raise ValueError(f"{text} is no range")
    return range(base, base + size)


def read_ranges(text):
    """One to eight ranges, parted by commas; that they lie apart is for the caller to see, who knows RAM too."""
    ranges = Ranges(map(read_range, text.split(",")))
    if len(ranges) > MOST_RANGES:
        raise ValueError(f"{text} cannot be")
    return ranges
