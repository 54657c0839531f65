#!/usr/bin/env python3
"""Tells why the judge refuses a list of words: prints the first reason, or nothing.

    words.py WORD..

bin/run_judge.sh asks where the judge has refused, and what is said here decides nothing. The table
is words.tsv, and registers.tsv has the registers that --csr names; what makes texts of them, and the
tools of contrib/, take both from here.
"""
import os
import re
import sys
from typing import NamedTuple

HERE = os.path.dirname(os.path.realpath(__file__))
COMMANDS = ("judge", "state", "make")
NUMBER = re.compile(r"0[xX]([0-9a-fA-F]+)|([0-9]+)", re.ASCII)
ALL = (1 << 64) - 1
PAGE, PHYSICAL_END, MOST_RANGES = 4096, 1 << 56, 8
CAUSES = (1, 2, 3, 4, 5, 6, 7, 12, 13, 15)


class Refused(Exception):
    """The judge refuses the words."""


class Word(NamedTuple):
    """An option, or a plain word of make. taken and refused are values that a test tries."""

    name: str
    value: str
    commands: list
    kind: str
    values: list
    default: str
    help: str
    taken: list
    refused: list

    @property
    def is_option(self):
        return self.name.startswith("--")

    @property
    def is_flag(self):
        return self.kind == "flag"

    def values_text(self, last="or"):
        """The values as a sentence has them."""
        return " to ".join(self.values) if self.kind in RANGES else listed(self.values, last)

    def help_text(self):
        return self.help.replace("{}", self.values_text())


class Register(NamedTuple):
    """The bits of a register that a write may change, must change, and changes by default, those
    that may always be 1, and the forms; None for bits that --csr does not tell."""

    name: str
    may: int | None
    must: int | None
    default: int | None
    fixed: int | None
    forms: list


def rows_of(name):
    """The rows of a table; - is an empty text."""
    with open(os.path.join(HERE, name), encoding="ascii") as file:
        for line in file:
            if not line.startswith("#"):
                yield ["" if it == "-" else it for it in line.rstrip("\n").split("\t")]


def words_of_table():
    for name, value, commands, kind, values, default, said, taken, refused in rows_of("words.tsv"):
        yield Word(name, value, commands.split(","), kind, values.split(), default, said,
                   taken.split(), refused.split())


def registers_of_table():
    for name, *bits, forms in rows_of("registers.tsv"):
        yield Register(name, *(number(it) for it in bits), forms.split(",") if forms else [])


def listed(texts, last):
    """Some words as a sentence has them."""
    return f" {last} ".join([", ".join(texts[:-1]), texts[-1]] if len(texts) > 1 else texts)


def number(text):
    """A number as the judge reads it, or None."""
    found = NUMBER.fullmatch(text)
    return found and (int(found[1], 16) if found[1] else int(found[2]))


def bound(text):
    """An end of a range: a number, or 2^N."""
    return 1 << int(text[2:]) if text.startswith("2^") else int(text)


# ---- kinds of values: each refuses a text that is none


def check_number(word, text):
    return number_between(word.name, text, *map(bound, word.values))


def number_between(name, text, least, most):
    value = number(text)
    if value is None:
        raise Refused(f"{name}: '{text}' is no number")
    if not least <= value <= most:
        raise Refused(f"{name}: {text} is not in {least} to {most}")
    return value


def check_one(word, text):
    """One of a few words, or of a few numbers however they are written."""
    numbers = [number(it) for it in word.values]
    if text in word.values or None not in numbers and number(text) in numbers:
        return
    if len(word.values) == 2:
        raise Refused(f"{word.name}: '{text}' is neither {' nor '.join(word.values)}")
    raise Refused(f"{word.name}: '{text}' is none of {word.values_text('and')}")


def check_power(word, text):
    value = check_number(word, text)
    if value & value - 1:
        raise Refused(f"{word.name}: {text} is no power of two")


def check_address(word, text):
    value = number(text)
    if value is None:
        raise Refused(f"{word.name}: '{text}' is no number")
    if value % 2:
        raise Refused(f"{word.name}: {text} is odd")
    if value > ALL:
        raise Refused(f"{word.name}: {text} is not below 2^64")


def check_range(word, text):
    """The first address of a base and a size, and the one after the last."""
    base, colon, size = text.partition(":")
    if not colon:
        raise Refused(f"{word.name}: '{text}' is no base and size, as 0x1000:0x1000")
    base = number_between(f"{word.name}, base", base, 0, PHYSICAL_END)
    size = number_between(f"{word.name}, size", size, PAGE, PHYSICAL_END)
    if base % PAGE or size % PAGE:
        raise Refused(f"{word.name}: {text} are not multiples of {PAGE}")
    if base + size > PHYSICAL_END:
        raise Refused(f"{word.name}: {text} goes beyond 2^56")
    return base, base + size


def check_ranges(word, text):
    found = [check_range(word, it) for it in text.split(",")]
    if len(found) > MOST_RANGES:
        raise Refused(f"{word.name}: these are more than eight ranges")
    return found


def check_causes(word, text):
    front, colon, causes = text.partition(":")
    if not colon and front in word.values:
        return
    if not colon or f"{front}:C,.." not in word.values:
        raise Refused(f"{word.name}: '{text}' is none of {word.values_text('and')}")
    seen = set()
    for item in causes.split(","):
        value = number(item)
        if value is None:
            raise Refused(f"{word.name}: '{item}' is no cause")
        if value in seen:
            raise Refused(f"{word.name}: {item} stands twice")
        seen.add(value)
        if value not in CAUSES:
            raise Refused(f"{word.name}: {item} is none of 1 to 7, 12, 13 and 15")


def check_lines(word, text):
    value = number(text)
    if value is None or value > ALL:
        raise Refused(f"{word.name}: '{text}' is no number below 2^64")
    if value not in map(number, word.values):
        raise Refused(f"{word.name}: {text} is not 0xA88, with bit 1 or bit 5 besides")


def check_registers(word, text):
    names = set()
    for item in text.split(","):
        name, equals, what = item.partition("=")
        if not equals:
            raise Refused(f"{word.name}: '{item}' is no NAME=VALUE")
        if name in names:
            raise Refused(f"{word.name}: {name} stands twice")
        names.add(name)
        if fault := register_fault(name, what):
            raise Refused(f"{word.name}: {fault}")


def register_fault(name, what):
    """Why nothing of the kind can be told of a register, or an empty text."""
    register = REGISTERS.get(name)
    if what in FORMS:
        is_told = register and what in register.forms
        return "" if is_told else f"{name} is no register that {FORMS[what]}"
    if register is None or register.may is None:
        return f"{name} is no register with a mask"
    return mask_fault(register, *what.partition(":"))


def mask_fault(register, text, colon, fixed_text):
    mask, fixed = number(text), number(fixed_text) if colon else 0
    if mask is None or mask > ALL:
        return f"'{text}' is no mask below 2^64"
    if mask & ~register.may:
        return f"{register.name} has no such bits as {text}"
    if register.must & ~mask:
        return f"{register.name} must have more bits than {text}"
    if fixed is None or fixed > ALL:
        return f"'{fixed_text}' is no mask below 2^64"
    if fixed & (~register.fixed | mask):
        return f"{register.name} cannot have the bits of {fixed_text} as 1 always"
    return ""


def check_value(word, text):
    """Refuses a text that is no value of an option, or of a plain word."""
    CHECKS[word.kind](word, text)


RANGES = ("number", "power")  # kinds whose values are the ends of a range
FORMS = {"row": "a row may give", "none": "a core may lack", "maybe": "a core may lack"}
CHECKS = {
    "number": check_number, "one": check_one, "power": check_power, "address": check_address,
    "range": check_range, "ranges": check_ranges, "causes": check_causes, "lines": check_lines,
    "registers": check_registers,
}
REGISTERS = {it.name: it for it in registers_of_table()}
WORDS = {it.name: it for it in words_of_table()}


# ---- a list of words, after docs/REFERENCE.md


class Command:
    """A command and what was said after it until now."""

    def __init__(self, name):
        self.name, self.options, self.plain = name, {}, []

    def take_plain(self, text):
        self.plain.append(text)
        if len(self.plain) > 2:
            raise Refused(f"'{text}' is a third word after {self.name}")
        own = [it for it in WORDS.values() if not it.is_option and self.name in it.commands]
        if own:
            check_value(own[len(self.plain) - 1], text)

    def once(self, name):
        if name in self.options:
            raise Refused(f"{name} stands twice")
        self.options[name] = ""

    def take_flag(self, word):
        if self.name not in word.commands:
            raise Refused(f"{word.name} is no option of {self.name}")
        self.once(word.name)

    def take_option(self, name, text):
        self.once(name)
        word = WORDS.get(name)
        if word is None:
            raise Refused(f"{name} is no option")
        if word.is_flag:
            raise Refused(f"{name} is of {listed(word.commands, 'and')} alone, and has no value")
        if self.name not in word.commands:
            raise Refused(f"{name} is no option of {self.name}")
        check_value(word, text)
        self.options[name] = text

    def finish(self):
        if len(self.plain) != 2:
            raise Refused(f"{self.name} wants two words, and has {len(self.plain)}")
        if "--io" in self.options:
            ram = self.options.get("--ram", WORDS["--ram"].default)
            found = sorted([check_range(WORDS["--ram"], ram),
                            *check_ranges(WORDS["--io"], self.options["--io"])])
            if any(end > begin for (_, end), (begin, _) in zip(found, found[1:])):
                raise Refused("--io: a range has bytes in common with RAM or another")


def check(words):
    """Refuses a list of words as the judge does, and says why."""
    name, *rest = words or [""]
    if name not in COMMANDS:
        known = listed(COMMANDS, "or")
        raise Refused(f"'{name}' is no command: {known}" if name else f"there is no command: {known}")
    command, is_plain = Command(name), False
    while rest:
        word = rest.pop(0)
        front, equals, text = word.partition("=")
        if is_plain or word == "-" or not word.startswith("-"):
            command.take_plain(word)
        elif word == "--":
            is_plain = True
        elif not word.startswith("--"):
            raise Refused(f"'{word}' is no option: options have two dashes")
        elif word in WORDS and WORDS[word].is_flag:
            command.take_flag(WORDS[word])
        elif equals:
            command.take_option(front, text)
        elif not rest or rest[0].startswith("-"):
            raise Refused(f"{word} has no value")
        else:
            command.take_option(word, rest.pop(0))
    command.finish()


def reason(words):
    """The first reason why the judge refuses a list of words, or an empty text."""
    try:
        check(words)
    except Refused as fault:
        return str(fault)
    return ""


if __name__ == "__main__":
    sys.stdout.buffer.write(os.fsencode(reason(sys.argv[1:])))
