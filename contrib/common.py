"""What several tools of this folder have in common: their words, the files that they read and write,
the lines of a trace, and how they end."""
import argparse
import csv
import re
import subprocess
import sys
from contextlib import contextmanager
from pathlib import Path

HERE = Path(__file__).resolve().parent
sys.path.insert(0, str(HERE.parent / "bin"))
import words as judge_words  # noqa: E402  # found by the line before

PROGRAM = str(HERE.parent / "bin/rvjudge")
MOST_HARTS = int(judge_words.WORDS["--harts"].values[1])
RESET_PC = 0x80000000
UNPACK = {".gz": ["gzip", "-dc"], ".zst": ["zstd", "-dcq"]}
NUMBER = re.compile(r"0[xX][0-9a-fA-F]{1,40}|[0-9]{1,40}", re.ASCII)
MARKS = ("\ufeff", "\xef\xbb\xbf")  # the byte order mark of UTF-8, decoded as that and as Latin-1
ABI = ("zero ra sp gp tp t0 t1 t2 s0 s1 a0 a1 a2 a3 a4 a5 a6 a7 s2 s3 s4 s5 s6 s7 s8 s9 s10 s11 "
       "t3 t4 t5 t6").split()


class Refused(Exception):
    """A tool cannot do what it was asked."""


# ---- words


def parser_of(text, **more):
    """A parser whose help is the text that a tool begins with."""
    first, _, rest = text.partition("\n")
    return argparse.ArgumentParser(description=first, epilog=rest,
                                   formatter_class=argparse.RawDescriptionHelpFormatter, **more)


def number_word(text):
    """A number as a word of a tool has it."""
    try:
        return int(text, 0)
    except ValueError:
        raise argparse.ArgumentTypeError(f"{text} is no number") from None


def positive(text):
    if not text.isdigit() or int(text) == 0:
        raise argparse.ArgumentTypeError(f"{text} is no number above 0")
    return int(text)


def add_program(parser):
    parser.add_argument("-p", "--program", default=PROGRAM, metavar="PROGRAM",
                        help="the judge (default: bin/rvjudge of this repository)")


def add_log(parser, example):
    """The words of a tool that makes a trace of a log, but for --pc."""
    parser.add_argument("log", nargs="?", default="-", metavar="LOG")
    parser.add_argument("-o", metavar="FILE", help="the trace (default: standard output)")
    parser.add_argument("--without", default="", metavar="COLUMN,..",
                        help=f"columns to leave out, as {example}")


def take_log_words(parser, columns):
    """The words of such a tool, which writes these columns."""
    words = parser.parse_args()
    words.without = words.without.split(",") if words.without else []
    for name in words.without:
        if name not in columns or name in ("insn", "pc_rdata"):
            parser.error(f"--without {name}: there is no such column to leave out")
    return words


# ---- files


def source_of(path, **how):
    """A file that is read; - is standard input."""
    return open(0 if path == "-" else path, **how)


def target_of(path, encoding="utf-8"):
    """A file that is written; None is standard output."""
    return open(1 if path is None else path, "w", encoding=encoding)


def unpacker_of(path):
    """The words of the program that unpacks a file, or None."""
    return next((words for it, words in UNPACK.items() if path.endswith(it)), None)


@contextmanager
def opened(path, is_whole=True):
    """The bytes of a file, unpacked where its name says so. is_whole: it is read to its end, and a file
    that could not be unpacked is then refused."""
    unpack = unpacker_of(path)
    with source_of(path, mode="rb") as file:
        if unpack is None:
            yield file
            return
        child = subprocess.Popen(unpack, stdin=file, stdout=subprocess.PIPE)
        try:
            yield child.stdout
            if is_whole and child.wait():
                raise Refused(f"{path}: it could not be unpacked")
        finally:
            child.kill()
            child.wait()


@contextmanager
def rows_between(words):
    """The texts of a trace that is read and of one that is written. Faults name the first."""
    try:
        with (
            source_of(words.trace, encoding="utf-8") as source,
            target_of(words.o) as out,
        ):
            yield source, out
    except (Refused, OSError, UnicodeDecodeError) as fault:
        raise Refused(f"{words.trace}: {fault}") from None


# ---- the lines of a trace


def number(text):
    """A number as a trace has it."""
    if NUMBER.fullmatch(text) is None:
        raise Refused(f"{text[:60]!r} is no number")
    return int(text, 16) if text[:2] in ("0x", "0X") else int(text)


def fields_of(line):
    try:
        return next(csv.reader([line])) if '"' in line else line.split(",")
    except csv.Error as fault:
        raise Refused(str(fault)) from None


def fields_under(names, line):
    """The fields of a line, as many as there are names."""
    fields = fields_of(line)
    if len(fields) != len(names):
        raise Refused(f"{len(fields)} fields under {len(names)} names")
    return fields


def shown_lines(lines):
    """The lines that are not blank, without their ends, each with its number."""
    return ((at, it) for at, line in enumerate(lines, 1) if (it := line.rstrip("\r\n")))


def header_of(lines):
    """The first of some lines with numbers."""
    _, header = next(lines, (0, None))
    if header is None:
        raise Refused("there is no header")
    return header


def names_of(header):
    """The names of the columns, without the front that they may have."""
    for mark in MARKS:
        header = header.removeprefix(mark)
    return [it.strip(" \t").removeprefix("rvfi_") for it in fields_of(header)]


def row_writer(out, columns, without):
    """Writes the header, and gives what writes a row's text, but for the columns that are left out."""
    kept = [at for at, name in enumerate(columns) if name not in without]

    def write(text):
        fields = text[:-1].split(",")
        out.write(",".join([fields[at] for at in kept]) + "\n")

    out.write(",".join(columns[at] for at in kept) + "\n")
    return write if without else out.write


# ---- the end


def ends(name, run, status=1):
    """The status of a tool: what it gives, or where it is refused the one that is named."""
    try:
        return run()
    except (Refused, OSError) as fault:
        print(f"{name}: {fault}", file=sys.stderr)
        return status


def convert_log(name, words, convert):
    """The status of a tool that makes a trace of a log."""
    def run():
        with (
            source_of(words.log, mode="rb") as log,
            target_of(words.o, "ascii") as out,
        ):
            convert(log, words, out)
        return 0

    return ends(name, run)
