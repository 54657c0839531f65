#!/usr/bin/env python3
"""Judges one long trace in pieces, side by side, from states that are known before.

    pieces.py IMAGE TRACE --at ROWS=STATE.. [-- OPTION..]

STATE is the text of a saved state, that of the hart after the first ROWS rows of the trace: as
make_state.py writes it from what a simulator saved, or as rvjudge state printed it in an earlier run.
The trace is cut there. Each piece is judged by rvjudge state, as a job of its own: the first from
IMAGE, the others from their STATE, without --pc. TRACE is a plain file, and is not copied.

The whole agrees where each piece agrees, and ends in the state, byte for byte, that the next one begins
from. One line is printed for each piece as it is done. The last line is the verdict on the whole trace,
with its rows numbered through; where a piece ends in another state than the one that was given, it is
the first line in which the two differ.

Status: that of the judge on the whole trace, 0, 1, 3 or 4; 1 too where a state is another than the one
that was given; 2 where no verdict was reached. What comes after the first piece that does not agree, or
whose end is another, counts for nothing.

On several machines, which must see the same files at the same paths:
    --with parallel [--sshlogin HOSTS]   GNU parallel runs the pieces;
    --with slurm --results NEW           writes NEW/job.sh for sbatch, and runs nothing; when the
                                         job is done, pieces.py --collect NEW gives the verdict.
"""
import argparse
import os
import re
import shutil
import subprocess
import sys
import tempfile
import threading
import time
from itertools import chain
from pathlib import Path
from typing import NamedTuple

from common import Refused, add_program, fields_of, judge_words, number, parser_of, positive
from image_start import SAVED
from port_rows import names_in
from regress import (
    CHILDREN, add_ways, check_program, check_ways, options_by_name, read_list, results_of, run_here,
    run_parallel, run_part, run_with_children, words_of, write_slurm,
)

AGREES, DIFFERS, REFUSED, NONE = "agrees", "differs", "refused", "no verdict"
STATUS = {AGREES: 0, DIFFERS: 1, NONE: 2}
MARK, BLANK = b"\xef\xbb\xbf", (b"", b"\n", b"\r", b"\r\n")
BLOCK = 1 << 20  # bytes that are read at once
VERDICTS = {
    1: (DIFFERS, re.compile(r"differs row \d+: \w+ expected \S+ found \S+")),
    3: (REFUSED, re.compile(r"refused image: .*")),
    4: (REFUSED, re.compile(r"refused trace: .*")),
}
NUMBERED = re.compile(r"(differs row |refused trace: row |refused trace: line )(\d+)(.*)")


class Piece(NamedTuple):
    """Some lines of the trace: begin and end are bytes, rows and lines are numbers before it."""

    number: int
    image: str
    begin: int
    end: int
    rows: int
    lines: int
    count: int = 0  # of its rows
    after: str = ""  # the state in which it must end


class Outcome(NamedTuple):
    """What came of a piece. unmet tells how its end is another state than the one that was given."""

    piece: int
    kind: str
    line: str
    valid: int = 0
    unmet: str = ""
    seconds: float = 0.0


# ---- cutting


class Header(NamedTuple):
    """The first line of a trace that is not blank: how many ports it has, and where valid stands."""

    text: str
    ports: int
    valid: list


def header_of(line):
    text = line.removeprefix(MARK).decode("latin-1").rstrip("\r\n")
    names = list(names_in(text))
    ports = 1 + max(port for _, port in names)
    return Header(text + "\n", ports, [at for at, (name, _) in enumerate(names) if name == "valid"])


def shown_lines(file):
    """The lines of a trace that are not blank: the bytes and the lines before each, and the line."""
    before = 0
    for number, line in enumerate(file):
        if (line if before else line.removeprefix(MARK)) not in BLANK:
            yield before, number, line
        before += len(line)


def cut(path, image, marks):
    """The header of a trace, and its pieces. Marks are numbers of rows, each with a state."""
    with open(path, "rb") as file:
        shown = shown_lines(file)
        _, _, line = next(shown, (0, 0, None))
        if line is None:
            raise Refused(f"{path}: there is no header")
        header = header_of(line)
        waiting, starts, count, lines = sorted(marks, reverse=True), [Piece(0, image, 0, 0, 0, 0)], 0, 0
        for begin, lines, line in shown:
            while waiting and waiting[-1][0] <= count * header.ports:
                starts.append(piece_at(len(starts), waiting.pop(), begin, count * header.ports, lines))
            count += 1
        rows, size = count * header.ports, os.fstat(file.fileno()).st_size
        while waiting:
            starts.append(piece_at(len(starts), waiting.pop(), size, rows, lines + 1))
    ends = [(it.begin, it.rows, it.image) for it in starts[1:]] + [(size, rows, "")]
    return header, [it._replace(end=end, count=after - it.rows, after=state)
                    for it, (end, after, state) in zip(starts, ends)]


def piece_at(number, mark, begin, rows, lines):
    """The piece that begins at a mark, where so many bytes, rows and lines stand before it."""
    if mark[0] != rows:
        raise Refused(f"no line begins after row {mark[0]}: one does after row {rows}, or the trace "
                      "ends there")
    return Piece(number, mark[1], begin, 0, rows, lines)


# ---- judging


def hidden_rows(lines, place):
    """How many of some lines show valid as 0, in the field at a place."""
    if b'"' not in lines:
        form = rb"^(?:[^,\n]*,){%d}[ \t]*(?:0+|0[xX]0+)[ \t]*(?:[,\r\n]|\Z)" % place
        return sum(1 for _ in re.finditer(form, lines, re.MULTILINE))
    count = 0
    for line in lines.decode("latin-1").split("\n"):
        fields = fields_of(line)
        shown = fields[place].strip(" \t\r") if place < len(fields) else ""
        count += re.fullmatch("0+|0[xX]0+", shown) is not None
    return count


class Feeder(threading.Thread):
    """Gives the lines of a piece to the judge, and counts its valid rows."""

    def __init__(self, piece, settings, pipe):
        super().__init__(daemon=True)
        self.piece, self.settings, self.pipe = piece, settings, pipe
        self.valid = piece.count
        self.fault = ""

    def run(self):
        try:
            with open(self.settings["trace"], "rb") as file, self.pipe:
                file.seek(self.piece.begin)
                if self.piece.number:
                    self.pipe.write(self.settings["header"].encode("latin-1"))
                self.feed(file)
        except BrokenPipeError:
            pass  # the judge has ended, and its answer says why
        except OSError as fault:
            self.fault = str(fault)

    def feed(self, file):
        """Whole lines, many at once. The header has no number that is 0 under valid."""
        left = self.piece.end - self.piece.begin
        while left and (lines := file.read(min(left, BLOCK))):
            if len(lines) < left:
                lines += file.readline()
            self.pipe.write(lines)
            left -= len(lines)
            self.valid -= sum(hidden_rows(lines, place) for place in self.settings["valid"])


def compare(out, piece, settings):
    """The first line that the judge prints, and where the state that it prints is another than that
    which is wanted."""
    first, unmet, number = out.readline(), "", 0
    if first != SAVED:
        return first.decode("latin-1") + out.read(BLOCK).decode("latin-1"), unmet
    keep = settings["end"] if not piece.after else ""
    with (
        open(piece.after or os.devnull, "rb") as wanted,
        open(keep or os.devnull, "wb") as kept,
    ):
        for number, line in enumerate(chain([first], out), 1):
            kept.write(line)
            if piece.after and not unmet and (other := wanted.readline()) != line:
                unmet = told(piece, number, line, other)
        if piece.after and not unmet and (other := wanted.readline()):
            unmet = told(piece, number + 1, b"", other)
    return SAVED.decode(), unmet


def told(piece, number, line, other):
    """How a state is another than the one that was given."""
    found, given = (it.decode("latin-1").rstrip("\n") or "no line" for it in (line, other))
    return f"line {number} of {piece.after}: given is {given!r}, the rows lead to {found!r}"


def run_judge(piece, settings):
    """The judge's status, what it printed, where its state is unmet, and the number of valid rows."""
    options = {name: value for name, value in settings["options"].items()
               if name != "--pc" or not piece.number}
    words = [settings["program"], "state", piece.image, "/dev/stdin", *words_of(options)]
    with tempfile.TemporaryFile() as errors:
        child = CHILDREN.start(words, stdin=subprocess.PIPE, stdout=subprocess.PIPE, stderr=errors)
        timer = threading.Timer(settings["timeout"] or threading.TIMEOUT_MAX, CHILDREN.end, [child])
        timer.daemon = True
        feeder = Feeder(piece, settings, child.stdin)
        began = time.monotonic()
        timer.start()
        feeder.start()
        try:
            said, unmet = compare(child.stdout, piece, settings)
            status = child.wait()
            feeder.join()
        finally:
            timer.cancel()
            CHILDREN.end(child)
        if feeder.fault:
            raise Refused(f"the trace could not be read: {feeder.fault}")
        if status < 0 and 0 < settings["timeout"] <= time.monotonic() - began:
            raise Refused(f"it took more than {settings['timeout']:g} seconds")
        errors.seek(0)
        why = errors.read(BLOCK).decode("utf-8", "replace").strip().split("\n")[-1]
    return status, said, unmet, feeder.valid, why


def judged(piece, settings):
    """What comes of a piece; whatever goes wrong, there is an outcome."""
    began = time.monotonic()
    try:
        status, said, unmet, valid, why = run_judge(piece, settings)
        kind, line = verdict(status, said, valid, why)
    except (Refused, OSError) as fault:
        kind, line, valid, unmet = NONE, str(fault), 0, ""
    return Outcome(piece.number, kind, line, valid, unmet, round(time.monotonic() - began, 3))


def verdict(status, said, valid, why):
    line = said.removesuffix("\n")
    if status == 0 and line == "rvstate 1":
        return AGREES, f"agrees {valid}"
    kind, form = VERDICTS.get(status, (NONE, None))
    if form and form.fullmatch(line):
        return kind, line
    if status == 2 and line == "refused words":
        return NONE, f"refused words ({why})" if why else line
    ended = f"was ended by signal {-status}" if status < 0 else f"ended with status {status}"
    return NONE, f"the judge {ended}, and printed {line[:60]!r}" + (f": {why}" if why else "")


# ---- the whole


def moved(line, piece):
    """A verdict on a piece with the numbers that rows and lines have in the whole trace."""
    found = NUMBERED.fullmatch(line)
    if not found or not piece.number:
        return line
    more = piece.lines - 1 if "line" in found[1] else piece.rows  # its header is a line more
    return f"{found[1]}{int(found[2]) + more}{found[3]}"


def conclude(pieces, outcomes):
    """The verdict on the whole trace, and the status."""
    by_piece, valid = {it.piece: it for it in reversed(outcomes)}, 0
    for piece in pieces:
        found = by_piece.get(piece.number) or Outcome(piece.number, NONE, "no verdict on it came back")
        where = f"rows {piece.rows + 1} to {piece.rows + piece.count}"
        if found.kind == NONE or (piece.number and found.line.startswith("refused image")):
            return f"no verdict on {where}: {found.line}", STATUS[NONE]
        if found.kind == REFUSED:
            return moved(found.line, piece), 3 if found.line.startswith("refused image") else 4
        if found.kind == DIFFERS:
            return moved(found.line, piece), STATUS[DIFFERS]
        if found.unmet:
            return f"another state after row {piece.rows + piece.count}: {found.unmet}", STATUS[DIFFERS]
        valid += found.valid
    return f"agrees {valid}", STATUS[AGREES]


def tell(piece, outcome):
    """The line for a piece that is done."""
    more = ", and ends in another state than the one that was given" if outcome.unmet else ""
    line = moved(outcome.line, piece)
    print(f"rows {piece.rows + 1} to {piece.rows + piece.count}: {line}{more}", flush=True)


# ---- the words


def mark(text):
    rows, equals, state = text.partition("=")
    if not equals or not rows.isdigit():
        raise argparse.ArgumentTypeError(f"{text}: ROWS=STATE is awaited")
    return int(rows), os.path.abspath(state)


def arguments(words):
    parser = parser_of(__doc__, prog="pieces.py", allow_abbrev=False)
    add = parser.add_argument
    add("image", nargs="?", metavar="IMAGE")
    add("trace", nargs="?", metavar="TRACE")
    add("--at", type=mark, action="append", default=[], metavar="ROWS=STATE",
        help="cut after so many rows, where the hart is in this state")
    add("--end", default="", metavar="FILE", help="where the state after the last row is written")
    add_program(parser)
    add("-j", "--jobs", type=positive, default=len(os.sched_getaffinity(0)), metavar="N",
        help="pieces that are judged at once (default: as many as there are processors)")
    add("--timeout", type=float, default=0, metavar="S", help="most seconds of a piece")
    add_ways(add)
    at = words.index("--") if "--" in words else len(words)
    found = parser.parse_args(words[:at])
    found.options = words[at + 1:]
    if not (found.collect or found.list) and not found.trace:
        parser.error("which IMAGE and TRACE?")
    check_ways(parser, found)
    return found


def most_bytes(given):
    """The most bytes that the trace may have by the judge's options."""
    text = given.get("--max-trace")
    if text is None:
        return judge_words.bound(judge_words.WORDS["--max-trace"].default)
    try:
        return number(text)
    except Refused:
        raise Refused(f"--max-trace {text} is no number") from None


def prepared(words):
    """The pieces that the words ask for, and what each is judged with."""
    program = str(Path(shutil.which(words.program) or words.program).resolve())
    check_program(program)
    given = {"--workers": "1"} | options_by_name(words.options, "after --")
    if "--origin" in given:
        raise Refused("--origin: a state has no origins; ask for them in the piece that differs")
    trace = os.path.abspath(words.trace)
    if os.path.getsize(trace) > most_bytes(given):
        raise Refused(f"{words.trace} has more bytes than --max-trace")
    header, pieces = cut(trace, os.path.abspath(words.image), words.at)
    settings = {
        "program": program, "timeout": words.timeout, "options": given, "trace": trace,
        "header": header.text, "ports": header.ports, "valid": header.valid,
        "end": words.end and os.path.abspath(words.end),
    }
    return pieces, settings


def run(words):
    if words.list:
        return run_part(words, Piece, judged)
    if words.collect:
        pieces, _ = read_list(Path(words.collect, "list"), Piece)
        source = results_of(words.collect, Outcome)
    else:
        pieces, settings = prepared(words)
        if words.way == "slurm":
            return write_slurm("pieces.py", pieces, settings, words)
        if words.way == "parallel":
            source = run_parallel("pieces.py", pieces, settings, words, Outcome)
        else:
            source = run_here(pieces, settings, words.jobs, judged)
    outcomes = []
    for outcome in source:
        outcomes.append(outcome)
        tell(pieces[outcome.piece], outcome)
    line, status = conclude(pieces, outcomes)
    print(line)
    return status


def main():
    words = arguments(sys.argv[1:])
    return run_with_children("pieces.py", lambda: run(words))


if __name__ == "__main__":
    sys.exit(main())
