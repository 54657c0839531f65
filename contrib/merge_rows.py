#!/usr/bin/env python3
"""Merges the traces of several cores, one of each, into one with the rows in the order of memory.

    merge_rows.py TRACE[=HART] TRACE[=HART] .. [-o FILE] [--by COLUMN]

Rows are ordered by the column time, or cycle where there is no time, or the one that --by names.
All traces must count it alike, and in each of them it never falls. It must be the time at which a
row takes effect for the other harts: that of a store is when it becomes visible, and not when it
retires (docs/TRACES.md, "Several harts"). Rows of the same time stand in the order in which the
traces are named: all those of the first, then those of the next. Rows of a trace keep their order.

Each trace has the rows of one hart. Its number is HART, or stands in the column hart, which is
added where there is none. The traces must have the same columns in the same order. A line for
several ports keeps its rows together. A row whose valid is 0 and that has no time stays after the
one before it. TRACE may be packed (.gz, .zst); - is standard input. One line of each trace is held.
Merge files: pipes from one simulation may wait for each other without end. Where a trace is refused
what was written ends with a row that the judge refuses.

Judge what is merged with --harts, which is more than the greatest number of a hart.
"""
import heapq
import io
import os
import re
import sys
from contextlib import suppress

from common import (
    MOST_HARTS, Refused, ends, fields_under, header_of, names_of, number, opened, parser_of,
    shown_lines, target_of,
)

INSN = re.compile(r"insn(|_[0-3])")
SAME_PORT = {"": "_0", "_0": ""}


def lines_of(path):
    """The lines of a trace, which is unpacked where its name says so."""
    with opened(path) as file:
        try:
            yield from io.TextIOWrapper(file, encoding="utf-8")
        except UnicodeDecodeError as fault:
            raise Refused(f"{path}: {fault}") from None


class Trace:
    """One trace: its columns, and the line that is to be written next."""

    def __init__(self, path, hart, owners):
        self.path, self.hart, self.owners = path, None, owners
        self.lines = shown_lines(lines_of(path))
        try:
            self.header = header_of(self.lines).removeprefix("\ufeff")
            self.names = names_of(self.header)
        except Refused as fault:
            raise Refused(f"{path}: {fault}") from None
        self.suffixes = [found[1] for it in self.names if (found := INSN.fullmatch(it))] or [""]
        self.harts, self.valids = self.places("hart"), self.places("valid")
        self.by, self.times = None, []
        self.rows, self.time, self.line = 0, None, None
        if hart is not None:
            self.claim(hart)
        elif not self.has_hart():
            raise Refused(f"{path}: there is no column hart: name its hart, as in {path}=0")

    def places(self, name):
        """Where each port has this column, or None. That of port 0 may have no suffix."""
        where = {it: at for at, it in enumerate(self.names)}
        return [where.get(name + it, where.get(name + SAME_PORT.get(it, it)))
                for it in self.suffixes]

    def has_hart(self):
        return any(it is not None for it in self.harts)

    def order_by(self, columns):
        """Takes the first of these columns that is there: one for each port, or one for all."""
        for name in columns:
            for_all = self.names.index(name) if name in self.names else None
            places = [for_all if it is None else it for it in self.places(name)]
            self.times = [it for it in places if it is not None]
            if self.times:
                self.by = name
                return
        raise Refused(f"{self.path}: there is no column {' or '.join(columns)}")

    def claim(self, hart):
        owner = self.owners.setdefault(hart, self)
        if owner is not self:
            raise Refused(f"hart {hart} has two traces, {owner.path} and {self.path}")
        self.hart = hart

    def advance(self):
        """Goes to the next line; whether there is one."""
        at, self.line = next(self.lines, (0, None))
        if self.line is None:
            return False
        try:
            fields = [it.strip(" \t") for it in fields_under(self.names, self.line)]
            valid = [it is None or number(fields[it] or "1") for it in self.valids]
            if self.has_hart():
                self.take_harts([it for it, shown in zip(self.harts, valid) if shown], fields)
            self.take_time(fields, any(valid))
        except Refused as fault:
            raise Refused(f"{self.path}: line {at}: {fault}") from None
        self.rows += 1
        return True

    def take_harts(self, places, fields):
        """The harts of a line's rows, 0 where none is shown, must be the trace's one."""
        for place in places:
            hart = 0 if place is None or not fields[place] else number(fields[place])
            if self.hart is None:
                self.claim(hart)
            elif hart != self.hart:
                raise Refused(f"a row of hart {hart}, where the trace is of hart {self.hart}")

    def take_time(self, fields, is_valid):
        found = {number(fields[it]) for it in self.times if fields[it]}
        if len(found) > 1:
            raise Refused(f"several values of {self.by}: take the ports apart by port_rows.py")
        if not found and is_valid:
            raise Refused(f"no {self.by}")
        time = found.pop() if found else self.time or 0
        if self.time is not None and time < self.time:
            raise Refused(f"{self.by} {time} comes after {self.time}: it must not fall")
        self.time = time


def check_columns(first, other):
    """Refuses a trace with other columns than the first one has."""
    if other.names == first.names:
        return
    for name in first.names:
        if name not in other.names:
            raise Refused(f"{other.path}: no column {name}, which {first.path} has")
    for name in other.names:
        if name not in first.names:
            raise Refused(f"{other.path}: a column {name}, which {first.path} does not have")
    raise Refused(f"{other.path}: its columns have another order than those of {first.path}")


def merge(traces, out):
    """Writes the lines of all traces in the order of their times."""
    waiting = [(trace.time, at) for at, trace in enumerate(traces) if trace.advance()]
    heapq.heapify(waiting)
    first, added = traces[0], ["" for _ in traces]
    if not first.has_hart():
        out.write("".join(f"hart{it}," for it in first.suffixes))
        added = [f"0x{it.hart:x}," * len(first.suffixes) for it in traces]
    out.write(first.header + "\n")
    try:
        while waiting:
            _, at = waiting[0]
            out.write(f"{added[at]}{traces[at].line}\n")
            if traces[at].advance():
                heapq.heapreplace(waiting, (traces[at].time, at))
            else:
                heapq.heappop(waiting)
    except (Refused, OSError):
        with suppress(OSError):
            out.write("x\n")
        raise


def source(text):
    """The path of a trace, and its hart where that is named."""
    path, equals, hart = text.rpartition("=")
    return (path, int(hart)) if equals and path and hart.isdecimal() else (text, None)


def arguments():
    parser = parser_of(__doc__)
    parser.add_argument("traces", nargs="+", type=source, metavar="TRACE[=HART]")
    parser.add_argument("-o", metavar="FILE", help="where to write (default: standard output)")
    parser.add_argument("--by", metavar="COLUMN",
                        help="the column by which rows are ordered (default: time, else cycle)")
    return parser.parse_args()


def check_files(words):
    """Refuses to write over a trace, and to read standard input twice."""
    paths = [path for path, _ in words.traces]
    if paths.count("-") > 1:
        raise Refused("- stands for one trace alone")
    for path in paths:
        if words.o and path != "-" and os.path.exists(words.o) and os.path.exists(path) \
                and os.path.samefile(path, words.o):
            raise Refused(f"{path} is read, so it cannot be written")


def run(words):
    check_files(words)
    owners = {}
    traces = [Trace(path, hart, owners) for path, hart in words.traces]
    for trace in traces:
        check_columns(traces[0], trace)
        trace.order_by([words.by] if words.by else ["time", "cycle"])
    with target_of(words.o) as out:
        merge(traces, out)
    kind = "lines" if len(traces[0].suffixes) > 1 else "rows"
    for trace in traces:
        hart = "" if trace.hart is None else f" of hart {trace.hart}"
        print(f"merge_rows.py: {trace.path}: {trace.rows} {kind}{hart}", file=sys.stderr)
    if harts := [it.hart for it in traces if it.hart is not None]:
        count = max(harts) + 1
        fit = f"judge with --harts {count}" if count <= MOST_HARTS else "the judge has at most 8"
        print(f"merge_rows.py: {count} harts: {fit}", file=sys.stderr)
    return 0


def main():
    words = arguments()
    return ends("merge_rows.py", lambda: run(words))


if __name__ == "__main__":
    sys.exit(main())
