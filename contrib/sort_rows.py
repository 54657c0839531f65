#!/usr/bin/env python3
"""Puts rows that were written out of order into the order of their column order.

    sort_rows.py [TRACE] [-o FILE] [--window N] [--first N]

For a core that writes what it retires where it completes. Rows are held until those before them
have come, at most --window of them; where more wait the smallest is written, and a row that comes
after a later one was written is refused: give a larger window. Without TRACE, or with - for it,
standard input is read. Rows whose valid is 0 are left out. A number that is missing stays missing,
which the judge finds; one that comes twice is refused. The first number is --first, or the
smallest of the first window.
"""
import heapq
import sys

from common import (
    Refused, ends, fields_under, header_of, names_of, number, parser_of, positive, rows_between,
    shown_lines,
)


class Sorter:
    """Rows that wait, the smallest first."""

    def __init__(self, window, first, write):
        self.window, self.write = window, write
        self.waiting = []
        self.next = first  # None until a row was written
        self.rows = 0

    def take(self, order, line):
        if self.next is not None and order < self.next:
            raise Refused(f"order {order} comes after {self.next - 1} was written, or twice: "
                          f"give a larger --window than {self.window}")
        heapq.heappush(self.waiting, (order, line))
        while self.waiting and (len(self.waiting) > self.window
                                or self.waiting[0][0] == self.next):
            self.pop()

    def pop(self):
        order, line = heapq.heappop(self.waiting)
        if self.next is not None and order < self.next:
            raise Refused(f"order {order} comes twice")
        self.write(line)
        self.next, self.rows = order + 1, self.rows + 1

    def finish(self):
        while self.waiting:
            self.pop()


def sort(source, out, words):
    """Writes a trace's rows in order, and gives how many."""
    lines = shown_lines(source)
    header = header_of(lines)
    names = names_of(header)
    if "order" not in names:
        raise Refused("there is no column order")
    column, valid = names.index("order"), names.index("valid") if "valid" in names else None
    out.write(header + "\n")
    sorter = Sorter(words.window, words.first, lambda line: out.write(line + "\n"))
    for at, line in lines:
        try:
            fields = [it.strip(" \t") for it in fields_under(names, line)]
            if valid is None or number(fields[valid] or "1"):
                sorter.take(number(fields[column]), line)
        except Refused as fault:
            raise Refused(f"line {at}: {fault}") from None
    sorter.finish()
    return sorter.rows


def main():
    parser = parser_of(__doc__)
    parser.add_argument("trace", nargs="?", default="-", metavar="TRACE")
    parser.add_argument("-o", metavar="FILE", help="where to write (default: standard output)")
    parser.add_argument("--window", type=positive, default=4096, metavar="N",
                        help="most rows that wait (default 4096)")
    parser.add_argument("--first", type=int, metavar="N", help="the first row's order")
    words = parser.parse_args()

    def run():
        with rows_between(words) as (source, out):
            rows = sort(source, out, words)
        print(f"sort_rows.py: {rows} rows", file=sys.stderr)
        return 0

    return ends("sort_rows.py", run)


if __name__ == "__main__":
    sys.exit(main())
