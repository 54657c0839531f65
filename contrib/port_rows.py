#!/usr/bin/env python3
"""Takes a trace apart that has one line for all ports of a core, for tools that read one row a line.

    port_rows.py [TRACE] [-o FILE]

The columns are those of all ports, without _0 to _3 after their names: those that the judge knows,
and hart, time and cycle. Each line gives a row for each port, port 0 first, those that are not
valid too: so rows keep the numbers that the judge gives them. A column that a port lacks is empty
in its rows. Without TRACE, or with - for it, standard input is read.
"""
import re
import sys

from common import (
    Refused, ends, fields_under, header_of, names_of, parser_of, rows_between, shown_lines,
)
from cover import KNOWN

SUFFIX = re.compile(r"(.*)_([0-3])")
OF_PORTS = {*KNOWN, "hart", "time", "cycle"}


def names_in(header):
    """The column and the port of each name of the header. One that is not of ports is of port 0."""
    for name in names_of(header):
        found = SUFFIX.fullmatch(name)
        yield (found[1], int(found[2])) if found and found[1] in OF_PORTS else (name, 0)


def quoted(field):
    return '"' + field.replace('"', '""') + '"' if '"' in field or "," in field else field


def take_apart(source, out):
    """Writes the rows of a trace, and gives how many."""
    lines = shown_lines(source)
    header = header_of(lines)
    names = list(names_in(header))
    columns = list(dict.fromkeys(column for column, _ in names))
    ports = 1 + max(port for _, port in names)
    places = {name: at for at, name in enumerate(names)}
    wanted = [[places.get((column, port)) for column in columns] for port in range(ports)]
    out.write(",".join(map(quoted, columns)) + "\n")
    rows = 0
    for at, line in lines:
        try:
            fields = fields_under(names, line)
        except Refused as fault:
            raise Refused(f"line {at}: {fault}") from None
        for places in wanted:
            out.write(",".join("" if it is None else quoted(fields[it]) for it in places) + "\n")
        rows += ports
    return rows


def main():
    parser = parser_of(__doc__)
    parser.add_argument("trace", nargs="?", default="-", metavar="TRACE")
    parser.add_argument("-o", metavar="FILE", help="where to write (default: standard output)")
    words = parser.parse_args()

    def run():
        with rows_between(words) as (source, out):
            rows = take_apart(source, out)
        print(f"port_rows.py: {rows} rows", file=sys.stderr)
        return 0

    return ends("port_rows.py", run)


if __name__ == "__main__":
    sys.exit(main())
