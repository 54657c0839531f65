"""Rewrites traces of one port with several ports a line, and what is then due; a part of campaign.py."""
import re

from trace_text import fields_of, lines_of, split_name, suffixed

WHOLE = 1 << 40  # bytes of a trace, none of which is too many

REFUSED_ROW = re.compile(r"refused trace: row (\d+): (.*)")
OF_A_LINE = ("stray return", "wrong number of fields")


def name_at(name, port):
    """The name that a name of port 0 has at this port."""
    return name.removesuffix(b"_0") + f"_{port}".encode() if port else name


def has_open_quote(trace):
    """Whether a quote of some line is not closed, so that it would take what is put after that line."""
    return any(b'"' in line and fields_of(line + b",x")[-1] != b"x" for line in lines_of(trace, WHOLE))


def in_lines(trace, ports):
    """The bytes of a trace whose lines have so many rows each of this one, which has one port.

    Each port has a column valid, at its end where the trace has none. The last line is filled with rows
    that are not valid.
    """
    lines = list(lines_of(trace, WHOLE))
    if not lines:
        return trace
    names = fields_of(lines[0])
    valid = next((at for at, name in enumerate(names) if split_name(name.decode("latin-1"))[0] == "valid"), None)
    more = b"" if valid is not None else b",1"
    if valid is None:
        valid, names = len(names), [*names, b"valid"]
    rows = [line + more for line in lines[1:]]
    fill = b",".join(b"0" if at == valid else b"" for at in range(len(names)))
    rows += [fill] * (-len(rows) % ports)
    whole = [b",".join(name_at(name, port) for port in range(ports) for name in names)]
    whole += (b",".join(rows[at : at + ports]) for at in range(0, len(rows), ports))
    return b"".join(line + b"\n" for line in whole)


def as_due(said, ports):
    """The line that is due for a trace with so many ports a line, from that for the same with one."""
    found = REFUSED_ROW.fullmatch(said)
    if not found:
        return said
    row, fault = int(found[1]), found[2]
    port = (row - 1) % ports
    if fault in OF_A_LINE:
        return f"refused trace: row {row - port}: {fault}"
    if fault == "hart not there":
        return said
    column, _, why = fault.partition(" ")
    return f"refused trace: row {row}: {suffixed(column, port)} {why}"
