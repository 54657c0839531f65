"""Made traces of several ports a line; a part of campaign.py."""
import re

from campaign_rows import Row
from campaign_text import UNKNOWN_AT_PORTS
from judge import Setting
from port_lines import as_due, has_open_quote, in_lines

MOST = 4
# what a port may leave out without that a choice of the core is not told
SPARE = ("order", "mode", "ixl", "rd_addr", "pc_wdata", "mem_paddr")
REFUSED = re.compile(
    r"refused trace: (?:row \d+: |)(no column|column|) ?\w+_([1-3]) ?(empty|not a number|too wide|twice|)"
)


def pick_ports(chance, form, reached):
    """How many ports a line has."""
    ports = 1 + chance.below(MOST)
    form.unknown_names = UNKNOWN_AT_PORTS
    reached["ports", f"{ports} a line"] += 1
    return ports


def port_columns(chance, columns, ports):
    """The columns of each port, each with the name that it has in the header."""
    style, found = chance.below(3), []
    for port in range(ports):
        spared = [] if chance.one_in(2) else [name for name in SPARE if chance.one_in(4)]
        for name in columns:
            if name not in spared:
                with_zero = style == 1 or (style == 2 and chance.one_in(2))
                found.append((name, port, f"{name}_{port}" if port or with_zero else name))
    if chance.one_in(2):
        chance.shuffle(found)
    return found


def in_ports(chance, columns, rows, ports):
    """The names and the lines of a trace that has so many of these rows in each line.

    A line that is not full gets rows that are not valid; where there is no column for that, it is added.
    """
    if len(rows) % ports and "valid" not in columns:
        columns = [*columns, "valid"]
        rows = [row if row.get("valid") == 0 else row | {"valid": chance.pick((1, None))} for row in rows]
    rows = list(rows)
    while len(rows) % ports:
        fill = Row(chance, dict.fromkeys(columns))
        fill.invalid()
        rows.append(fill.fields)
    places = port_columns(chance, columns, ports)
    lines = [
        {shown: rows[at + port].get(name) for name, port, shown in places}
        for at in range(0, len(rows), ports)
    ]
    return [shown for _, _, shown in places], lines


def rewritten(case, said):
    """The trace of a case of one port with two to four ports a line: how many, the text, and the line due.

    What is due is known from the line that was said of the case. There is none where a limit of bytes tells
    the texts apart, or a quote that is not closed.
    """
    has_limit = case.altered == "long line" or case.setting.most_trace != Setting().most_trace
    if case.ports == 1 and not has_limit and not has_open_quote(case.trace):
        for ports in range(2, MOST + 1):
            yield ports, in_lines(case.trace, ports), as_due(said, ports)


def count_answer(reached, case, said):
    """Counts at which port a trace of several ports differs or is refused."""
    words = said.split()
    if case.ports > 1 and words[:2] == ["differs", "row"]:
        reached["port differs", str((int(words[2].rstrip(":")) - 1) % case.ports)] += 1
    found = REFUSED.fullmatch(said)
    if found:
        reached["port refused", f"{f'{found[1]} {found[3]}'.strip()} at port {found[2]}"] += 1


def ports_to_reach():
    for ports in range(1, MOST + 1):
        yield "ports", f"{ports} a line"
    for ports in range(2, MOST + 1):
        for kind in (
            "agrees", "differs", "no header", "no column C", "column C twice", "stray return in header",
            "stray return", "wrong number of fields", "C empty", "C not a number", "C too wide",
        ):
            yield "rewritten", f"{kind}: {ports} ports"
    for port in range(MOST):
        yield "port differs", str(port)
    for port in range(1, MOST):
        for what in ("empty", "not a number", "too wide", "no column", "column twice"):
            yield "port refused", f"{what} at port {port}"
