"""Reads the texts of images and traces, and says why one is refused.

The rules are those of docs/REFERENCE.md, written here a second time; a part of judge.py.
"""
import functools
import itertools
import re
import sys

MARK = b"\xef\xbb\xbf"  # of the order of bytes
MOST_LINE = 65_536  # bytes of a line before its line feed
NEEDED = ("insn", "pc_rdata")  # the columns that a trace must have, and each row must show

# A comment, one that is not closed, or a token, which ends where a comment begins.
TOKEN = re.compile(rb"//[^\n]*|/\*.*?\*/|/\*|(?:(?!//|/\*)[^ \t\n\r\f])+", re.DOTALL)
ADDRESS = re.compile(rb"@[0-9a-fA-F]{1,16}")
BYTE = re.compile(rb"[0-9a-fA-F]{2}")
NUMBER = re.compile(rb"[0-9]+|0[xX][0-9a-fA-F]+")
SUFFIX = re.compile(r"(.*)_([0-3])", re.DOTALL)  # of a name, for its port

sys.set_int_max_str_digits(0)  # a number of a row has as many digits as its line has room for


class Refused(Exception):
    """What stands in a refusal after `refused `."""


@functools.lru_cache(maxsize=1 << 16)
def read_number(text):
    """The number that bytes stand for; None where they are none."""
    if not NUMBER.fullmatch(text):
        return None
    return int(text, 16) if text[:2] in (b"0x", b"0X") else int(text)


def read_image(text, ram):
    """The bytes of an image by their addresses."""
    image, address = {}, 0
    for found in TOKEN.finditer(text):
        token = found.group()
        if token.startswith(b"@"):
            fault = None if ADDRESS.fullmatch(token) else "bad address"
            address = address if fault else int(token[1:], 16)
        elif token.startswith((b"//", b"/*")):
            fault = "open comment" if token == b"/*" else None
        else:
            fault = fault_of_byte(token, address, image, ram)
            if not fault:
                image[address] = int(token, 16)
                address = (address + 1) % 2**64
        if fault:
            line = text.count(b"\n", 0, found.start()) + 1
            raise Refused(f"image: line {line}: {fault}")
    return image


def fault_of_byte(token, address, image, ram):
    """Why a byte at this address is refused; None where it is not."""
    if not BYTE.fullmatch(token):
        return "bad byte"
    if address not in ram:
        return "outside RAM"
    return "overlap" if address in image else None


def lines_of(text, most):
    """The lines of a trace that are not blank; a refusal where they end in one."""
    read = text[:most]
    at = len(MARK) if read.startswith(MARK) else 0
    number = 0
    while at <= len(read):
        number += 1
        feed = read.find(b"\n", at)
        end = len(read) if feed < 0 else feed
        if end - at > MOST_LINE:
            raise Refused(f"trace: line {number} too long")
        if feed < 0 and len(text) > most:
            raise Refused(f"trace: more than {most} bytes")
        line = read[at:end].removesuffix(b"\r")
        if line:
            yield line
        at = end + 1


def fields_of(line):
    """The fields of a line, without the blanks at their ends.

    A quote opens a field only where it stands at its front; two quotes inside are one; what follows
    a closing quote joins the field; without a closing quote the field has the rest of the line.
    """
    line = line.removeprefix(MARK)
    if not line:
        return []
    if b'"' not in line:
        return [field.strip(b" \t") for field in line.split(b",")]
    fields, at = [], 0
    while at <= len(line):
        field, at = quoted_field(line, at) if line[at : at + 1] == b'"' else (b"", at)
        comma = line.find(b",", at)
        end = len(line) if comma < 0 else comma
        fields.append((field + line[at:end]).strip(b" \t"))
        at = end + 1
    return fields


def quoted_field(line, at):
    """What stands in the quotes that open here, and the place after them."""
    pieces = []
    while True:
        close = line.find(b'"', at + 1)
        if close < 0:
            return b'"'.join([*pieces, line[at + 1 :]]), len(line)
        pieces.append(line[at + 1 : close])
        if line[close + 1 : close + 2] != b'"':
            return b'"'.join(pieces), close + 1
        at = close + 1


def suffixed(column, port):
    """A column's name as a refusal has it: that of port 0 stands alone."""
    return f"{column}_{port}" if port else column


class Columns:
    """The columns of a trace: how many fields a line has, and the places of the known ones port by port."""

    def __init__(self, line, widths):
        if b"\r" in line:
            raise Refused("trace: stray return in header")
        names = [name.decode("latin-1") for name in fields_of(line)]
        self.count = len(names)
        known = {}
        for place, name in enumerate(names):
            column, port = split_name(name)
            if column not in widths:
                continue
            if (column, port) in known:
                raise Refused(f"trace: column {suffixed(column, port)} twice")
            known[column, port] = place
        ports = 1 + max((port for _, port in known), default=0)
        for port in range(ports):
            for name in NEEDED:
                if (name, port) not in known:
                    raise Refused(f"trace: no column {suffixed(name, port)}")
        self.ports = [
            [(column, place, widths[column]) for (column, of), place in known.items() if of == port]
            for port in range(ports)
        ]

    def fields(self, line, row):
        """The fields of a line, whose first row is this one."""
        if b"\r" in line:
            raise Refused(f"trace: row {row}: stray return")
        fields = fields_of(line)
        if len(fields) != self.count:
            raise Refused(f"trace: row {row}: wrong number of fields")
        return fields

    def read(self, fields, port, row):
        """The signals that these fields show of this port, in this row; of one that is not valid, that alone."""
        signals = {}
        for name, place, width in self.ports[port]:
            if name == "valid":
                self.put(signals, fields[place], row, name, port, width)
                if signals.get("valid") == 0:
                    return signals
        for name, place, width in self.ports[port]:
            self.put(signals, fields[place], row, name, port, width)
        return signals

    @staticmethod
    def put(signals, field, row, name, port, width):
        """Adds the signal that a field shows."""
        if not field:
            if name in NEEDED:
                raise Refused(f"trace: row {row}: {suffixed(name, port)} empty")
            return
        value = read_number(field)
        if value is None:
            raise Refused(f"trace: row {row}: {suffixed(name, port)} not a number")
        if value >> width:
            raise Refused(f"trace: row {row}: {suffixed(name, port)} too wide")
        signals[name] = value


def split_name(name):
    """The column and the port that a name of the header is of."""
    name = name.removeprefix("rvfi_")
    found = SUFFIX.fullmatch(name)
    return (found[1], int(found[2])) if found else (name, 0)


def read_rows(text, most, widths, harts=1):
    """The rows of a trace, as they are asked for: those of a line in the order of its ports.

    A refusal where a line has one, at its first row, or a row has one. The last one that a row can
    have is that it names a hart which is not there, where there are so many.
    """
    lines = lines_of(text, most)
    header = next(lines, None)
    if header is None:
        raise Refused("trace: no header")
    columns = Columns(header, widths)
    ports = len(columns.ports)
    for first, line in zip(itertools.count(1, ports), lines):
        fields = columns.fields(line, first)
        for port in range(ports):
            row = columns.read(fields, port, first + port)
            if row.get("hart", 0) >= harts:  # which one that is not valid does not show
                raise Refused(f"trace: row {first + port}: hart not there")
            yield row
