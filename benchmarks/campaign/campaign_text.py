"""The texts of made images, traces and commands, in many forms; a part of campaign.py."""
from trace_text import MARK, MOST_LINE, split_name

UNKNOWN = (
    "cycle", "rvfi_extra", "INSN", "rvfi_rvfi_insn", "insn_4", "", "valid2", "csr_mie",
    "mem_extamo",
)
UNKNOWN_AT_PORTS = (*UNKNOWN, "cycle_1", "insn_0_1", "rvfi_rvfi_insn_2", "_3", "trap_01", "valid_1_")
JUNK = ("", "0", "zz", "0x", "-", "note", "1;2", "0xffffffffffffffffff")


def spelled(chance, value):
    """A number as a word of a command may have it."""
    if chance.one_in(2):
        return str(value)
    return chance.pick((f"0x{value:x}", f"0X{value:X}", f"0x00{value:x}"))


def option(chance, name, text):
    """The words of an option with a value."""
    return [f"--{name}={text}"] if chance.one_in(2) else [f"--{name}", text]


class Form:
    """How a text is written, throughout a trace but for what chance puts here and there."""

    def __init__(self, chance):
        self.chance = chance
        self.prefix = chance.pick(("none", "all", "some"))
        self.numbers = chance.pick(("hexadecimal", "padded", "decimal", "mixed"))
        self.quotes = chance.pick((0, 0, 0, 0.1, 1))
        self.blanks = chance.pick((0, 0, 0, 0.2))
        self.line_end = chance.pick(("\n", "\n", "\r\n"))
        self.gaps = chance.pick((0, 0, 0.1))
        self.mark = chance.one_in(12)
        self.unknown = chance.pick((0, 0, 1, 2))
        self.unknown_names = UNKNOWN

    def count(self, reached):
        """Counts what this form has, so that none is missed."""
        for what, has in (
            ("with rvfi_", self.prefix != "none"), ("without rvfi_", self.prefix != "all"),
            ("quotes", self.quotes), ("blanks", self.blanks), ("CR LF", self.line_end == "\r\n"),
            ("blank lines", self.gaps), ("mark of the order of bytes", self.mark),
            ("unknown columns", self.unknown), ("decimal", self.numbers in ("decimal", "mixed")),
            ("hexadecimal", self.numbers != "decimal"),
        ):
            reached["form", what] += bool(has)

    def name(self, column):
        """A column's name in the header."""
        with_prefix = self.prefix == "all" or (self.prefix == "some" and self.chance.one_in(2))
        return f"rvfi_{column}" if with_prefix else column

    def number(self, value):
        """The text of a number, of any width."""
        kind = self.numbers
        if kind == "mixed":
            kind = self.chance.pick(("hexadecimal", "padded", "decimal", "odd"))
        match kind:
            case "hexadecimal":
                return f"0x{value:x}"
            case "padded":
                return f"0x{value:016x}"
            case "decimal":
                return str(value)
        return self.chance.pick(
            (f"0X{value:X}", f"{value:025d}", f"0x{value:040x}", f"0x{value:X}")
        )

    def field(self, text):
        """A field with what may stand around it."""
        chance = self.chance
        if self.quotes and chance.random() < self.quotes:
            inside = f" {text}\t" if self.blanks and chance.one_in(2) else text.replace('"', '""')
            # What follows the closing quote joins the field.
            if len(inside) > 1 and chance.one_in(8) and inside[-1] not in '",':
                return f'"{inside[:-1]}"{inside[-1]}'
            return f'"{inside}"'
        if self.blanks and chance.random() < self.blanks:
            return chance.pick((f" {text}", f"{text}\t", f"  {text} "))
        return text

    def line(self, texts):
        if self.quotes or self.blanks:
            texts = map(self.field, texts)
        return ",".join(texts)


def trace_lines(chance, form, columns, rows):
    """The header and the lines of the rows, each without its ending."""
    places = sorted(chance.below(len(columns) + 1) for _ in range(form.unknown))
    names = [form.name(column) for column in columns]
    for place in reversed(places):
        names.insert(place, chance.pick(form.unknown_names))
    junk = (*JUNK, 'a,"b"', "a,b") if form.quotes == 1 else JUNK
    yield form.line(names)
    for row in rows:
        values = map(row.get, columns)
        texts = [form.number(value) if isinstance(value, int) else value or "" for value in values]
        for place in reversed(places):
            texts.insert(place, chance.pick(junk))
        yield form.line(texts)


def alter_lines(chance, lines):
    """Alters the lines of a trace as texts; what was done."""
    kind = chance.below(10)
    at = 1 + chance.below(len(lines) - 1) if len(lines) > 1 else 0
    fields = lines[at].split(",")
    match kind:
        case 0 | 1:
            lines[at] += chance.pick((",", ",0", ",x"))
            return "surplus field"
        case 2 | 3:
            lines[at] = ",".join(fields[:-1]) if len(fields) > 1 else "0,0,0"
            return "missing field"
        case 4:
            place = chance.below(len(lines[at]) + 1)
            lines[at] = f"{lines[at][:place]}\r{lines[at][place:]}"
            return "stray return"
        case 5:
            lines[at] = lines[at].ljust(MOST_LINE + chance.pick((-1, 0, 1, 5)))
            return "long line"
        case 6:
            quoted, joined = (lines[at] + '"', '"' + lines[at]), lines[at].replace(",", ";")
            lines[at] = chance.pick((" ", "\t ", *quoted, joined))
            return "broken line"
    return alter_header(chance, lines)


def alter_header(chance, lines):
    """Alters the header; what was done."""
    names = lines[0].split(",")
    match chance.below(4):
        case 0:
            lines[0] = ",".join([*names, chance.pick(names)])
            return "doubled name"
        case 1:
            wanted = chance.pick(("insn", "pc_rdata"))
            found = [at for at, name in enumerate(names) if split_name(name)[0] == wanted]
            if len(found) > 1:  # one of them for each port
                found = [chance.pick(found)]
            names = ["none" if at in found else name for at, name in enumerate(names)]
            lines[0] = ",".join(names)
            return "missing name"
        case 2:
            lines[0] = lines[0].replace(",", ",\r", 1)
            return "stray return in header"
    lines.clear()
    return "no header"


def trace_text(chance, form, lines):
    """The bytes of a trace."""
    pieces = []
    for line in lines:
        if form.gaps and chance.random() < form.gaps:
            pieces.append(chance.pick(("\n", "\r\n", "\n\n")))
        pieces.append(line + form.line_end)
    if pieces and chance.one_in(4):
        pieces[-1] = pieces[-1].removesuffix("\n").removesuffix("\r")
    return (MARK if form.mark else b"") + "".join(pieces).encode()


# Images.


def image_text(chance, image):
    """The text of an image: its bytes by their addresses, in pieces."""
    pieces, last = [], None
    gap = chance.pick((" ", "\n", "\t", "  ", "\r\n", "\f"))
    style = "02X" if chance.one_in(4) else "02x"
    for address in sorted(image):
        if last is None or address != last + 1 or chance.one_in(40):
            text = f"{address:x}" if chance.one_in(2) else f"{address:08X}"
            pieces.append(f"\n@{text}{gap}")
        if chance.one_in(60):
            pieces.append(chance.pick(("// 00 @0\n", "/* 11\n@x */", " /**/ ", "/*/ */")))
        pieces.append(f"{image[address]:{style}}{gap}")
        last = address
    return "".join(pieces).encode()


def byte_outside(chance, ram):
    """The text of a byte that is outside of RAM."""
    address = chance.pick((ram.stop, ram.start - 1 & 2**64 - 1, 2**64 - 1))
    return f"@{address:x} 00".encode()


def break_image(chance, text, ram):
    """Puts something into the text of an image that it must not have; what was done."""
    at = chance.below(len(text) + 1)
    while at < len(text) and text[at : at + 1] not in (b" ", b"\n"):
        at += 1
    kind, wrong = chance.pick((
        ("bad byte", chance.pick((b"9", b"zz", b"123", b"0x1", b"*/", b"/", b"00\x0b11"))),
        ("bad address", chance.pick((b"@", b"@zz", b"@0x10", b"@11112222333344445", b"@ 0"))),
        ("outside RAM", byte_outside(chance, ram)),
        ("overlap", f"@{ram.start:x} 00 @{ram.start:x} 00".encode()),
        ("open comment", chance.pick((b"/* 00", b"/*/", b"00/*"))),
    ))
    return text[:at] + b" " + wrong + b" " + text[at:], f"image with {kind}"
