"""The text of a saved state: what it says of a judge, and what it is of one. A part of judge.py.

The rules are those of docs/REFERENCE.md, written here a second time.
"""
import functools
import re

from hart_memory import Memory
from hart_profile import PMP_ENTRIES
from hart_registers import BARE, MPP_AT, READ, SATP_MODE_AT, SV39, WRITE, ControlRegisters
from trace_text import Refused

FRONT = b"rvstate 1\n"  # by which a saved state is told from other images
BLOCK = 16  # bytes of memory in a line

# the stored registers in the order of the text
SAVED_CSRS = (
    "mstatus", "medeleg", "mideleg", "mie", "mtvec", "stvec", "mcounteren", "scounteren", "menvcfg", "senvcfg",
    "mcountinhibit", "mscratch", "sscratch", "mepc", "sepc", "mcause", "scause", "mtval", "stval", "mip", "satp",
    "pmpcfg0", "pmpcfg2", *(f"pmpaddr{n}" for n in range(PMP_ENTRIES)),
)

NUMBER = rb"([0-9a-f]{16})"
MEMORY = re.compile(rb"@" + NUMBER + rb" ([0-9a-f]{32})")
HARTS = re.compile(rb"harts (0|[1-9][0-9]*)")
MODE, FLAGS = re.compile(rb"mode ([013])"), re.compile(rb"flags ([01])([01])")


@functools.cache
def numbered(name):
    return re.compile(name.encode() + b" " + NUMBER)


@functools.cache
def number_or_none(name):
    return re.compile(name.encode() + b" (?:" + NUMBER + b"|none)")


def text_of(harts):
    """The text of the state of a judge of harts."""
    judges = harts.judges
    lines = ["rvstate 1"]
    if len(judges) > 1:
        lines.append(f"harts {len(judges)}")
    for judge in judges:
        lines += hart_lines(judge)
    lines += (*memory_lines(judges[0].hart.memory), "end")
    return "".join(f"{line}\n" for line in lines)


def hart_lines(judge):
    """The lines of one hart, and of what is known of its rows."""
    hart, values = judge.hart, judge.hart.csrs.values
    reserved = None if hart.reserved is None else hart.reserved * hart.choices.block
    return [
        f"pc {hart.pc:016x}", f"mode {hart.mode}", f"order {digits(judge.next_order)}",
        f"flags {int(judge.trapped_last)}{int(judge.halted)}", f"reserved {digits(reserved)}",
        *(f"x{n} {hart.registers[n]:016x}" for n in range(1, 32)),
        *(f"csr_{name} {values[name]:016x}" for name in SAVED_CSRS),
    ]


def digits(number):
    return "none" if number is None else f"{number:016x}"


def memory_lines(memory):
    """The blocks that are not all 0, addresses rising."""
    for number, page in sorted(memory.pages.items()):
        for at in range(0, len(page), BLOCK):
            block = bytes(page[at : at + BLOCK])
            if any(block):
                yield f"@{number * len(page) + at:016x} {block.hex()}"


class Lines:
    """The lines of a text, taken one after the other, and what refuses the one at hand."""

    def __init__(self, text):
        *self.lines, self.rest = text.split(b"\n")  # the rest is no line, as nothing ends it
        self.taken = 0

    def refused(self, why):
        """What refuses the line that was taken last."""
        return Refused(f"image: line {self.taken}: {why}")

    def take(self):
        """The next line; None where there is none."""
        self.taken += 1
        return self.lines[self.taken - 1] if self.taken <= len(self.lines) else None

    def match(self, form):
        """The next line as this form has it."""
        line = self.take()
        found = None if line is None else form.fullmatch(line)
        if not found:
            raise self.refused("bad line")
        return found

    def number(self, name):
        return int(self.match(numbered(name))[1], 16)

    def number_or_none(self, name):
        found = self.match(number_or_none(name))[1]
        return None if found is None else int(found, 16)

    def finish(self):
        """Refuses what stands after the last line."""
        self.taken += 1
        if self.taken <= len(self.lines) or self.rest:
            raise self.refused("bad line")


def is_lawful(name, value, profile):
    """Whether a write or a trap can leave this value in a stored register of a hart with this profile."""
    if value & ~profile.writable[name] != profile.fixed[name]:
        return False
    if name == "mstatus":
        return value >> MPP_AT & 3 != 2
    if name == "satp":
        return value >> SATP_MODE_AT in (BARE, SV39)
    if name.startswith("pmpcfg"):
        return all(byte & (READ | WRITE) != WRITE for byte in value.to_bytes(8))
    return True


def read_reserved(lines, ram, size):
    """The number of the reserved block, or None."""
    reserved = lines.number_or_none("reserved")
    if reserved is None:
        return None
    if reserved % size:
        raise lines.refused("bad value")
    if not is_within(ram, reserved, size):
        raise lines.refused("outside RAM")
    return reserved // size


def is_within(ram, address, size):
    return ram.start <= address and address + size <= ram.stop


def read_csr(lines, name, profile):
    value = lines.number(f"csr_{name}")
    if not is_lawful(name, value, profile):
        raise lines.refused("bad value")
    return value


def read_memory(lines, ram):
    """The bytes of the blocks by their addresses, up to the line that ends them."""
    found, least = {}, 0
    while (line := lines.take()) != b"end":
        block = None if line is None else MEMORY.fullmatch(line)
        address = int(block[1], 16) if block else 0
        data = bytes.fromhex(block[2].decode()) if block else b""
        if not any(data) or address % BLOCK or address < least:
            raise lines.refused("bad line")
        if not is_within(ram, address, BLOCK):
            raise lines.refused("outside RAM")
        found.update(enumerate(data, address))
        least = address + BLOCK
    lines.finish()
    return found


def count_said(text):
    """How many harts the second line of a text says, ended or not; 1 where it says none."""
    found = HARTS.fullmatch(text.split(b"\n", 2)[1])
    return int(found[1]) if found else 1


def read_into(harts, text, setting):
    """Puts the state that a text says into a new judge of harts."""
    if count_said(text) != setting.harts:
        raise Refused("image: wrong number of harts")
    lines = Lines(text)
    lines.match(re.compile(b"rvstate 1"))
    if setting.harts > 1:
        lines.match(HARTS)
    for judge in harts.judges:
        read_hart(judge, lines, setting)
    harts.load(Memory(read_memory(lines, setting.ram).items(), setting.ram))


def read_hart(judge, lines, setting):
    """Puts the state that the next lines say into the judge of one hart."""
    hart = judge.hart
    hart.pc = lines.number("pc")
    if hart.pc % 2:
        raise lines.refused("bad value")
    hart.mode = int(lines.match(MODE)[1])
    judge.next_order = lines.number_or_none("order")
    judge.trapped_last, judge.halted = (flag == b"1" for flag in lines.match(FLAGS).groups())
    hart.reserved = read_reserved(lines, setting.ram, setting.choices.block)
    hart.registers = [0, *(lines.number(f"x{n}") for n in range(1, 32))]
    profile = setting.choices.profile
    hart.csrs = ControlRegisters({name: read_csr(lines, name, profile) for name in SAVED_CSRS}, profile)
