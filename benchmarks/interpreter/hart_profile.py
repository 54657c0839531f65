"""What a core's registers, protection, interrupt lines and devices are, as its maker decided; a part of
reference_hart.py.

After the Privileged Architecture, version 20211203, chapters "Control and Status Registers (CSRs)",
"Machine-Level ISA" and "Supervisor-Level ISA". Masks are numbers whose bits are those of a register of 64
bits. The defaults are the profile that docs/REFERENCE.md describes.
"""
from dataclasses import dataclass, field
from functools import cached_property
from typing import NamedTuple

from hart_instructions import MASK

XLENS = 0xA00000000  # UXL and SXL of mstatus: 64 bits in U and S
FS, VS, SD = 3 << 13, 3 << 9, 1 << 63  # of mstatus: states of units, and whether one of them is dirty
# the bits of mstatus that sstatus shows, and those that its writes reach where mstatus has them
SSTATUS_READ, SSTATUS_WRITE = 0x3000C0122 | FS | VS, 0xC0122 | FS | VS

FOR_S = 1 << 1 | 1 << 5 | 1 << 9  # SSIP, STIP, SEIP of mip: the interrupts that S can take
HELD = FOR_S  # those of mip that software can write, where no line alone drives them
LINES = 1 << 3 | 1 << 7 | 1 << 9 | 1 << 11  # MSIP, MTIP, SEIP, MEIP of mip, driven from outside
MORE_LINES = 1 << 1 | 1 << 5  # SSIP, STIP, which may be driven from outside alone
INTERRUPTS = LINES | FOR_S
NEVER_PEND = MASK & ~0xFFF  # the bits of interrupts that this hart does not have

PMP_ENTRIES = 16  # of physical memory protection, at most
CONFIGURATION = 0x9F  # bits 6:5 of an entry's configuration are 0

ALL, EVEN = MASK, MASK - 1
VECTOR = MASK - 2  # a base and, in bit 0, the mode
COUNTERS = range(3, 32)  # the numbers of the counters that have no fixed meaning

# the registers that are stored, with the bits that a write reaches; mip stores its held bits
WRITABLE = {
    "mstatus": 0x7E19AA, "medeleg": 0xB3FF, "mideleg": FOR_S, "mie": INTERRUPTS, "mtvec": VECTOR, "stvec": VECTOR,
    "mcounteren": 7, "scounteren": 7, "menvcfg": 1, "senvcfg": 1, "mcountinhibit": 5,
    "mscratch": ALL, "sscratch": ALL, "mepc": EVEN, "sepc": EVEN, "mcause": ALL, "scause": ALL,
    "mtval": ALL, "stval": ALL, "mip": HELD, "satp": ALL,
    "pmpcfg0": int.from_bytes([CONFIGURATION] * 8), "pmpcfg2": int.from_bytes([CONFIGURATION] * 8),
}
WRITABLE |= {f"pmpaddr{n}": (1 << 54) - 1 for n in range(PMP_ENTRIES)}  # bits 55:2 of an address
# the registers that always read the same; a write to them changes nothing
CONSTANT = {"misa": 0x8000000000141105} | {f"mhpmevent{n}": 0 for n in COUNTERS}

class Bits(NamedTuple):
    """What a register has: the bits that a write changes, and those that always read as 1."""

    mask: int
    fixed: int = 0


class Lawful(NamedTuple):
    """What a register may have: bits of its mask, those of them that it needs, and bits that may be fixed."""

    mask: int
    needed: int = 0
    fixed: int = 0

    def takes(self, bits):
        """Whether a register may have these bits."""
        outside = bits.mask & ~self.mask | bits.fixed & ~self.fixed
        return not (outside or self.needed & ~bits.mask or bits.mask & bits.fixed)


# what each register may have whose bits a profile tells
LAWFUL = {
    "mstatus": Lawful(WRITABLE["mstatus"] | FS | VS, 0x19AA, FS | VS),  # traps and returns write those needed
    "medeleg": Lawful(ALL, 0, ALL),
    "mideleg": Lawful(FOR_S | NEVER_PEND, 0, FOR_S | NEVER_PEND),
    "mie": Lawful(INTERRUPTS | NEVER_PEND),
    "mtvec": Lawful(VECTOR, ALL & ~0xFFF),
    "stvec": Lawful(VECTOR, ALL & ~0xFFF),
    "mcounteren": Lawful((1 << 32) - 1, 0, (1 << 32) - 1),
    "scounteren": Lawful((1 << 32) - 1, 0, (1 << 32) - 1),
    "mcountinhibit": Lawful((1 << 32) - 1 - 2, 0, (1 << 32) - 1 - 2),  # time is not to be stopped
    "menvcfg": Lawful(ALL, 0, ALL),
    "senvcfg": Lawful(ALL, 0, ALL),
    "satp": Lawful(ALL, 0xF << 60),
}

# the registers that are told as one, by the name for all of them
SEVERAL = {name: tuple(f"{name}{n}" for n in COUNTERS) for name in ("mhpmevent", "mhpmcounter", "hpmcounter")}
MISSING = (
    "mcounteren", "mcountinhibit", "menvcfg", "senvcfg", "mhpmevent", "mhpmcounter", "hpmcounter", "mconfigptr",
    "cycle", "time", "instret",
)
# what a profile may tell of a register in place of its bits, with the registers it may be told of
WORDS = {
    "row": ("misa", "mhpmevent", "mcountinhibit", "menvcfg", "senvcfg"),  # a read gives what the core says
    "none": MISSING,  # an access is illegal
    "maybe": MISSING,  # an access is illegal where the core says so
}

# the values that the other parts of a profile may have
VALUES = {
    "pmp_entries": (PMP_ENTRIES, 0, 8),
    "pmp_bits": range(10, 55),
    "lines": tuple(LINES | more for more in (0, 1 << 1, 1 << 5, MORE_LINES)),
    "io_faults": ("none", "row"),
    "insn": ("full", "length"),
}


@dataclass(frozen=True)
class Profile:
    """What a core has, which no step changes.

    csrs: what some registers are, by their names: Bits of LAWFUL, or one of WORDS. A register that is not told
    of has the bits of WRITABLE, and time is "maybe" (chapter "Control and Status Registers (CSRs)", on fields
    that are WARL; chapter "Machine-Level ISA", on registers that may be read-only).

    pmp_entries, pmp_bits: how many entries of protection there are, and how many low bits of each pmpaddr
    (chapter "Machine-Level ISA", section "Physical Memory Protection").

    lines: the bits of mip that are driven from outside. Of these software writes SEIP alone (chapter
    "Machine-Level ISA", on mip and mie).

    io_faults: no device refuses an access of the right kind, or one does where the core says so, and then
    devices take AMOs (chapter "Machine-Level ISA", section "Physical Memory Attributes").

    insn: a row shows the 32 bits of a 16-bit instruction as 0 and its own, or as anything and its own.
    """

    csrs: dict = field(default_factory=dict)
    pmp_entries: int = PMP_ENTRIES
    pmp_bits: int = 54
    lines: int = LINES
    io_faults: str = "none"
    insn: str = "full"

    def __post_init__(self):
        for name, how in self.csrs.items():
            if not is_lawful(name, how):
                raise ValueError(f"{name} cannot be {how}")
        for name, values in VALUES.items():
            if getattr(self, name) not in values:
                raise ValueError(f"{name} cannot be {getattr(self, name)}")

    @cached_property
    def words(self):
        """What is told of single registers in place of their bits, by their own names."""
        told = {"time": "maybe"} | {name: how for name, how in self.csrs.items() if how in WORDS}
        return {one: how for name, how in told.items() for one in SEVERAL.get(name, (name,))}

    @cached_property
    def writable(self):
        """The bits of each stored register that a write changes."""
        masks = dict(WRITABLE)
        masks["mip"] = HELD & ~(self.lines & MORE_LINES)
        for name in masks.keys() & self.csrs.keys():
            how = self.csrs[name]
            masks[name] = how.mask if isinstance(how, Bits) else masks[name] if how == "maybe" else 0
        for entry in range(PMP_ENTRIES):
            masks[f"pmpaddr{entry}"] = (1 << self.pmp_bits) - 1 if entry < self.pmp_entries else 0
        for first, name in ((0, "pmpcfg0"), (8, "pmpcfg2")):
            masks[name] = masks[name] if first < self.pmp_entries else 0
        return masks

    @cached_property
    def fixed(self):
        """The bits of each stored register that are 1 from reset on."""
        bits = {name: how.fixed for name, how in self.csrs.items() if isinstance(how, Bits)}
        return {name: bits.get(name, 0) | (XLENS if name == "mstatus" else 0) for name in self.writable}

    @cached_property
    def untold_after(self):
        """The bits that a row does not tell of mip and sip after it: lines, which may have moved."""
        return {"mip": self.lines, "sip": self.lines & FOR_S}


def is_lawful(name, how):
    """Whether a profile may tell this of a register."""
    if isinstance(how, Bits):
        return name in LAWFUL and LAWFUL[name].takes(how)
    return name in WORDS.get(how, ())
