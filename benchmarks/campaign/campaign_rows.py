"""What the rows of a made trace show, and what is altered in it; a part of campaign.py."""
from hart_instructions import MASK
from hart_profile import Profile
from judge import CALLS, CSRS, KNOWN, PLAIN, WIDTHS
from reference_hart import BREAKPOINT
from trace_text import NEEDED

CHANGES = (
    "trap", "rd_addr", "rd_wdata", "pc_wdata", "mem_addr", "mem_rmask", "mem_rdata", "mem_wmask",
    "mem_wdata", "mem_paddr",
)
PARTS = ("rmask", "wmask", "rdata", "wdata")
INTERRUPTS = ("intr", "csr_mip_rdata", "csr_mip_rmask")


def pick_columns(chance):
    """The known columns of a trace, in an order of its own now and then."""
    kind = chance.below(16)
    if kind == 0:
        columns = set(WIDTHS)
    elif kind == 1:
        columns = set(chance.sample(CHANGES, chance.below(len(CHANGES) + 1)))
    else:
        share = chance.pick((0.4, 0.8, 1))
        columns = {name for name in PLAIN if chance.random() < share}
    if 1 < kind < 10:
        for name in chance.sample(CSRS, chance.pick((1, 1, 2, 3, 5, 9))):
            parts = [part for part in PARTS if not chance.one_in(4)]
            columns.update(f"csr_{name}_{part}" for part in parts)
    if chance.one_in(2):
        columns.update(name for name in INTERRUPTS if not chance.one_in(6))
    columns.update(NEEDED)
    ordered = [name for name in WIDTHS if name in columns]
    if chance.one_in(2):
        chance.shuffle(ordered)
    return ordered


class Row:
    """The fields of one row by their columns; None where one is empty, a text where it is no
    number."""

    def __init__(self, chance, columns, profile=Profile()):
        self.chance = chance
        self.columns = columns  # a dictionary, whose order is the same in every run
        self.profile = profile
        self.fields = {}

    def garbage(self, column):
        """Anything that fits the column, and often 0."""
        return self.chance.getrandbits(WIDTHS[column]) if self.chance.one_in(2) else 0

    def free(self, *columns):
        for column in columns:
            if column in self.columns:
                self.fields[column] = self.garbage(column)

    def masked(self, column, value, mask):
        """A value that counts under a mask alone."""
        self.fields[column] = value & mask | self.garbage(column) & ~mask

    def head(self, retired, order, mode, entered, trapped_last):
        trap = retired.trap
        any_trap = trap and (trap.cause == BREAKPOINT or trap.cause in CALLS)
        first_of_handler = trapped_last and self.chance.one_in(2)
        self.fields |= {
            "valid": 1, "order": order, "intr": int(entered or first_of_handler),
            "pc_rdata": retired.pc, "mode": mode, "ixl": 2, "halt": 0, "insn": retired.bits,
            "trap": self.chance.getrandbits(1) if any_trap else int(trap is not None),
        }
        if retired.bits is None:
            self.fields["insn"] = self.garbage("insn")
        elif retired.length == 2 and self.profile.insn == "length":
            self.masked("insn", retired.bits, 0xFFFF)

    def registers(self, retired, registers):
        """From rs1_addr to pc_wdata, with the registers before the instruction."""
        if retired.trap:
            self.free("rs1_addr", "rs1_rdata", "rs2_addr", "rs2_rdata")
            self.free("rd_addr", "rd_wdata", "pc_wdata")
            return
        instruction = retired.instruction
        for source, read in (("rs1", instruction.rs1), ("rs2", instruction.rs2)):
            named = read or self.garbage(f"{source}_addr")
            if not read and f"{source}_addr" not in self.columns:
                named = self.chance.below(32)  # nothing says which, so the value is free
            self.fields |= {f"{source}_addr": named, f"{source}_rdata": registers[named]}
        self.fields |= {
            "rd_addr": instruction.rd, "rd_wdata": retired.value, "pc_wdata": retired.next_pc,
        }

    def memory(self, retired, shows_address):
        """The signals of memory, where mem_addr is shown or not."""
        access, chance = retired.access, self.chance
        self.free("mem_addr", "mem_rmask", "mem_rdata", "mem_wmask", "mem_wdata", "mem_paddr")
        if access is None:
            if not retired.trap:
                self.fields["mem_wmask"] = 0
            return
        # A core shows the access's own address, that of its doubleword, or one not far before.
        offset = chance.pick((0, 0, access.address % 8, chance.below(9 - access.length)))
        if offset > 8 - access.length:
            offset = 0
        offset = offset if shows_address else 0
        touched = (1 << access.length) - 1 << offset
        places = (1 << 8 * access.length) - 1 << 8 * offset
        self.fields |= {
            "mem_addr": access.address - offset & MASK if shows_address else None,
            "mem_paddr": access.place - offset & MASK, "mem_wmask": 0,
        }
        if access.read is not None:
            self.fields["mem_rmask"] = touched | self.garbage("mem_rmask")
            self.masked("mem_rdata", access.read << 8 * offset, places)
        if access.written is not None:
            self.fields["mem_wmask"] = touched
            self.masked("mem_wdata", access.written << 8 * offset, places)

    def csr(self, name, part, value, needed, untold):
        """One value of a register under a mask with at least the needed bits; the bits that it
        shows."""
        column, mask_column = f"csr_{name}_{part}data", f"csr_{name}_{part}mask"
        if column not in self.columns:
            self.free(mask_column)
            return 0
        mask = MASK
        if mask_column in self.columns and self.chance.one_in(2):
            mask = self.chance.pick((0, self.chance.getrandbits(64), self.profile.lines)) | needed
        self.masked(column, value, mask & ~untold)
        self.fields[mask_column] = None if mask == MASK and self.chance.one_in(8) else mask
        return mask

    def csrs(self, before, after, needed_lines):
        """The registers before the row and after it."""
        shown_lines, moving = 0, self.profile.untold_after
        if "mip" in before:
            shown_lines = self.csr("mip", "r", before["mip"], needed_lines, 0) & moving["mip"]
        for name in before:
            if self.profile.words.get(name) == "row":
                self.free(*(f"csr_{name}_{part}" for part in PARTS))
                continue
            if name != "mip":
                untold = moving["sip"] & ~shown_lines if name == "sip" else 0
                self.csr(name, "r", before[name], 0, untold)
            self.csr(name, "w", after[name], 0, moving.get(name, 0))

    def hide(self, share):
        """Leaves fields empty, but for those by which others are to be read."""
        for column in self.columns:
            is_mask = column.startswith("csr_") and column.endswith("mask")
            is_needed = column in NEEDED or column == "mem_addr" or is_mask
            if not is_needed and self.chance.random() < share:
                self.fields[column] = None

    def invalid(self):
        """Makes it a row that is not valid, whose other fields may be anything."""
        for column in self.columns:
            kind = self.chance.below(6)
            if kind < 3:
                self.fields[column] = (None, "zz", self.chance.getrandbits(70))[kind]
        self.fields["valid"] = 0


# Alterations.

BROKEN = (
    "0x", "0X", "x", "0xg", "12a", "-1", "+1", "1 2", "1e3", "0b1", "0x1_0", "1.0", "0x 1", "00x1",
    "f", "0x-1", "'1", "1h", "0o7", "x1",
)


def other_value(chance, old, width):
    """Another number for a field: one bit flipped, or any."""
    if chance.random() < 0.7:
        return old ^ 1 << chance.below(min(width, 12) if chance.one_in(2) else width)
    value = chance.getrandbits(width)
    return value if value != old else old ^ 1


def alter_field(chance, columns, rows):
    """Alters one field of one row; what was done."""
    often = [*columns, *(name for name in columns if name in PLAIN)]
    row, column = chance.pick(rows), chance.pick(often)
    width, kind = KNOWN[column], chance.below(12)
    if kind == 0:
        row[column] = None
        return "emptied field"
    if kind == 1:
        row[column] = chance.pick(BROKEN)
        return "broken number"
    if kind == 2:
        row[column] = (1 << width) + chance.getrandbits(width) * chance.below(2)
        return "too wide a number"
    old = row.get(column)
    row[column] = other_value(chance, old if isinstance(old, int) else 0, width)
    return "altered value"


def alter_rows(chance, rows):
    """Alters the list of rows; what was done."""
    at, kind = chance.below(len(rows)), chance.below(3)
    if kind == 0:
        rows.insert(at, dict(rows[at]))
        return "doubled row"
    row = rows.pop(at)
    if kind == 1:
        return "dropped row"
    rows.insert(chance.below(len(rows) + 1), row)
    return "moved row"


def alter_image(chance, image, pcs):
    """Alters one bit of the image, often where an instruction stands; what was done."""
    if pcs and chance.random() < 0.7:
        place = chance.pick(pcs) + chance.below(4)
    else:
        place = chance.pick(list(image))
    if place not in image:
        place = chance.pick(list(image))
    image[place] ^= 1 << chance.below(8)
    return "altered image"
