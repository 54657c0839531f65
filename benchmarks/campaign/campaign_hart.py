"""A hart whose memory is made up as it is read, and what it reached; a part of campaign.py.

A byte that nothing has read or written may still have any value in the image. So a maker is asked
for it when the hart first reads it: for the instruction at pc, for an entry of a page table, or for
data. The image that comes of it gives the same run, since each byte was made up before it was first
used.
"""
from campaign_code import name_of
from hart_bits import UNARY_BITS, decode_bits
from hart_instructions import MASK
from hart_memory import (
    ENTRY, FETCH, LOAD, PTE_A, PTE_D, PTE_PPN_AT, PTE_R, PTE_RESERVED_AT, PTE_U, PTE_V, PTE_W,
    PTE_X, STORE, VIRTUAL_BITS, VPN_BITS, PAGE, Memory, Trap,
)
from hart_profile import LINES, PMP_ENTRIES
from hart_registers import (
    KIND_AT, LOCKED, MPRV, MXR, OFF, SATP_MODE_AT, SATP_PPN, SUM, SV39, ControlRegisters, M, S, U,
)
from reference_hart import Core, Hart

KINDS = {FETCH: "fetch", LOAD: "load", STORE: "store"}
SIZES = ("4 KiB", "2 MiB", "1 GiB")
PMP_KINDS = ("OFF", "TOR", "NA4", "NAPOT")
MODES = {U: "U", S: "S", M: "M"}
UNARY = {name for names in UNARY_BITS.values() for name in names.values()}


class Walk:
    """A way from a virtual address to a physical one, with the entries that were read on it."""

    def __init__(self, kind, mode, address):
        self.kind, self.mode, self.address = kind, mode, address
        self.entries = []
        self.sets = False  # whether the last entry got A or D

    def level(self):
        """The level of the table whose entry is read next."""
        return 2 - len(self.entries)


class MadeMemory(Memory):
    """RAM whose bytes a maker makes up when they are first read."""

    def __init__(self, maker, ram):
        self.known = set()  # the addresses of the bytes that are decided
        self.image = {}
        self.stored = set()  # those that instructions wrote
        self.fenced = set()  # those of them that stood there at a FENCE.I
        self.maker = maker
        self.walk = None
        super().__init__((), ram)

    def read(self, address, length):
        missing = [at for at in range(address, address + length) if at not in self.known]
        if missing:
            self.fill(missing, address, self.maker.value(self.walk, address, length))
        value = super().read(address, length)
        if self.walk and length == ENTRY:
            self.walk.entries.append(value)
        return value

    def fill(self, missing, address, value):
        """Puts the missing bytes of a value that begins at the address."""
        self.known.update(missing)
        for at in missing:
            byte = value >> 8 * (at - address) & 0xFF
            self.image[at] = byte
            super().write(at, 1, byte)

    def write(self, address, length, value):
        bytes_of = range(address, address + length)
        self.known.update(bytes_of)
        self.stored.update(bytes_of)
        if self.walk:
            self.walk.sets = True
        super().write(address, length, value)


class CountedRegisters(ControlRegisters):
    """Registers that count what protection and its locks decide."""

    def __init__(self, reached, profile):
        super().__init__(profile=profile)
        self.reached = reached

    def allows(self, mode, address, length, right):
        allowed = super().allows(mode, address, length, right)
        if not self.profile.pmp_entries:
            self.reached["protection", f"without entries: {MODES[mode]}"] += 1
        elif self.entries or mode != M:
            self.reached["protection", self.decision(allowed, mode, address, length)] += 1
        return allowed

    def decision(self, allowed, mode, address, length):
        """What decided about an access, and how."""
        for region, configuration in self.entries:
            if not (address < region.stop and region.start < address + length):
                continue
            kind = PMP_KINDS[configuration >> KIND_AT & 3]
            if address < region.start or region.stop < address + length:
                return f"{kind}: in part"
            if mode == M and not configuration & LOCKED:
                return f"{kind}: M, not locked"
            locked = "locked, " if configuration & LOCKED else ""
            return f"{kind}: {locked}{MODES[mode]} {'granted' if allowed else 'refused'}"
        return f"none: {MODES[mode]}"

    def write(self, name, value):
        if name.startswith("pmpaddr"):
            number = int(name.removeprefix("pmpaddr"))
            if self.is_address_locked(number):
                own = self.configuration(number) & LOCKED
                which = "lock: address" if own else "lock: address below TOR"
                self.reached["protection", which] += 1
        elif name.startswith("pmpcfg"):
            first = 0 if name == "pmpcfg0" else 8
            if any(self.configuration(first + at) & LOCKED for at in range(8)):
                self.reached["protection", "lock: configuration"] += 1
            if any(value >> 8 * at & 0x83 == 2 for at in range(8)):
                self.reached["protection", "W without R"] += 1
        super().write(name, value)
        if name.startswith("pmp") and any(map(self.is_off, range(PMP_ENTRIES))):
            self.reached["protection", "OFF, with an address"] += 1

    def is_off(self, number):
        """Whether an entry is off that has an address."""
        is_off = self.configuration(number) >> KIND_AT & 3 == OFF
        return is_off and self.values[f"pmpaddr{number}"] != 0


class MadeCore(Core):
    """A core that chooses by chance, and only what the columns of its trace can show; driven has
    the bits of mip that are lines."""

    def __init__(self, chance, columns, driven=LINES):
        self.chance = chance
        self.columns = columns
        self.driven = driven
        self.refused = False  # whether a device refused the access of the row at hand
        self.names_rd = True  # whether rd of the instruction at hand is another than x0, for an AMO
        self.shows_lines = "csr_mip_rdata" in columns
        self.asked = False  # whether the row at hand rests on a choice
        self.needs_lines = False  # and whether on lines that csr_mip_rdata alone shows
        self.level = 0
        self.restless = chance.one_in(2)
        self.number = None  # of its hart, among several

    def begin(self):
        self.asked = self.needs_lines = self.refused = False
        if self.shows_lines and self.restless and self.chance.one_in(3):
            self.level = self.chance.getrandbits(12) & self.driven

    def stores(self, instruction):
        by_value = instruction.rd and "rd_wdata" in self.columns
        if not by_value and "mem_wmask" not in self.columns:
            return True
        self.asked = True
        return self.chance.random() < 0.7

    def decided(self, name, instruction):
        if "rd_wdata" not in self.columns:
            return 0
        self.asked = True
        if name == "mhartid" and self.number is not None:
            return self.number
        return self.chance.number()

    def lines(self, instruction):
        self.asked = True
        if "rd_wdata" not in self.columns:
            self.needs_lines = self.shows_lines
            return self.level
        return self.level if self.shows_lines else self.chance.getrandbits(12) & self.driven

    def refuses(self, instruction):
        if "trap" not in self.columns:
            return False
        self.asked = True
        return self.chance.one_in(3)

    def device_refuses(self, place, length):
        if "trap" not in self.columns:
            return False
        self.asked = True
        self.refused = self.chance.one_in(4)
        return self.refused

    def device_load(self, address, place, length):
        by_value = self.names_rd and "rd_wdata" in self.columns
        if not {"mem_addr", "mem_rdata"} <= self.columns and not by_value:
            return 0
        self.asked = True
        return self.chance.getrandbits(8 * length)


class MadeHart(Hart):
    """A hart over made memory that counts what its accesses reach."""

    def __init__(self, maker, core, setting, reached, memory=None):
        memory = memory or MadeMemory(maker, setting.ram)
        super().__init__(memory, core, setting.devices, setting.pc, setting.choices)
        self.csrs = CountedRegisters(reached, setting.choices.profile)
        self.reached = reached

    def translates(self, mode):
        return mode != M and self.csrs.values["satp"] >> SATP_MODE_AT == SV39

    def fetch_half(self, address):
        self.memory.walk = walk = Walk(FETCH, self.mode, address)
        translated = self.translates(self.mode)
        try:
            half = super().fetch_half(address)
        except Trap as trap:
            if translated:
                self.count_refused(walk, trap)
            elif address in self.devices:
                self.reached["devices", "fetch refused"] += 1
            raise
        finally:
            self.memory.walk = None
        if translated:
            self.count_leaf(walk, self.mode)
        return half

    def execute_at_device(self, instruction, *access):
        self.core.names_rd = instruction.rd != 0
        try:
            return super().execute_at_device(instruction, *access)
        finally:
            self.core.names_rd = True

    def parts(self, address, length, kind, atomic=False, in_ram=False):
        name = KINDS[kind]
        try:
            parts = super().parts(address, length, kind, atomic, in_ram)
        except Trap as trap:
            if trap.cause == kind.misaligned:
                self.reached["misaligned", f"{name}{', atomic' if atomic else ''}"] += 1
            elif address % length:
                which = "first" if trap.value == address else "second"
                self.reached["misaligned", f"{name}, {which} part refused, cause {trap.cause}"] += 1
                if address in self.devices and trap.cause == kind.access_fault:
                    self.reached["misaligned", f"{name}, at a device"] += 1
            if atomic and address in self.devices and trap.cause == kind.access_fault:
                self.reached["devices", "atomic refused"] += 1
            raise
        if address % length:
            self.count_parts(name, parts)
        return parts

    def count_parts(self, name, parts):
        """Counts an access at an address that is no multiple of its length."""
        how = "in one page"
        if len(parts) == 2:
            (low, size), (high, _) = parts
            how = "over an edge" if high == low + size else "over an edge, apart"
        self.reached["misaligned", f"{name}, done {how}"] += 1

    def place(self, address, length, kind, in_ram):
        mode = self.data_mode()
        self.memory.walk = walk = Walk(kind, mode, address)
        try:
            place = super().place(address, length, kind, in_ram)
        except Trap as trap:
            if self.translates(mode):
                self.count_refused(walk, trap)
            raise
        finally:
            self.memory.walk = None
        if self.translates(mode):
            self.count_leaf(walk, mode)
        if place in self.devices:
            self.reached["devices", f"{KINDS[kind]} of {length}"] += 1
            if len(self.devices) > 1:
                at = next(at for at, one in enumerate(self.devices, 1) if place in one)
                self.reached["devices", f"an access in range {at}"] += 1
        return place

    def count_leaf(self, walk, mode):
        """Counts a walk that came to its end."""
        last, level = walk.entries[-1], 3 - len(walk.entries)
        status, kind = self.csrs.values["mstatus"], KINDS[walk.kind]
        self.reached["page", f"{SIZES[level]}: {kind} in {MODES[mode]}"] += 1
        if walk.sets:
            what = "D" if last & PTE_A else "A and D" if walk.kind == STORE else "A"
            self.reached["marks", f"{kind} sets {what}"] += 1
        if walk.kind != FETCH and mode == S and last & PTE_U:
            self.reached["page", "U page in S under SUM"] += 1
        if walk.kind == LOAD and not last & PTE_R and status & MXR:
            self.reached["page", "X page read under MXR"] += 1
        if walk.kind != FETCH and self.mode == M and status & MPRV:
            self.reached["page", f"{kind} in M under MPRV"] += 1

    def count_refused(self, walk, trap):
        kind = KINDS[walk.kind]
        if trap.cause == walk.kind.page_fault:
            self.reached["page fault", f"{refusal(walk, self.csrs.values['mstatus'])}: {kind}"] += 1
            return
        last = walk.entries[-1] if walk.entries else 0
        needed = PTE_A | PTE_D if walk.kind == STORE else PTE_A
        if last & (PTE_R | PTE_X) and last & needed != needed and not walk.sets:
            self.reached["marks", f"{kind} may not set them"] += 1
            return
        if last & (PTE_R | PTE_X):
            self.reached["page", f"refused after the walk: {kind}"] += 1
            return
        table = last >> PTE_PPN_AT if walk.entries else self.csrs.values["satp"] & SATP_PPN
        where = "protected" if table * PAGE in self.memory.ram else "outside RAM"
        self.reached["page", f"table {where}: {kind}"] += 1


def refusal(walk, status):
    """Why a walk ends in a page fault; None where it does not."""
    address = walk.address
    if address >> VIRTUAL_BITS - 1 not in (0, (1 << 65 - VIRTUAL_BITS) - 1):
        return "not canonical"
    entry, level = walk.entries[-1], 3 - len(walk.entries)
    if not entry & PTE_V:
        return "V clear"
    if entry & (PTE_R | PTE_W) == PTE_W:
        return "W without R"
    if entry >> PTE_RESERVED_AT:
        return "reserved bits"
    if not entry & (PTE_R | PTE_X):
        if entry & (PTE_U | PTE_A | PTE_D):
            return "A, D or U of a table"
        return None if level else "a table at level 0"
    return refusal_of_leaf(walk, entry, level, status)


def refusal_of_leaf(walk, entry, level, status):
    needed = {FETCH: PTE_X, LOAD: PTE_R | (PTE_X if status & MXR else 0), STORE: PTE_W}[walk.kind]
    if not entry & needed:
        return "a right is missing"
    if walk.mode == U and not entry & PTE_U:
        return "not for U"
    if walk.mode == S and entry & PTE_U and (walk.kind == FETCH or not status & SUM):
        return "for U alone"
    if (entry >> PTE_PPN_AT) % (1 << VPN_BITS * level):
        return f"{SIZES[level]} misaligned"
    if not entry & PTE_A:
        return "A clear"
    if walk.kind == STORE and not entry & PTE_D:
        return "D clear"
    return None


def count_row(reached, hart, mode, retired, reserved):
    """Counts what an instruction did that began in this mode, where an LR had read this place."""
    reached["mode", MODES[mode]] += 1
    name = None
    if retired.bits is not None:
        name = name_of(retired.bits, retired.length, hart.choices.bits == "on")
        reached["instruction", name] += 1
        count_bits(reached, hart, retired)
    count_code(reached, hart, mode, retired)
    if retired.trap:
        trap = retired.trap
        reached["trap", f"{trap.cause} to {MODES[hart.mode]}"] += 1
        if trap.cause in (1, 12) and trap.value == retired.pc + 2 & MASK:
            reached["code", f"second half refused, cause {trap.cause}"] += 1
    if retired.instruction and "." in retired.instruction.name:
        count_atomic(reached, hart, retired, reserved)
    if retired.instruction and retired.instruction.name.startswith("CSRR"):
        count_register(reached, hart, retired)
    if name == "FENCE.I":
        hart.memory.fenced = set(hart.memory.stored)


def count_bits(reached, hart, retired):
    """Counts an instruction of bit manipulation, on a hart that has it or has not."""
    found = manipulation_of(retired)
    if not found:
        return
    reached["bits", f"{found.name} {hart.choices.bits}"] += 1
    if retired.trap or found.name not in UNARY:
        return
    if retired.source1 == 0:
        reached["bits", f"{found.name} of 0"] += 1
    elif retired.source1 & 0xFFFFFFFF == 0:
        reached["bits", f"{found.name} of a low word of 0"] += 1


def manipulation_of(retired):
    """The instruction of bit manipulation whose bits were fetched; None where it is another."""
    return decode_bits(retired.bits) if retired.bits is not None and retired.length == 4 else None


def count_code(reached, hart, mode, retired):
    """Counts instructions that lie in two pages, and those that the program wrote."""
    if retired.bits is None:
        return
    translated = hart.translates(mode)
    if retired.length == 4 and retired.pc % PAGE == PAGE - 2:
        reached["code", f"over a page's end{', translated' if translated else ''}"] += 1
    if not translated and retired.pc in hart.memory.fenced:
        reached["code", "stored before FENCE.I"] += 1
    elif not translated and retired.pc in hart.memory.stored:
        reached["code", "stored, no FENCE.I"] += 1


def count_atomic(reached, hart, retired, reserved):
    operation = retired.instruction.name.partition(".")[0]
    if operation not in ("LR", "SC"):
        return
    if retired.trap:
        outcome = "traps"
    elif operation == "LR":
        outcome = "reserves"
    elif retired.access:
        outcome = "stores"
    elif reserved is None:
        outcome = "fails, nothing reserved"
    elif hart.translates(hart.data_mode()):
        outcome = "fails, translated"
    elif reserved // hart.choices.block == retired.source1 // hart.choices.block:
        outcome = "fails by choice"
    else:
        outcome = "fails in another block"
    reached["reservation", f"{operation} {outcome}"] += 1
    if outcome == "stores" and retired.access.place != reserved:
        reached["reservation", "SC stores elsewhere in the block"] += 1


def count_register(reached, hart, retired):
    instruction = retired.instruction
    name = hart.csrs.named(instruction.csr, M, False) or "unknown"
    form = instruction.name[4]
    writes = form == "W" or bool(instruction.rs1 or instruction.imm)
    if retired.trap:
        reached["register", "unknown refused" if name == "unknown" else "refused"] += 1
        reached["register refused", name] += 1
        return
    if form != "W" or instruction.rd:
        reached["register read", name] += 1
    if writes:
        reached["register written", name] += 1
