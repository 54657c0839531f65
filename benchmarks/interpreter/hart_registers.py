"""The control and status registers of a hart with the modes M, S and U, with traps and protection.

After the Privileged Architecture, version 20211203, chapters "Control and Status Registers (CSRs)",
"Machine-Level ISA" and "Supervisor-Level ISA"; a part of reference_hart.py. Which bits of a register can be
written says hart_profile.py.
"""
from hart_instructions import MASK
from hart_profile import (
    CONFIGURATION, CONSTANT, FS, PMP_ENTRIES, SD, SSTATUS_READ, SSTATUS_WRITE, VS, Profile,
)

# modes
U, S, M = 0, 1, 3

SIE, MIE, SPIE, MPIE, SPP, MPRV = 1 << 1, 1 << 3, 1 << 5, 1 << 7, 1 << 8, 1 << 17
SUM, MXR, TVM, TW, TSR = 1 << 18, 1 << 19, 1 << 20, 1 << 21, 1 << 22
MPP, MPP_AT = 3 << 11, 11

INTERRUPT_ORDER = (11, 3, 7, 9, 1, 5)

# physical memory protection: the bits of an entry's configuration, and the kinds of its region
READ, WRITE, EXECUTE, LOCKED = 1 << 0, 1 << 1, 1 << 2, 1 << 7
KIND_AT, OFF, TOR, NA4, NAPOT = 3, 0, 1, 2, 3

# satp: its mode, and the number of the page with the table that a walk begins in
BARE, SV39, SATP_MODE_AT = 0, 8, 60
SATP_PPN = (1 << 44) - 1

ADDRESSES = {
    0x100: "sstatus", 0x104: "sie", 0x105: "stvec", 0x106: "scounteren", 0x10A: "senvcfg",
    0x140: "sscratch", 0x141: "sepc", 0x142: "scause", 0x143: "stval", 0x144: "sip", 0x180: "satp",
    0x300: "mstatus", 0x301: "misa", 0x302: "medeleg", 0x303: "mideleg", 0x304: "mie", 0x305: "mtvec",
    0x306: "mcounteren", 0x30A: "menvcfg", 0x320: "mcountinhibit",
    0x340: "mscratch", 0x341: "mepc", 0x342: "mcause", 0x343: "mtval", 0x344: "mip",
    0x3A0: "pmpcfg0", 0x3A2: "pmpcfg2",
    0xB00: "mcycle", 0xB02: "minstret", 0xC00: "cycle", 0xC01: "time", 0xC02: "instret",
    0xF11: "mvendorid", 0xF12: "marchid", 0xF13: "mimpid", 0xF14: "mhartid", 0xF15: "mconfigptr",
}
ADDRESSES |= {0x320 + n: f"mhpmevent{n}" for n in range(3, 32)}
ADDRESSES |= {0x3B0 + n: f"pmpaddr{n}" for n in range(PMP_ENTRIES)}
ADDRESSES |= {0xB00 + n: f"mhpmcounter{n}" for n in range(3, 32)}
ADDRESSES |= {0xC00 + n: f"hpmcounter{n}" for n in range(3, 32)}

# counters and identity: the core's own values; a write that is lawful changes nothing
DECIDED = {name for at, name in ADDRESSES.items() if at >> 8 in (0xB, 0xC, 0xF)}


def with_dirty(status):
    """A value of mstatus or sstatus with SD, which is not stored: whether FS or VS says that a unit is dirty."""
    return status | SD if status & FS == FS or status & VS == VS else status


class ControlRegisters:
    """The stored registers by name, and the others as views of them."""

    def __init__(self, values=None, profile=Profile()):
        self.profile = profile
        self.values = values or dict(profile.fixed)
        self.entries = None  # of protection, where they were worked out since the last write

    def copy(self):
        return ControlRegisters(dict(self.values), self.profile)

    def is_decided(self, name):
        """Whether a register has the core's own values."""
        return name in DECIDED or self.profile.words.get(name) == "row"

    def read(self, name, lines=0):
        """The value that an instruction reads while these lines are up."""
        values = self.values
        match name:
            case "mip":
                return values["mip"] | lines
            case "mstatus":
                return with_dirty(values["mstatus"])
            case "sstatus":
                return with_dirty(values["mstatus"] & SSTATUS_READ)
            case "sie":
                return values["mie"] & values["mideleg"]
            case "sip":
                return (values["mip"] | lines) & values["mideleg"]
        return CONSTANT[name] if name in CONSTANT else values[name]

    def write(self, name, value):
        """What a lawful write stores; it drops what the register does not hold."""
        values, masks = self.values, self.profile.writable
        match name:
            case "mstatus":
                if value >> MPP_AT & 3 == 2:  # no such mode
                    value = value & ~MPP | values["mstatus"] & MPP
                self.put("mstatus", value, masks["mstatus"])
            case "sstatus":
                self.put("mstatus", value, masks["mstatus"] & SSTATUS_WRITE)
            case "sie":
                self.put("mie", value, masks["mie"] & values["mideleg"])
            case "sip":
                self.put("mip", value, masks["mip"] & values["mideleg"] & 1 << 1)
            case "satp":
                if value >> SATP_MODE_AT in (BARE, SV39):  # else nothing of it is stored
                    self.put("satp", value, masks["satp"])
            case "pmpcfg0" | "pmpcfg2":
                self.put(name, self.configurations(values[name], value), masks[name])
                self.entries = None
            case _ if name.startswith("pmpaddr"):
                if not self.is_address_locked(int(name.removeprefix("pmpaddr"))):
                    self.put(name, value, masks[name])
                    self.entries = None
            case _ if name in masks:
                self.put(name, value, masks[name])

    def put(self, name, value, mask):
        """Stores the bits of the mask in a register."""
        self.values[name] = self.values[name] & ~mask | value & mask

    @staticmethod
    def configurations(old, new):
        """What eight configurations are after a write, each for itself."""
        pairs = zip(old.to_bytes(8), new.to_bytes(8))
        return int.from_bytes(
            was if was & LOCKED or to_be & (READ | WRITE) == WRITE else to_be & CONFIGURATION for was, to_be in pairs
        )

    def configuration(self, entry):
        """The configuration of an entry of protection."""
        return self.values["pmpcfg0" if entry < 8 else "pmpcfg2"] >> 8 * (entry % 8) & 0xFF

    def is_address_locked(self, entry):
        """Whether the address of an entry is locked, by itself or as the bottom of the next one."""
        if self.configuration(entry) & LOCKED:
            return True
        above = self.configuration(entry + 1) if entry + 1 < PMP_ENTRIES else 0
        return bool(above & LOCKED) and above >> KIND_AT & 3 == TOR

    def region(self, entry):
        """The bytes that an entry covers."""
        address, kind = self.values[f"pmpaddr{entry}"], self.configuration(entry) >> KIND_AT & 3
        if kind == OFF:
            return range(0)
        if kind == TOR:
            return range(4 * self.values[f"pmpaddr{entry - 1}"] if entry else 0, 4 * address)
        if kind == NA4:
            return range(4 * address, 4 * address + 4)
        ones = address & ~(address + 1)  # those at the end, which tell the size
        return range(4 * (address - ones), 4 * (address - ones) + 8 * (ones + 1))

    def allows(self, mode, address, length, right):
        """Whether protection lets this mode read, write or execute all of these bytes."""
        if not self.profile.pmp_entries:
            return True
        if self.entries is None:
            numbered = ((self.region(entry), self.configuration(entry)) for entry in range(PMP_ENTRIES))
            self.entries = [(region, configuration) for region, configuration in numbered if region]
        for region, configuration in self.entries:
            if address < region.stop and region.start < address + length:
                if address < region.start or region.stop < address + length:
                    return False
                return (mode == M and not configuration & LOCKED) or bool(configuration & right)
        return mode == M

    def named(self, address, mode, writes):
        """The register at an address, None where this access to it is illegal."""
        name = ADDRESSES.get(address)
        if name is None or mode < (address >> 8 & 3) or (writes and address >> 10 == 3):
            return None
        if self.profile.words.get(name) == "none" or (name.startswith("pmp") and not self.profile.pmp_entries):
            return None  # it is not there
        if name == "satp" and mode == S and self.values["mstatus"] & TVM:
            return None
        if address >> 8 == 0xC and mode < M:
            enabled = self.values["mcounteren"] & (self.values["scounteren"] if mode == U else MASK)
            if not enabled >> (address & 0x1F) & 1:
                return None
        return name

    def pending(self, mode, lines):
        """The code of the interrupt that is to be taken while these lines are up; None where none is."""
        values = self.values
        enabled = (values["mip"] | lines) & values["mie"]
        for_m = enabled & ~values["mideleg"] if mode < M or values["mstatus"] & MIE else 0
        for_s = enabled & values["mideleg"] if mode < S or (mode == S and values["mstatus"] & SIE) else 0
        for taken in (for_m, for_s):
            for code in INTERRUPT_ORDER:
                if taken >> code & 1:
                    return code
        return None

    def enter(self, mode, pc, code, value, interrupt):
        """Enters a trap from this mode and pc; the handler's mode and address."""
        values, status = self.values, self.values["mstatus"]
        delegated = values["mideleg" if interrupt else "medeleg"] >> code & 1
        cause = code | (1 << 63 if interrupt else 0)
        if mode < M and delegated:
            values |= {"sepc": pc, "scause": cause, "stval": value}
            status = status & ~(SPIE | SIE | SPP) | (SPIE if status & SIE else 0) | (SPP if mode == S else 0)
            mode, vector = S, values["stvec"]
        else:
            values |= {"mepc": pc, "mcause": cause, "mtval": value}
            status = status & ~(MPIE | MIE | MPP) | (MPIE if status & MIE else 0) | mode << MPP_AT
            mode, vector = M, values["mtvec"]
        values["mstatus"] = status
        return mode, (vector & ~3) + (4 * code if interrupt and vector & 1 else 0) & MASK

    def mret(self):
        """Returns from a trap that M took; the mode and address to go on in."""
        status = self.values["mstatus"]
        mode = status >> MPP_AT & 3
        status = status & ~(MIE | MPP) | (MIE if status & MPIE else 0) | MPIE
        self.values["mstatus"] = status if mode == M else status & ~MPRV
        return mode, self.values["mepc"]

    def sret(self):
        """Returns from a trap that S took; the mode and address to go on in."""
        status = self.values["mstatus"]
        mode = S if status & SPP else U
        status = status & ~(SIE | SPP) | (SIE if status & SPIE else 0) | SPIE
        self.values["mstatus"] = status & ~MPRV
        return mode, self.values["sepc"]
