"""Which instructions, data and page tables a made program has; a part of campaign.py.

The maker looks at the hart each time it is asked for an instruction, so that most of them do
something: it keeps a plan of steps, and where that is empty begins another one by chance.
"""
from random import Random

from campaign_code import BITS_FORMS, NOP, SHORT, encode, encode_short
from campaign_goals import Goals
from campaign_touch import Touches
from hart_instructions import ATOMIC, BRANCHES, LOADS, MASK, STORES, signed
from hart_memory import (
    ENTRY, FETCH, LOAD, PAGE, PTE_A, PTE_D, PTE_PPN_AT, PTE_R, PTE_RESERVED_AT, PTE_U, PTE_V, PTE_W,
    PTE_X, STORE, VPN_BITS,
)
from hart_registers import ADDRESSES, MPP, MXR, SUM, M, U

PTE_G, PTE_SOFT = 1 << 5, 3 << 8
CORNERS = (
    0, 1, MASK, 1 << 63, (1 << 63) - 1, 1 << 31, (1 << 31) - 1, (1 << 32) - 1, MASK << 31 & MASK,
)

REGISTER_FORMS = [
    "ADD", "SLL", "SLT", "SLTU", "XOR", "SRL", "OR", "AND", "SUB", "SRA", "MUL", "MULH", "MULHSU",
    "MULHU", "DIV", "DIVU", "REM", "REMU", "ADDW", "SLLW", "SRLW", "SUBW", "SRAW", "MULW", "DIVW",
    "DIVUW", "REMW", "REMUW",
]
IMMEDIATE_FORMS = [
    "ADDI", "SLTI", "SLTIU", "XORI", "ORI", "ANDI", "SLLI", "SRLI", "SRAI", "ADDIW", "SLLIW",
    "SRLIW", "SRAIW", "LUI", "AUIPC",
]
BITS_NAMES = list(BITS_FORMS)
ATOMICS = [f"{name}.{suffix}" for name in (*ATOMIC, "LR", "SC") for suffix in "WD"]
SYSTEM = ["ECALL", "EBREAK", "MRET", "SRET", "WFI", "SFENCE_VMA", "FENCE", "FENCE.I"]
CSR_FORMS = ["CSRRW", "CSRRS", "CSRRC", "CSRRWI", "CSRRSI", "CSRRCI"]
# those of 16 bits that load, store or jump, with the length and the scale of what they access
SHORT_ACCESSES = {
    "C.LW": ("ab", 4, 32), "C.LD": ("ab", 8, 32), "C.SW": ("ab", 4, 32), "C.SD": ("ab", 8, 32),
    "C.LWSP": ("d", 4, 64), "C.LDSP": ("d", 8, 64), "C.SWSP": ("s", 4, 64), "C.SDSP": ("s", 8, 64),
}
# the registers that are not among many of one kind
MAIN_REGISTERS = [
    address for address, name in ADDRESSES.items() if "hpm" not in name and "pmpaddr" not in name
]
SHORT_JUMPS = ["C.J", "C.BEQZ", "C.BNEZ", "C.JR", "C.JALR"]
SHORT_PLAIN = [name for name in SHORT if name not in SHORT_ACCESSES and name not in SHORT_JUMPS]


class Chance(Random):
    """Chance with what makers ask of it."""

    bits = Random.getrandbits

    def one_in(self, count):
        return self.random() * count < 1

    def pick(self, items):
        return items[int(self.random() * len(items))]

    def below(self, limit):
        return int(self.random() * limit) if limit < 1 << 50 else self.getrandbits(64) % limit

    def number(self):
        """A number of 64 bits, often at an edge."""
        kind = self.below(4)
        if kind == 0:
            return self.pick(CORNERS)
        if kind == 1:
            return self.getrandbits(12) - 2048 & MASK
        return self.getrandbits(64 if kind == 2 else 32)

    def pattern(self):
        """A number of which few bits or few bytes are set, or few are not, or a low word of 0."""
        if self.one_in(2):
            value = self.getrandbits(64) & self.getrandbits(64) & self.getrandbits(64)
        else:
            value = int.from_bytes(self.pick((0, 0, self.getrandbits(8))) for _ in range(8))
        return self.pick((value, value, MASK - value, value << 32 & MASK))


class Maker(Touches, Goals):
    """Makes up what a hart reads: instructions, data, and entries of page tables."""

    def __init__(self, chance, setting, with_bits):
        self.chance = chance
        self.setting = setting
        self.ram, self.devices = setting.ram, setting.devices
        self.hart = None
        self.plan = []  # steps; each gives an instruction's bits, or None where it put others first
        self.second = None  # the address and the bits of the half that is fetched next
        self.wanted = None  # the value of a doubleword that the last instruction loads
        self.hot = []  # addresses that were accessed, the last ones
        self.base_register = chance.below(31) + 1  # from which constants are loaded
        self.flaws = chance.pick((0, 0.05, 0.15, 0.3))  # how many entries of tables are refused
        usual = (5, 3, 2, 5, 3, 3, 1, 2, 0.4)
        self.weights = [chance.pick((0, 1, 1, 3)) * weight for weight in usual]
        self.weights[0] += 1
        self.bits_share = 0  # of integer instructions that are those of bit manipulation
        if with_bits:
            has_them = setting.choices.bits == "on"
            self.bits_share = chance.pick((0.2, 0.6, 0.95)) if has_them else 0.12
        self.touches = self.pick_touches()
        self.rows = 0  # how many the trace is to have
        self.begin()
        if self.touches:
            self.begin_touching()

    # Values of bytes that nothing has read yet.

    def value(self, walk, address, length):
        """The value of these bytes, which the hart reads on this walk, or after it."""
        if walk and length == ENTRY:
            return self.entry(walk)
        if walk and walk.kind == FETCH:
            return self.half(walk.address)
        if self.wanted is not None and length == 8:
            value, self.wanted = self.wanted, None
            return value
        return self.chance.number() & (1 << 8 * length) - 1

    def half(self, address):
        """The 16 bits at pc, or after them."""
        if self.second and self.second[0] == address:
            bits, self.second = self.second[1], None
            return bits
        self.wanted = None
        bits = self.instruction()
        self.second = (address + 2 & MASK, bits >> 16) if bits & 3 == 3 else None
        return bits & 0xFFFF

    def entry(self, walk):
        """An entry of a page table, at the level that the walk has come to."""
        chance, level = self.chance, walk.level()
        size = PAGE << VPN_BITS * level
        frame = self.frame(size, walk.address % size, walk.kind)
        is_leaf = not level or not (frame is None or chance.one_in(2))
        if is_leaf:
            frame = frame if frame is not None else chance.getrandbits(44) << 12
            entry = (frame & (1 << 56) - 1) >> 12 << PTE_PPN_AT | self.rights(walk)
        else:
            entry = self.any_page() >> 12 << PTE_PPN_AT | PTE_V
        entry |= chance.pick((0, 0, PTE_G, PTE_SOFT))
        if chance.random() < self.flaws:
            return self.flawed(entry, is_leaf, level)
        return entry

    def flawed(self, entry, is_leaf, level):
        """An entry with one thing that is wrong, or at least another."""
        chance = self.chance
        match chance.below(10):
            case 0:
                return entry | 1 << PTE_RESERVED_AT + chance.below(10)
            case 1:
                return entry ^ 1 << PTE_PPN_AT + chance.below(44)
            case 2 | 3 if is_leaf and level:  # its low bits are to be 0
                return entry ^ 1 << PTE_PPN_AT + chance.below(VPN_BITS * level)
            case 2 | 3:
                return entry ^ PTE_V
            case 4 | 5 if is_leaf:
                return entry & ~chance.pick((PTE_A, PTE_D, PTE_A | PTE_D))
            case 6 if is_leaf:
                return entry ^ PTE_U
            case 7 if is_leaf:
                return entry & ~(PTE_R | PTE_W | PTE_X)
            case 8:
                return entry & ~PTE_R | PTE_W
        return entry ^ chance.pick((PTE_A, PTE_D, PTE_U, PTE_R, PTE_W, PTE_X))

    def rights(self, walk):
        """Low bits of a leaf that lets the access happen."""
        chance, status = self.chance, self.hart.csrs.values["mstatus"]
        rights = {FETCH: PTE_X, LOAD: PTE_R, STORE: PTE_R | PTE_W}[walk.kind]
        if walk.kind == LOAD and status & MXR and chance.one_in(2):
            rights = PTE_X
        elif chance.one_in(2):
            rights |= PTE_R | chance.pick((PTE_W, PTE_X, PTE_W | PTE_X))
        user = walk.mode == U or (walk.kind != FETCH and status & SUM and chance.one_in(2))
        marks = PTE_A | (PTE_D if rights & PTE_W or chance.one_in(2) else 0)
        if self.setting.choices.marks == "set":
            marks = chance.pick((marks, 0, PTE_A, PTE_D))
        return rights | PTE_V | marks | (PTE_U if user else 0)

    def frame(self, size, offset, kind):
        """The begin of a page of this size whose byte at the offset is somewhere, or None."""
        is_device = self.devices and kind != FETCH and self.chance.one_in(6)
        place = self.one_device() if is_device else self.ram
        first, last = -((offset - place.start) // size), (place.stop - 1 - offset) // size
        if max(first, 0) > last:
            return None
        return (max(first, 0) + self.chance.below(last - max(first, 0) + 1)) * size

    def one_device(self):
        """One of the ranges of devices."""
        return self.devices[0] if len(self.devices) == 1 else self.chance.pick(self.devices)

    def any_page(self):
        """The address of a page of RAM, or now and then of none."""
        if self.chance.one_in(60):
            return self.chance.getrandbits(44) * PAGE
        return self.ram.start + self.chance.below(len(self.ram) // PAGE) * PAGE

    # Instructions.

    def instruction(self):
        """The bits of the instruction at pc."""
        for _ in range(12):
            step = self.plan.pop(0) if self.plan else self.another
            bits = step()
            if bits is not None:
                return bits
        return NOP

    def first(self, *steps):
        """Puts steps before the plan's."""
        self.plan[:0] = steps

    def another(self):
        """A step of any kind; in S and U fewer that trap, in their handler often the way back."""
        kinds = (
            self.integer, self.short, self.jump, self.access, self.short_access, self.register,
            self.system, self.goal, self.anything,
        )
        weights = self.weights
        if self.touches and self.chance.random() < self.touches:
            return self.touch()
        if self.hart.mode != M:
            weights = [*weights[:5], *(0.3 * weight for weight in weights[5:])]
        elif self.hart.csrs.values["mstatus"] & MPP != MPP and self.chance.one_in(2):
            return self.back()
        return self.chance.choices(kinds, weights)[0]()

    def integer(self):
        chance = self.chance
        if self.bits_share and chance.random() < self.bits_share:
            return self.manipulation()
        rd, rs1, rs2 = chance.below(32), chance.below(32), chance.below(32)
        if chance.one_in(6):
            value = chance.number()
            return self.constant(chance.below(31) + 1, value)
        if chance.one_in(3):
            return encode(chance.pick(IMMEDIATE_FORMS), rd, rs1, imm=chance.getrandbits(20))
        return encode(chance.pick(REGISTER_FORMS), rd, rs1, rs2)

    def manipulation(self):
        """An instruction of bit manipulation, now and then after its operands were set."""
        chance = self.chance
        name, rs1, rs2 = chance.pick(BITS_NAMES), chance.below(32), chance.below(32)
        amount = chance.getrandbits(5 if name == "RORIW" else 6)
        bits = encode(name, chance.below(32), rs1, rs2, amount)
        if not chance.one_in(3):
            return bits
        sources = chance.pick(((rs1,), (rs1, rs2)))
        self.first(*(self.operand(register) for register in sources if register), lambda: bits)
        return None

    def operand(self, register):
        """A step that sets a register to a number, often one with a pattern."""
        value = self.chance.pick((self.chance.number(), self.chance.pattern()))
        return lambda: self.constant(register, value)

    def short(self):
        chance = self.chance
        registers = {place: chance.below(31) + 1 for place in "abds"}
        if chance.one_in(8):
            registers["d"] = 0
        return encode_short(chance.pick(SHORT_PLAIN), imm=chance.getrandbits(12), **registers)

    def constant(self, register, value):
        """Puts a value into a register, by a load where it has no short form."""
        number, chance = signed(value), self.chance
        if -32 <= number < 32 and chance.one_in(2):
            return encode_short("C.LI", imm=number, d=register)
        if -2048 <= number < 2048:
            return encode("ADDI", register, 0, imm=number)
        if number % PAGE == 0 and -(1 << 31) <= number < 1 << 31:
            return encode("LUI", register, imm=number >> 12)
        found = self.room()
        if found is None:
            self.first(lambda: self.constant(register, value))
            return encode("AUIPC", self.base_register, imm=self.page_offset())
        self.wanted = value
        base, offset = found
        return encode("LD", register, base, imm=offset)

    def is_translated(self):
        """Whether data are."""
        return self.hart.translates(self.hart.data_mode())

    def room(self):
        """A register and an offset that give the address of a doubleword which nothing used yet."""
        registers, known = self.hart.registers, self.hart.memory.known
        translated = self.is_translated()
        for register in range(1, 32):
            base = registers[register]
            if translated:
                if abs(signed(base - self.hart.pc & MASK)) >> 20 or not base >> 12:
                    continue
                return register, -base % 8 + 8 * (self.chance.below(400) - 200)
            if base not in self.ram:
                continue
            for _ in range(4):
                address = base - base % 8 + 8 * (self.chance.below(480) - 240)
                if address in self.ram and known.isdisjoint(range(address, address + 8)):
                    return register, address - base
        return None

    def page_offset(self):
        """How many pages AUIPC goes, so that it comes to RAM where addresses are physical."""
        low, high = -4, 4
        if not self.is_translated():
            page = self.hart.pc // PAGE
            low = max(self.ram.start // PAGE - page, low - (self.chance.below(1 << 19)))
            high = min((self.ram.stop - 1) // PAGE - page, high + self.chance.below(1 << 19))
            if self.chance.one_in(2):
                low, high = max(low, -2), min(high, 2)
        return low + self.chance.below(high - low + 1) if low <= high else 0

    def address(self, length):
        """An address of data of this length."""
        chance = self.chance
        if self.hot and chance.one_in(2):
            address = chance.pick(self.hot) + length * chance.pick((0, 0, 0, 1, -1, 8))
        elif self.devices and chance.one_in(4):
            devices = self.one_device()
            address = devices.start + chance.below(len(devices))
        elif chance.one_in(12):
            address = chance.pick((
                chance.getrandbits(64), self.ram.start - 8, self.ram.stop, 1 << 56, 1 << 38,
                MASK - 7, 0,
            ))
        elif self.is_translated():
            address = self.virtual()
        else:
            address = self.ram.start + chance.below(len(self.ram))
        if chance.one_in(12):
            return address & MASK
        if self.goes_anywhere() and chance.one_in(3):
            return self.odd(address, length)
        address = address - address % length & MASK
        self.hot = [*self.hot[-5:], address]
        return address

    def goes_anywhere(self):
        """Whether loads and stores are carried out at any address."""
        return self.setting.choices.misaligned == "done"

    def odd(self, address, length):
        """An address near this one at which an access mostly lies over the end of a page."""
        if self.chance.one_in(4):
            return address & MASK
        return (address | PAGE - 1) - self.chance.below(length) & MASK

    def base(self, address, low, high, step, registers):
        """A register of these that is near the address, and the offset, a multiple of step."""
        values = self.hart.registers
        start = self.chance.below(len(registers))
        for register in (*registers[start:], *registers[:start]):
            offset = signed(address - values[register] & MASK)
            if low <= offset <= high and offset % step == 0:
                return register, offset
        return None

    def near(self, length, low, high):
        """An address that some register is near, aligned; None where none is."""
        chance, values = self.chance, self.hart.registers
        good = [value for value in values[1:] if value in self.ram or value in self.devices]
        if self.is_translated():
            canonical = 0, (1 << 26) - 1
            good = [value for value in values[1:] if value >> 12 and value >> 38 in canonical]
        if not good:
            return None
        address = chance.pick(good) + low + chance.below(high - low + 1)
        if self.goes_anywhere() and chance.one_in(3):
            return self.odd(address, length)
        return (address - address % length if chance.random() < 0.93 else address) & MASK

    def access(self):
        chance = self.chance
        name = chance.pick(ATOMICS if chance.one_in(3) else [*LOADS, *STORES])
        return self.access_to(name, None)

    def length_of(self, name):
        if "." in name:
            return 4 if name.endswith("W") else 8
        return LOADS[name][0] if name in LOADS else STORES[name]

    def access_to(self, name, address):
        """A load, a store or an atomic, at this address, or at any where that is None."""
        chance, length, atomic = self.chance, self.length_of(name), "." in name
        low, high = (0, 0) if atomic else (-2048, 2047)
        is_new = address is None
        if is_new:
            found = self.near(length, low, high) if chance.random() < 0.6 else None
            address = found if found is not None else self.address(length)
            if atomic and self.goes_anywhere() and not chance.one_in(8):
                address -= address % length
        base = self.base(address, low, high, 1, range(1, 32))
        if base is None:
            if not is_new and chance.one_in(3):
                return None  # it was tried
            self.first(
                lambda register=chance.below(31) + 1: self.constant(register, address),
                lambda: self.access_to(name, address),
            )
            return None
        self.hot = [*self.hot[-5:], address]
        register, offset = base
        if atomic:
            other = 0 if name.startswith("LR") else chance.below(32)
            return encode(name, chance.below(32), register, other) | chance.getrandbits(2) << 25
        if name in LOADS:
            return encode(name, chance.below(32), register, imm=offset)
        return encode(name, 0, register, chance.below(32), offset)

    def short_access(self):
        """A load or a store of 16 bits."""
        chance = self.chance
        name = chance.pick(list(SHORT_ACCESSES))
        places, length, count = SHORT_ACCESSES[name]
        registers = range(8, 16) if places == "ab" else (2,)
        reach = length * (count - 1)
        address = self.near(length, 0, reach)
        if address is None or chance.one_in(3):
            address = self.address(length)
        base = self.base(address, 0, reach, length, registers)
        if base is None:
            register = chance.pick(registers)
            place = address - length * chance.below(count) & MASK
            self.first(
                lambda: self.constant(register, place),
                lambda: self.short_at(name, register, address - place),
            )
            return None
        return self.short_at(name, *base)

    def short_at(self, name, register, offset):
        other = self.chance.below(31) + 1
        return encode_short(name, imm=offset, a=register, b=other, d=other, s=other)

    def jump(self):
        """A branch or a jump, mostly to where the hart can go."""
        chance, pc = self.chance, self.hart.pc
        kind = chance.below(5)
        if kind < 2:
            name = chance.pick(list(BRANCHES))
            rs1, rs2 = chance.below(32), chance.below(32)
            return encode(name, 0, rs1, rs2, self.offset(chance.pick((64, 4094))))
        if kind == 2:
            rd, reach = chance.below(32), chance.pick((64, 4096, (1 << 20) - 2))
            return encode("JAL", rd, imm=self.offset(reach))
        if kind == 3:
            return self.short_jump(chance.pick(SHORT_JUMPS))
        target = pc + self.offset(chance.pick((128, 4096))) & MASK
        base = self.base(target, -2048, 2047, 1, range(1, 32))
        if base:
            return encode("JALR", chance.below(32), base[0], imm=base[1] | chance.getrandbits(1))
        register = chance.below(31) + 1
        self.first(
            lambda: self.constant(register, target),
            lambda: encode("JALR", chance.below(32), register, imm=chance.pick((0, 0, 1, 16, -2))),
        )
        return None

    def offset(self, reach):
        """An even distance of at most so much, that stays in RAM where addresses are physical."""
        chance, pc = self.chance, self.hart.pc
        for _ in range(4):
            offset = 2 * (chance.below(reach + 1) - reach // 2)
            if self.hart.translates(self.hart.mode) or pc + offset in self.ram:
                return offset
        return 4

    def short_jump(self, name):
        if name in ("C.JR", "C.JALR"):
            register = self.chance.below(31) + 1
            target = self.hart.pc + self.offset(512) & MASK
            self.first(
                lambda: self.constant(register, target | self.chance.getrandbits(1)),
                lambda: encode_short(name, d=register),
            )
            return None
        offset = self.offset(1022 if name == "C.J" else 126)
        return encode_short(name, imm=offset, a=self.chance.below(8))

    def register(self):
        """An access to any control and status register."""
        chance = self.chance
        csr = chance.pick(chance.pick((list(ADDRESSES), MAIN_REGISTERS)))
        if chance.one_in(8):
            csr = chance.getrandbits(12)
        name = ADDRESSES.get(csr)
        form = chance.pick(CSR_FORMS)
        source = chance.pick((0, 0, chance.below(32)))
        if name in self.CONTROLS and source:
            self.first(*self.set_register(name, self.useful(name)))
            return None
        if chance.one_in(3) and not form.endswith("I") and csr != 0x180:
            source = chance.below(31) + 1
            self.first(
                lambda: self.constant(source, chance.number()),
                lambda: encode(form, chance.below(32), source, imm=csr),
            )
            return None
        return encode(form, chance.pick((0, chance.below(32))), source, imm=csr)

    def system(self):
        chance = self.chance
        name = chance.pick(SYSTEM)
        if name == "SFENCE_VMA":
            return encode(name, 0, chance.below(32), chance.below(32))
        if name.startswith("FENCE"):
            return encode(name, chance.below(32), chance.below(32), imm=chance.getrandbits(12))
        return encode(name)

    def anything(self):
        """Any bits, or an instruction with one bit that is not its own."""
        chance = self.chance
        if chance.one_in(3):
            return chance.getrandbits(16) & ~3 | chance.below(3)
        if chance.one_in(2):
            names = REGISTER_FORMS + IMMEDIATE_FORMS + ATOMICS + SYSTEM
            name = chance.pick(names + BITS_NAMES if self.bits_share else names)
            return encode(name, chance.below(32), chance.below(32)) ^ 1 << chance.below(30) + 2
        return chance.getrandbits(32) | 3
