"""What a made program sets up; a part of campaign.py."""
from campaign_code import encode, encode_short
from hart_instructions import MASK
from hart_memory import FETCH, PAGE
from hart_registers import (
    ADDRESSES, MIE, MPIE, MPP_AT, MPRV, MXR, NA4, NAPOT, SATP_MODE_AT, SIE, SPIE, SPP, SUM, SV39,
    TOR, TSR, TVM, TW, ControlRegisters, M, S, U,
)

NUMBERS = {name: address for address, name in ADDRESSES.items()}
ALL_BYTES = (1 << 54) - 1  # an address of protection that covers everything as NAPOT, and as TOR


class Goals:
    """The goals of a maker. Each step that it puts is asked when the hart comes to it."""

    CONTROLS = (
        "mtvec", "stvec", "mepc", "sepc", "satp", "pmpcfg0", "pmpcfg2", "medeleg", "mideleg",
        "mstatus", "sstatus", "mie", "sie", "mip", "sip", *(f"pmpaddr{n}" for n in range(16)),
    )

    def begin(self):
        """Puts what the program begins with."""
        chance = self.chance
        last = chance.choices((None, self.lower, self.translate, self.borrow), (3, 4, 6, 1))[0]
        self.rows = (25 if last else 5) + chance.below(36)
        share = 0.5 if last else 1
        goals = [goal for goal, often in (
            (self.delegate, 0.4), (self.enable_interrupts, 0.3), (self.protect, 0.25),
            (self.count, 0.15), (self.write_code, 0.08), (self.reserve, 0.08),
            (self.go_to_edge, 0.06), (self.look, 0.2),
        ) if chance.random() < share * often]
        chance.shuffle(goals)
        if (0 not in self.ram or chance.one_in(3)) and chance.random() < 0.9:
            goals.insert(0, self.set_vector)
        self.plan = goals + ([last] if last else [])

    def goal(self):
        """One of all goals, on the way."""
        return self.chance.choices(
            (self.set_vector, self.delegate, self.enable_interrupts, self.protect, self.count,
             self.write_code, self.reserve, self.go_to_edge, self.lower, self.translate,
             self.borrow, self.call),
            (1, 2, 2, 3, 1, 2, 4, 2, 4, 3, 1, 1),
        )[0]()

    # Registers.

    def scratch(self):
        return self.chance.below(31) + 1

    def set_register(self, name, value):
        """Steps that write a value to a register."""
        register, csr, chance = self.scratch(), NUMBERS[name], self.chance
        if value < 32 and chance.one_in(2):
            return [lambda: encode("CSRRWI", 0, value, imm=csr)]
        rd = chance.pick((0, 0, self.scratch()))
        return [
            lambda: self.constant(register, value),
            lambda: encode("CSRRW", rd, register, imm=csr),
        ]

    def useful(self, name):
        """A value for a register that makes something of it."""
        chance = self.chance
        if name in ("mtvec", "stvec"):
            return self.code_address(name == "stvec") & ~3 | chance.pick((0, 0, 1, 1, 3))
        if name in ("mepc", "sepc"):
            return self.code_address(name == "sepc")
        if name == "satp":
            return self.root()
        if name.startswith("pmpcfg"):
            return int.from_bytes(self.configuration() for _ in range(8))
        if name.startswith("pmpaddr"):
            return self.region_address()
        if name in ("medeleg", "mideleg", "mie", "sie", "mip", "sip"):
            some = chance.getrandbits(16), chance.getrandbits(12) | 0x222
            return chance.pick((MASK, 0xFFFF, *some))
        return self.status(chance.pick((U, S, M, 2)))

    def status(self, mode):
        """A value for mstatus with this mode in MPP and, where it can be, in SPP."""
        chance = self.chance
        status = mode << MPP_AT | (SPP if mode == S or mode == M and chance.one_in(2) else 0)
        for bits, share in (
            (SIE, 0.5), (MIE, 0.3), (SPIE, 0.5), (MPIE, 0.5), (SUM, 0.5), (MXR, 0.4), (MPRV, 0.1),
            (TVM, 0.1), (TW, 0.2), (TSR, 0.1),
        ):
            status |= bits if chance.random() < share else 0
        return status

    def code_address(self, is_virtual=False):
        """An even address to go on at; a virtual one where that is asked for and satp is on."""
        chance = self.chance
        if is_virtual and self.hart.csrs.values["satp"] and chance.random() < 0.85:
            address = self.virtual()
        elif chance.one_in(2):
            address = self.hart.pc + 8 * (chance.below(256) - 64)
        else:
            address = self.ram.start + chance.below(len(self.ram))
            is_virtual = False
        if address not in self.ram and not is_virtual and not chance.one_in(50):
            address = self.ram.start + chance.below(len(self.ram))
        if chance.one_in(12):
            address |= 0xFFE  # so that an instruction lies over the page's end
        elif chance.one_in(3):
            address &= -64
        return address & MASK & ~1

    def virtual(self):
        """A virtual address."""
        chance = self.chance
        kind = chance.below(9)
        if kind < 2 and self.hot:
            return chance.pick(self.hot) & -PAGE | chance.getrandbits(12)
        if kind < 4 or kind == 8 and chance.one_in(2):
            return self.ram.start + chance.below(len(self.ram))
        if kind == 4:
            return chance.getrandbits(38)
        if kind == 5:
            return MASK - chance.getrandbits(38)
        if kind == 6:
            return chance.getrandbits(chance.pick((14, 22, 31)))
        if kind == 7:
            return chance.getrandbits(chance.pick((38, 38, 39, 64)))
        return chance.pick(((1 << 38) - 2, 1 << 38, MASK - 1, (1 << 30) - 2, (1 << 21) - 2))

    # Modes and traps.

    def set_vector(self):
        chance = self.chance
        for name in ("mtvec", "stvec") if chance.one_in(2) else ("mtvec",):
            self.first(*self.set_register(name, self.useful(name)))

    def delegate(self):
        for name in self.chance.pick((("medeleg",), ("mideleg",), ("medeleg", "mideleg"))):
            self.first(*self.set_register(name, self.useful(name)))
        self.first(*self.set_register("stvec", self.useful("stvec")))

    def enable_interrupts(self):
        chance = self.chance
        if self.hart.mode == S:
            steps = self.set_register("sie", MASK)
            self.first(*steps, *self.set_register("sip", chance.pick((0, 2))))
        else:
            self.first(*self.set_register("mie", chance.pick((MASK, 0xAAA, self.useful("mie")))))
            for name in ("mip", "mideleg"):
                if chance.one_in(2):
                    self.first(*self.set_register(name, self.useful(name)))
        bit, csr = chance.pick(((MIE, 0x300), (SIE, 0x100), (SIE, 0x300)))
        self.plan.append(lambda: encode("CSRRSI", 0, bit, imm=csr))

    def call(self):
        return encode(self.chance.pick(("ECALL", "ECALL", "EBREAK")))

    def lower(self):
        """Goes to S or U, or back."""
        chance, mode = self.chance, self.hart.mode
        if mode == U:
            return encode("ECALL")
        target = chance.pick((U, S, S)) if mode == M else U
        if mode == M and chance.random() < 0.93:
            self.open_protection(target)
        address = self.code_address(target != M)
        if mode == M and chance.one_in(4) and self.setting.choices.profile.pmp_entries:
            self.guard(address)
        self.plan += self.set_register("mepc" if mode == M else "sepc", address)
        if mode == M and chance.random() < 0.85:
            self.plan += self.set_register("mstatus", self.status(target))
            self.plan.append(lambda: encode("MRET"))
        else:
            self.plan += self.set_register("sstatus", self.status(target))
            self.plan.append(lambda: encode("SRET"))
        return None

    def back(self):
        """Leaves a handler of M, mostly for another address."""
        if self.chance.random() < 0.9:
            self.first(*self.set_register("mepc", self.code_address(True)), lambda: encode("MRET"))
            return None
        return encode("MRET")

    def open_protection(self, mode):
        """Lets S and U do everything that no other entry decides, where nothing lets them yet."""
        allows = ControlRegisters.allows
        if allows(self.hart.csrs, mode, self.hart.pc, 2, FETCH.right):
            return
        entries = range(self.setting.choices.profile.pmp_entries)
        number = self.chance.pick([at for at in (0, 3, 7, 8, 12, 15, 15) if at in entries])
        kind = NAPOT if self.chance.one_in(2) else TOR
        name = "pmpcfg0" if number < 8 else "pmpcfg2"
        rights = 7
        if self.setting.choices.marks == "set" and self.chance.one_in(6):
            rights = 5  # so that A and D may not be set
        others = self.hart.csrs.values[name] & ~(0xFF << 8 * (number % 8))
        self.plan += self.set_register(f"pmpaddr{number}", ALL_BYTES)
        self.plan += self.set_register(name, others | (kind << 3 | rights) << 8 * (number % 8))

    def count(self):
        """Lets S and U read counters, or not, and reads some."""
        chance = self.chance
        if self.hart.mode == M:
            self.first(*self.set_register("mcounteren", chance.pick((7, 7, chance.getrandbits(3)))))
        if self.hart.mode != U:
            self.first(*self.set_register("scounteren", chance.pick((7, 7, chance.getrandbits(3)))))
        for _ in range(3):
            csr = 0xC00 + chance.below(4)
            self.plan.append(lambda csr=csr: encode("CSRRS", self.scratch(), 0, imm=csr))

    def look(self):
        """Goes through some registers."""
        self.plan += [self.register] * 6

    # Protection.

    def configuration(self):
        """The configuration of one entry."""
        chance = self.chance
        if chance.one_in(3):
            return 0
        rights = chance.pick((0, 1, 3, 4, 5, 7, 7, 2))
        kind = chance.below(4) << 3
        locked = 0x80 if chance.one_in(4) else 0
        return rights | kind | locked | chance.pick((0, 0, 0, 0x60))

    def region_address(self):
        """A value for an address register of protection, mostly about where the hart works."""
        chance = self.chance
        if chance.one_in(6):
            return chance.pick((ALL_BYTES, MASK, chance.getrandbits(64)))
        near = chance.pick((self.hart.pc, self.ram.start, self.ram.stop, *self.hot)) & (1 << 56) - 1
        address = (near >> 2) + chance.pick((0, 0, 1, -1, 2, 4, 16, 64, -16))
        if chance.one_in(2):
            ones = chance.below(14)
            address = address >> ones << ones | (1 << ones) - 1 >> 1
        return address & ALL_BYTES

    def protect(self):
        """Writes some entries of protection, and looks at them."""
        chance = self.chance
        if self.hart.mode != M or not self.setting.choices.profile.pmp_entries:
            return self.register()
        number = chance.below(15)
        name = "pmpcfg0" if number < 8 else "pmpcfg2"
        for at in (number, number + 1):
            self.first(*self.set_register(f"pmpaddr{at}", self.region_address()))
        if chance.one_in(2):
            self.first(*self.set_register(name, self.useful(name)))
        else:
            own = (self.configuration() | chance.pick((TOR, NA4, NAPOT)) << 3) << 8 * (number % 8)
            self.first(*self.set_register(name, self.hart.csrs.values[name] | own))
        if chance.one_in(3):  # writes them again, which a lock may forbid
            self.plan += self.set_register(f"pmpaddr{number}", self.region_address())
            self.plan += self.set_register(name, self.useful(name))
        return None

    def guard(self, address):
        """Puts an entry about an address, before those that open everything."""
        chance = self.chance
        number, kind = chance.below(3), chance.pick((TOR, NA4, NAPOT))
        place = (address >> 2) + chance.below(6)
        if kind == NAPOT:
            ones = chance.below(4)
            place = place >> ones << ones | (1 << ones) - 1 >> 1
        elif kind == TOR and number:
            below = place - chance.pick((1, 2, 16))
            self.plan += self.set_register(f"pmpaddr{number - 1}", below & ALL_BYTES)
        entry = chance.pick((0, 1, 3, 4, 5, 7)) | kind << 3 | (0x80 if chance.one_in(2) else 0)
        at = 8 * number
        self.plan += self.set_register(f"pmpaddr{number}", place & ALL_BYTES)

        def configure():  # beside what the others are by then
            others = self.hart.csrs.values["pmpcfg0"] & ~(0xFF << at)
            self.first(*self.set_register("pmpcfg0", others | entry << at))

        self.plan.append(configure)

    # Translation.

    def root(self):
        chance = self.chance
        mode = SV39 if chance.random() < 0.9 else chance.below(16)
        space = chance.getrandbits(16) << 44
        return mode << SATP_MODE_AT | space | self.any_page() // PAGE & (1 << 44) - 1

    def translate(self):
        """Turns translation on and, in M, goes down."""
        if self.hart.mode == U:
            return encode("ECALL")
        self.first(*self.set_register("satp", self.root()))
        if self.hart.mode == M:
            self.plan.append(self.lower)
        return None

    def borrow(self):
        """Loads and stores of M as those of S or U."""
        chance = self.chance
        if self.hart.mode != M:
            return self.access()
        mode = chance.pick((U, S))
        if chance.random() < 0.9:
            self.open_protection(mode)
        if chance.random() < 0.8:
            self.plan += self.set_register("satp", self.root())
        self.plan += self.set_register("mstatus", self.status(mode) | MPRV)
        self.plan += [self.access] * 4
        return None

    # Code and reservations.

    def write_code(self):
        """Stores an instruction ahead, and goes there, mostly after a FENCE.I."""
        chance = self.chance
        register, base = 1 + chance.below(15), 16 + chance.below(16)
        name = chance.pick(("ADDI", "XORI", "SLTIU"))
        bits = encode(name, self.scratch(), self.scratch(), imm=chance.getrandbits(12))
        if chance.one_in(3):
            bits = encode_short("C.LI", imm=chance.getrandbits(6), d=self.scratch()) * 0x10001
        self.first(
            lambda: self.constant(register, bits),
            lambda: encode("AUIPC", base, imm=0),
            lambda: encode("SW", 0, base, register, 64),
        )
        if chance.random() < 0.8:
            self.plan[3:3] = [lambda: encode("FENCE.I"), lambda: encode("JAL", 0, imm=64 - 12)]
        else:
            self.plan[3:3] = [lambda: encode("JAL", 0, imm=64 - 8)]

    def reserve(self):
        """LR and SC, to one place or to two, with something between them or not."""
        chance = self.chance
        suffix = chance.pick("WD")
        length = 4 if suffix == "W" else 8
        address = self.address(length)
        if self.goes_anywhere():
            address -= address % length
        apart = [0, 0, 0, length, -length, 64, 4]
        if (block := self.setting.choices.block) != 64:
            apart += [block, block // 2, -block]
        other = address + chance.pick(apart) & MASK
        steps = [lambda: self.access_to(f"LR.{suffix}", address)] if chance.random() < 0.85 else []
        if chance.one_in(3):
            steps.append(self.another)
        for _ in range(chance.pick((1, 1, 2))):
            kind = chance.pick((suffix, suffix, "W", "D"))
            steps.append(lambda kind=kind: self.access_to(f"SC.{kind}", other))
        self.first(*steps)

    def go_to_edge(self):
        """Jumps to the last two bytes of a page, and puts an instruction of 32 bits there."""
        edge = self.hart.pc | 0xFFE
        if edge + 2 not in self.ram and not self.hart.translates(self.hart.mode):
            return None
        self.first(
            lambda: encode("JAL", 0, imm=edge - self.hart.pc),
            lambda: encode("ADDI", self.scratch(), self.scratch(), imm=self.chance.getrandbits(12)),
        )
        return None
