"""How a made program meets what its core's profile tells; a part of campaign.py."""
from campaign_code import encode
from campaign_goals import NUMBERS
from hart_instructions import ATOMIC, LOADS, MASK, STORES
from hart_profile import FS, LINES, PMP_ENTRIES, SEVERAL, VS, Profile
from hart_registers import M, S, U

SET_FORMS = ("CSRRW", "CSRRS", "CSRRC")
AMOS = [f"{name}.{suffix}" for name in ATOMIC for suffix in "WD"]
OTHER_ACCESSES = [*LOADS, *STORES, "LR.W", "LR.D", "SC.W", "SC.D"]
# the registers that show others, by these
SHOWN_BY = {"mstatus": ("sstatus",), "mie": ("sie",), "mideleg": ("sie", "sip")}


class Touches:
    """The steps of a maker that go to what a profile tells of."""

    def pick_touches(self):
        """How many of a program's steps go there: a share, 0 where all is as usual."""
        profile = self.setting.choices.profile
        self.told = list(groups_of(profile))
        return 0 if profile == Profile() else self.chance.pick((0.15, 0.3, 0.5))

    def begin_touching(self):
        """Puts some of these steps before what the program begins with."""
        count = 1 + self.chance.below(5)
        self.plan[:0] = [self.touch] * count
        self.rows += 2 * count

    def touch(self):
        """One of these steps."""
        profile, kinds = self.setting.choices.profile, [self.touch_register]
        if self.devices:
            kinds.append(self.touch_device)
        if profile.lines != LINES:
            kinds.append(self.touch_lines)
        if not {"mcounteren", "scounteren", "hpmcounter", "cycle", "instret"}.isdisjoint(profile.csrs):
            kinds.append(self.touch_counters)
        return self.chance.pick(kinds)()

    def touch_register(self):
        """Writes a register that is told of, and reads it, or reads it alone."""
        chance, mode = self.chance, self.hart.mode
        here = [names for names in self.told if NUMBERS[names[0]] >> 8 & 3 <= mode or chance.one_in(30)]
        if not here:
            return None
        name = chance.pick(chance.pick(here))
        if name in ("medeleg", "mideleg") and chance.one_in(3):
            return self.delegate()
        csr, register = NUMBERS[name], self.scratch()
        read = self.read(csr)
        if csr >> 10 == 3 or chance.one_in(3):
            return read()
        form, rd, value = chance.pick(SET_FORMS), chance.pick((0, self.scratch())), self.told_value(name)
        self.first(
            lambda: self.constant(register, value), lambda: encode(form, rd, register, imm=csr), read)
        return None

    def read(self, csr):
        """A step that reads a register."""
        rd = self.scratch()
        return lambda: encode("CSRRS", rd, 0, imm=csr)

    def told_value(self, name):
        """A value for a register that is told of."""
        chance = self.chance
        if name in ("mtvec", "stvec", "satp") or (name in self.CONTROLS and chance.one_in(2)):
            value = self.useful(name)
        else:
            value = chance.pick((MASK, chance.getrandbits(64), chance.getrandbits(32), 0))
        if name in ("mstatus", "sstatus"):
            value |= chance.pick((0, FS, VS, FS | VS, chance.getrandbits(15) & (FS | VS)))
        return value

    def touch_device(self):
        """An access at a device, often an AMO."""
        name = self.chance.pick(AMOS if self.chance.one_in(2) else OTHER_ACCESSES)
        if self.is_translated():
            return self.access_to(name, None)
        length, devices = self.length_of(name), self.one_device()
        address = devices.start + self.chance.below(len(devices))
        return self.access_to(name, address - address % length)

    def touch_lines(self):
        """Reads or writes the lines that are told of, or lets them be taken."""
        chance, mode = self.chance, self.hart.mode
        if mode == U or chance.one_in(3):
            return self.enable_interrupts() if mode != U else None
        csr, register = NUMBERS["mip" if mode == M and not chance.one_in(3) else "sip"], self.scratch()
        if chance.one_in(2):
            return self.read(csr)()
        form, rd, value = chance.pick(SET_FORMS), chance.pick((0, self.scratch())), chance.pick((MASK, 0x22, 2, 0))
        self.first(
            lambda: self.constant(register, value), lambda: encode(form, rd, register, imm=csr), self.read(csr))
        return None

    def touch_counters(self):
        """Lets S and U read any counters, and reads some."""
        chance, mode = self.chance, self.hart.mode
        for name, least in (("mcounteren", M), ("scounteren", S)):
            if mode >= least:
                value = chance.pick((MASK, MASK, chance.getrandbits(32)))
                self.first(*self.set_register(name, value))
        self.plan.append(self.read_below if mode > U and chance.one_in(2) else self.read_counters)

    def read_counters(self):
        """Reads some counters."""
        self.first(*(self.read(0xC00 + self.chance.pick((0, 2, self.chance.below(32)))) for _ in range(3)))

    def read_below(self):
        """Goes down, and reads some there."""
        bits = self.lower()
        self.plan.append(self.read_counters)
        return bits


def groups_of(profile):
    """The registers that a profile tells of, and those that show them: of each kind those that have its bits."""
    for name in profile.csrs:
        yield SEVERAL.get(name, (name,))
        yield from ((shown,) for shown in SHOWN_BY.get(name, ()))
    if profile.pmp_entries < PMP_ENTRIES:
        yield "pmpcfg0", "pmpcfg2"
        yield "pmpaddr7", "pmpaddr8", "pmpaddr15"
    if profile.pmp_bits != Profile().pmp_bits:
        yield "pmpaddr0", "pmpaddr6", "pmpaddr14"
