"""A hart's run through a program that is made up on the way; a part of campaign.py."""
from collections import Counter

from campaign_hart import MODES, MadeCore, MadeHart, count_row, manipulation_of
from campaign_profile import count_profile
from campaign_rows import Row
from hart_instructions import MASK
from hart_profile import MORE_LINES, Profile
from hart_registers import M
from judge import CSR_DATA


class Run:
    """A hart's run, and the rows that it shows; beside another one it has its memory and rows."""

    def __init__(self, chance, setting, columns, reached, maker, beside=None):
        self.chance, self.reached = chance, reached
        self.columns = dict.fromkeys(columns)
        self.maker, self.count = maker, maker.rows
        self.profile = setting.choices.profile
        is_told = isinstance(setting.choices.trap_values, frozenset)
        self.has_profile = is_told or self.profile != Profile()
        self.core = MadeCore(chance, set(columns), self.profile.lines)
        memory = beside.hart.memory if beside else None
        self.hart = maker.hart = MadeHart(maker, self.core, setting, reached, memory)
        self.names = [name for name, *data in CSR_DATA if not self.columns.keys().isdisjoint(data)]
        self.order = chance.pick((0, 1, MASK - 3, chance.getrandbits(64)))
        self.share = chance.pick((0, 0, 0.05, 0.3))  # of fields that are left empty
        self.trapped_last = False
        self.start = None  # the state that it begins from, where that is not the one after reset
        self.reserved = None  # the place of the last LR, while its block is reserved
        self.rows, self.pcs, self.history = [], [], []
        if beside:
            self.rows, self.pcs, self.history = beside.rows, beside.pcs, beside.history
        self.first_bits = None  # number and row of the first instruction of bit manipulation

    def make(self):
        """Its rows, fewer where the hart comes to the same place again and again."""
        visits = Counter()
        while len(self.rows) < self.count and visits[self.hart.pc] < 4:
            visits[self.hart.pc] += 1
            self.step()
            self.skip()
        if self.chance.one_in(8):
            self.rows[-1]["halt"] = 1

    def skip(self):
        """Adds a row that is not valid, now and then."""
        if "valid" in self.columns and self.chance.one_in(16):
            row = Row(self.chance, self.columns, self.profile)
            row.invalid()
            self.rows.append(row.fields)
            self.history.append(None)
            self.reached["form", "row not valid"] += 1

    def enters(self):
        """Enters an interrupt, where one is pending and the row can show it; whether it did."""
        hart, mode = self.hart, self.hart.mode
        lines = self.core.level if self.core.shows_lines else 0
        code = hart.csrs.pending(mode, lines)
        if code is None or "intr" not in self.columns or self.chance.one_in(2):
            return False
        kept = hart.csrs.copy()
        pc, values = hart.pc, hart.csrs.values
        hart.take_interrupt(code)
        if self.trapped_last and hart.pc == pc:  # a row could not tell it from the trap's handler
            hart.csrs.values, hart.pc, hart.mode = kept.values, pc, mode
            return False
        vector = values["mtvec" if hart.mode == M else "stvec"]
        way = "vectored" if vector & 1 else "direct"
        self.reached["interrupt", f"{code} to {MODES[hart.mode]}, {way}"] += 1
        self.reached["interrupt", f"from {MODES[mode]}"] += 1
        if lines & MORE_LINES & 1 << code:
            self.reached["profile", f"interrupt {code} by a line"] += 1
        return True

    def step(self):
        """One row; what its step did."""
        hart, core = self.hart, self.core
        core.begin()
        entered = self.enters()
        lines = core.level if core.shows_lines else 0
        mode, registers = hart.mode, list(hart.registers)
        before = {name: hart.csrs.read(name, lines) for name in self.names}
        reserved = self.reserved if hart.reserved is not None else None
        retired = hart.step()
        after = {name: hart.csrs.read(name, lines) for name in self.names}
        count_row(self.reached, hart, mode, retired, reserved)
        if retired.access and retired.instruction.name.startswith("LR"):
            self.reserved = retired.access.place
        self.pcs.append(retired.pc)
        row = Row(self.chance, self.columns, self.profile)
        row.head(retired, self.order, mode, entered, self.trapped_last)
        row.registers(retired, registers)
        shows_address = "mem_addr" in self.columns and (core.asked or not self.chance.one_in(10))
        row.memory(retired, shows_address)
        row.csrs(before, after, self.profile.lines if entered or core.needs_lines else 0)
        if self.share and not core.asked and not entered:
            row.hide(self.share)
            self.reached["form", "empty fields"] += 1
        if self.has_profile:
            count_profile(self.reached, hart, mode, retired, row.fields)
        self.order = self.order + 1 & MASK
        self.trapped_last = retired.trap is not None
        self.rows.append(row.fields)
        self.history.append((self.core.number or 0, retired))
        if self.first_bits is None and manipulation_of(retired):
            self.first_bits = len(self.rows), row.fields
        return retired

    def turned_bits(self):
        """The line that is due where the options turn bit manipulation on or off, if its first row
        shows trap."""
        if self.first_bits is None or "trap" not in self.columns:
            return None
        number, fields = self.first_bits
        trap = fields["trap"]
        if trap is None:
            return None
        return f"differs row {number}: trap expected 0x{1 - trap:016x} found 0x{trap:016x}"
