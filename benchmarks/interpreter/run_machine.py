#!/usr/bin/env python3
"""Runs the program in machine/ and writes the trace of its run: run_machine.py IMAGE TRACE.

Prints the number of valid rows. The status is not 0 where the program found something wrong itself.

The core that is played here decides what the standards leave to it by a fixed noise: when interrupt lines
rise in a storm, after how many rows a pending interrupt is taken, whether an SC stores, what counters and
devices give. The trace shows what a core may show: masks of every kind, garbage outside of them and wherever
nothing is compared, fields that are not shown, rows that are not valid.
"""
import sys
from random import Random

from hart_instructions import MASK
from hart_memory import Memory, read_image
from hart_profile import LINES, Profile
from judge import CALLS, CSRS, PLAIN, WIDTHS
from reference_hart import BREAKPOINT, Core, Hart

DEVICES = range(0x10000000, 0x10001000)
LINES_AT, TIMER_AT, STORM_AT, FINISH_AT = 0, 8, 16, 24
MTIP = 1 << 7
MOST_ROWS = 200_000
FIRST_ORDER = (1 << 64) - 1000  # so that the index passes 2^64
IDENTITY = {"mvendorid": 0x5EA, "marchid": 0x8000000000000123, "mimpid": 0x20240101, "mhartid": 0, "mconfigptr": 0}


class Noise:
    """Bits that look like chance and are the same in every run."""

    def __init__(self, seed):
        self.bits = Random(seed).getrandbits

    def one_in(self, power):
        """Whether one of 2^power cases has come."""
        return self.bits(power) == 0


class PlayedCore(Core):
    """The devices and the choices of a core; asked tells whether the row at hand rests on a choice."""

    def __init__(self):
        self.noise = Noise(1)
        self.row = 0
        self.asked = False
        self.level = 0  # of the lines that the program sets
        self.timer = None  # the row from which MTIP is up
        self.storm = False
        self.storm_lines = 0
        self.finished = None

    def begin(self, row):
        """Moves on to a row, and in a storm now and then to other lines."""
        self.row, self.asked = row, False
        if not self.storm:
            self.storm_lines = 0
        elif self.noise.one_in(4):
            self.storm_lines = self.noise.bits(12) & LINES if self.noise.one_in(2) else 0

    def up(self):
        """The lines that are up at this row."""
        return self.level | self.storm_lines | (MTIP if self.timer is not None and self.row >= self.timer else 0)

    def takes(self):
        """Whether an interrupt that is pending is taken now and not later."""
        return self.noise.one_in(1)

    def stores(self, instruction):
        self.asked = True
        return not self.noise.one_in(2)

    def decided(self, name, instruction):
        self.asked = True
        match name:
            case "cycle" | "mcycle" | "time":
                return 3 * self.row + self.noise.bits(1)
            case "instret" | "minstret":
                return self.row
            case "mvendorid" | "marchid" | "mimpid" | "mhartid" | "mconfigptr":
                return IDENTITY[name]
        return self.noise.bits(64)

    def lines(self, instruction):
        self.asked = True
        return self.up()

    def refuses(self, instruction):
        self.asked = True
        return self.noise.one_in(1)

    def device_load(self, address, place, length):
        self.asked = True
        if place == DEVICES.start + LINES_AT:
            return self.level & ((1 << 8 * length) - 1)
        return self.noise.bits(8 * length)

    def device_store(self, place, length, value):
        at = place - DEVICES.start
        if at == LINES_AT:
            self.level, self.timer = value & LINES, None
        elif at == TIMER_AT:
            self.timer = self.row + value
        elif at == STORM_AT:
            self.storm = value != 0
        elif at == FINISH_AT:
            self.finished = value


class Show:
    """Writes down one row as a core may show it."""

    def __init__(self, noise):
        self.noise = noise
        self.fields = {}
        self.place = None  # of the access, whatever mem_addr shows

    def garbage(self, column):
        """Anything that fits the column, and often 0."""
        return self.noise.bits(WIDTHS[column]) if self.noise.one_in(1) else 0

    def free(self, *columns):
        for column in columns:
            self.fields[column] = self.garbage(column)

    def masked(self, column, value, mask):
        """A value that counts under a mask alone."""
        self.fields[column] = value & mask | self.garbage(column) & ~mask

    def head(self, retired, order, mode, entered, trapped_last):
        trap = retired.trap
        any_call = trap and (trap.cause == BREAKPOINT or trap.cause in CALLS)
        first_of_handler = trapped_last and self.noise.one_in(1)
        self.fields |= {
            "valid": 1, "order": order, "intr": int(entered or first_of_handler), "pc_rdata": retired.pc,
            "mode": mode, "ixl": 2, "halt": 0,
            "trap": self.noise.bits(1) if any_call else int(trap is not None),
        }
        if retired.bits is None:
            self.free("insn")
        else:
            self.fields["insn"] = retired.bits

    def registers(self, retired, registers):
        """From rs1_addr to pc_wdata, with the registers before the instruction."""
        if retired.trap:
            self.free("rs1_addr", "rs1_rdata", "rs2_addr", "rs2_rdata", "rd_addr", "rd_wdata", "pc_wdata")
            return
        instruction = retired.instruction
        for source, read in (("rs1", instruction.rs1), ("rs2", instruction.rs2)):
            named = read or self.garbage(f"{source}_addr")
            self.fields |= {f"{source}_addr": named, f"{source}_rdata": registers[named]}
        self.fields |= {"rd_addr": instruction.rd, "rd_wdata": retired.value, "pc_wdata": retired.next_pc}

    def memory(self, retired):
        access = retired.access
        self.free("mem_addr", "mem_rmask", "mem_rdata", "mem_wmask", "mem_wdata", "mem_paddr")
        if access is None:
            if not retired.trap:
                self.fields["mem_wmask"] = 0
            return
        self.place = access.place
        # A core shows the access's own address, that of its doubleword, or another one not far before.
        any_of_them = self.noise.bits(8) % (9 - access.length)
        offset = (0, 0, access.address % 8, any_of_them)[self.noise.bits(2)]
        shown, shown_place = access.address - offset & MASK, access.place - offset & MASK
        touched, places = (1 << access.length) - 1 << offset, (1 << 8 * access.length) - 1 << 8 * offset
        self.fields |= {"mem_addr": shown, "mem_paddr": shown_place, "mem_wmask": 0}
        if access.read is not None:
            self.fields["mem_rmask"] |= touched
            self.masked("mem_rdata", access.read << 8 * offset, places)
        if access.written is not None:
            self.fields["mem_wmask"] = touched
            self.masked("mem_wdata", access.written << 8 * offset, places)

    def csr(self, name, part, value, needed, untold):
        """One value of a register, with at least the needed bits shown; those that are not told may be anything."""
        column, mask_column = f"csr_{name}_{part}data", f"csr_{name}_{part}mask"
        mask = (MASK, MASK, 0, self.noise.bits(64) & self.noise.bits(64))[self.noise.bits(2)] | needed
        self.masked(column, value, mask & ~untold)
        self.fields[mask_column] = mask
        if mask == MASK and self.noise.one_in(3):
            self.fields[mask_column] = None
        elif not needed and self.noise.one_in(4):
            self.fields[column] = None
        return mask if self.fields[column] is not None else 0

    def csrs(self, before, after, entered):
        shown_lines = self.csr("mip", "r", before["mip"], LINES if entered else 0, 0) & LINES
        for name in CSRS:
            if name != "mip":
                untold = 1 << 9 & ~shown_lines if name == "sip" else 0
                self.csr(name, "r", before[name], 0, untold)
            self.csr(name, "w", after[name], 0, Profile().untold_after.get(name, 0))

    def hide(self, *kept):
        """Leaves out some plain fields, never one of those that are kept."""
        if self.noise.one_in(2):
            for column in PLAIN:
                if column not in kept and self.noise.one_in(3):
                    self.fields[column] = None
            if self.fields["mem_addr"] is None and self.place is not None:  # which says where mem_paddr begins
                self.fields["mem_paddr"] = self.place

    def line(self, **others):
        """The row's line, where some fields are others."""
        fields = self.fields | others
        shown = (fields[column] for column in WIDTHS)
        return ",".join("" if value is None else f"0x{value:x}" for value in shown) + "\n"


def csr_values(hart, lines):
    return {name: hart.csrs.read(name, lines) for name in CSRS}


def next_row(hart, row, trapped_last, noise):
    """Steps the hart; whether the row trapped, and what it shows."""
    core = hart.core
    core.begin(row)
    lines = core.up()
    code = hart.csrs.pending(hart.mode, lines)
    entered = code is not None and core.takes()
    if entered:
        hart.take_interrupt(code)
    mode, registers, before = hart.mode, list(hart.registers), csr_values(hart, lines)
    retired = hart.step()
    show = Show(noise)
    show.head(retired, FIRST_ORDER + row & MASK, mode, entered, trapped_last)
    show.registers(retired, registers)
    show.memory(retired)
    show.csrs(before, csr_values(hart, lines), entered)
    if not core.asked:
        show.hide("insn", "pc_rdata", "intr")
    if core.finished is not None:
        show.fields["halt"] = 1
    return retired.trap is not None, show


def main():
    image, trace = sys.argv[1:]
    hart = Hart(Memory(read_image(image)), PlayedCore(), DEVICES)
    trapped_last, noise = False, Noise(2)
    with open(trace, "w", encoding="ascii") as text:
        text.write(",".join(f"rvfi_{column}" for column in WIDTHS) + "\n")
        for row in range(MOST_ROWS):
            trapped_last, show = next_row(hart, row, trapped_last, noise)
            if row % 61 == 60:  # a row that is not valid, and looks like the next
                text.write(show.line(valid=0))
            text.write(show.line())
            if hart.core.finished is not None:
                break
    if hart.core.finished != 1:
        sys.exit(f"row {row}, pc 0x{hart.pc:x}: part {hart.core.finished} failed")
    print(row + 1)


if __name__ == "__main__":
    main()
