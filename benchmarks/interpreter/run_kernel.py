#!/usr/bin/env python3
"""Runs the kernel in kernel/ and writes the trace of its run: run_kernel.py IMAGE TRACE [CHOICES].

Prints the number of rows. The status is not 0 where the kernel found something wrong itself. CHOICES are those
options of judge.py that say what a core chose; kernel/choices.hex needs --misaligned done --ad set.

The core that is played here has three devices of qemu's virt machine, as far as the kernel uses them: the
timer of the CLINT, a UART, and the finisher that ends the run. Time passes as in qemu under -icount shift=0:
each instruction takes a nanosecond, and mtime counts tenths of microseconds.
"""
import argparse
import sys
from typing import NamedTuple

from hart_choices import Choices
from hart_memory import Memory, read_image
from judge import CALLS, add_choices, choices_of
from reference_hart import BREAKPOINT, Core, Hart, Retired

DEVICES = range(0x00100000, 0x10001000)
FINISHER, TIMECMP, TIME, UART_DATA, UART_STATUS = 0x00100000, 0x02004000, 0x0200BFF8, 0x10000000, 0x10000005
PASSED = 0x5555
CAN_SEND = 0x60
MTIP = 1 << 7
TICK = 100  # nanoseconds

# the registers whose values before and after are shown on every row, and those on rows that change them
CSRS = (
    "mstatus", "mie", "mscratch", "mepc", "mcause", "mtval", "mip", "satp", "sstatus", "sip", "sscratch", "sepc",
    "scause", "stval",
)
SELDOM = ("medeleg", "mideleg", "mtvec", "sie", "stvec", "pmpcfg0")
COLUMNS = (
    "order", "insn", "trap", "intr", "mode", "ixl", "pc_rdata", "pc_wdata", "rs1_addr", "rs1_rdata", "rs2_addr",
    "rs2_rdata", "rd_addr", "rd_wdata", "mem_addr", "mem_rmask", "mem_rdata", "mem_wmask", "mem_wdata", "mem_paddr",
)


class KernelCore(Core):
    """The devices, and time."""

    def __init__(self):
        self.now = 0  # in nanoseconds, before the row
        self.due = 0  # when MTIP rises; it is up while TIMECMP is not written
        self.sent = bytearray()
        self.finished = None

    def ticks(self):
        """mtime as the instruction at hand sees it, which has taken its time already."""
        return (self.now + 1) // TICK

    def up(self):
        """The lines that are up before the row."""
        return MTIP if self.now >= self.due else 0

    def lines(self, instruction):
        return self.up()

    def decided(self, name, instruction):
        return self.ticks() if name == "time" else 0

    def device_load(self, address, place, length):
        return CAN_SEND if place == UART_STATUS else self.ticks() if place == TIME else 0

    def device_store(self, place, length, value):
        match place:
            case _ if place == TIMECMP:
                self.due = self.now + 1 + TICK * max(value - self.ticks(), 0)
            case _ if place == UART_DATA:
                self.sent.append(value)
            case _ if place == FINISHER:
                self.finished = value

    def pass_time(self, retired, hart):
        """Lets the time of a row pass, and that of a wait up to the timer's line."""
        if takes_time(retired):
            self.now += 1
        if retired.instruction and retired.instruction.name == "WFI" and not retired.trap:
            if not hart.csrs.values["mie"] & hart.csrs.read("mip", self.up()):
                self.now = self.due


def takes_time(retired):
    """Whether qemu counts a row: it does not where the fetch or the execution of a known instruction fails."""
    trap = retired.trap
    if trap is None or trap.cause == BREAKPOINT or trap.cause in CALLS:
        return True
    return retired.bits is not None and retired.instruction is None


class Row(NamedTuple):
    """A row: the hart's state before it, what it did, and the registers after it."""

    interrupt: int | None  # the code of the one that is entered before it
    mode: int
    registers: list
    before: dict
    retired: Retired
    after: dict


def csr_values(hart, names):
    return {name: hart.csrs.read(name, hart.core.up()) for name in names}


def run(hart, names):
    """The rows of a run, up to the one that ends it, with the values of these control and status registers."""
    core = hart.core
    while core.finished is None:
        code = hart.csrs.pending(hart.mode, core.up())
        if code is not None:
            hart.take_interrupt(code)
        mode, registers, before = hart.mode, list(hart.registers), csr_values(hart, names)
        retired = hart.step()
        after = csr_values(hart, names)
        core.pass_time(retired, hart)
        yield Row(code, mode, registers, before, retired, after)


def register_fields(retired):
    """The fields from pc_wdata to rd_wdata; empty where the row traps or no source is read."""
    if retired.trap:
        return [None] * 7
    instruction, fields = retired.instruction, [retired.next_pc]
    for read, value in ((instruction.rs1, retired.source1), (instruction.rs2, retired.source2)):
        fields += [read, None if read is None else value]
    return [*fields, instruction.rd, retired.value]


def memory_fields(retired):
    """The fields from mem_addr to mem_paddr; empty where there is nothing to show, but for the mask of a write."""
    access = retired.access
    if access is None:
        return [None, None, None, None if retired.trap else 0, None, None]
    mask = (1 << access.length) - 1
    read = (None, None) if access.read is None else (mask, access.read)
    written = (0, None) if access.written is None else (mask, access.written)
    return [access.address, *read, *written, access.place]


def trace_line(order, row):
    """The line of one row."""
    retired = row.retired
    trapped, entered = retired.trap is not None, row.interrupt is not None
    fields = [order, retired.bits or 0, int(trapped), int(entered), row.mode, 2, retired.pc]
    fields += register_fields(retired) + memory_fields(retired)
    for name in CSRS + SELDOM:
        values = [row.before[name], row.after[name]]
        fields += [None, None] if name in SELDOM and values[0] == values[1] else values
    return ",".join("" if field is None else f"0x{field:x}" for field in fields) + "\n"


def make_hart(image, choices=Choices()):
    """The hart before its first row, with this image in memory."""
    return Hart(Memory(read_image(image)), KernelCore(), DEVICES, choices=choices)


def main():
    parser = argparse.ArgumentParser(
        description=__doc__, formatter_class=argparse.RawDescriptionHelpFormatter, allow_abbrev=False
    )
    parser.add_argument("image")
    parser.add_argument("trace")
    add_choices(parser)
    options = parser.parse_args()
    hart = make_hart(options.image, choices_of(options))
    with open(options.trace, "w", encoding="ascii") as text:
        names = [*COLUMNS, *(f"csr_{name}_{part}" for name in CSRS + SELDOM for part in ("rdata", "wdata"))]
        text.write(",".join(f"rvfi_{name}" for name in names) + "\n")
        for order, row in enumerate(run(hart, CSRS + SELDOM)):
            text.write(trace_line(order, row))
    if hart.core.finished != PASSED:
        sys.exit(hart.core.sent.decode("ascii") + f"the kernel found something wrong: 0x{hart.core.finished:x}")
    print(order + 1)


if __name__ == "__main__":
    main()
