#!/usr/bin/env python3
"""Runs the kernel in kernel/ in qemu and in reference_hart.py, and compares row by row.

    kernel_qemu.py [IMAGE] [CHOICES]

The image is kernel/kernel.hex, or the one given. CHOICES are those options of judge.py that say what a core
chose; kernel/choices.hex needs what qemu does, --misaligned done --ad set.

Prints how many rows agree, or the first that differs, with all that differs in it; the status is then 1. qemu
runs one instruction at a time under -icount shift=0 and writes a log, of which nothing is kept.

Of each row that qemu begins to carry out: the address, the instruction's bits, the mode, x1 to x31 and the
registers CSRS before it, an interrupt's entry included; of each trap and interrupt: cause, address and trap
value; besides, what the UART was sent. A row's rd is seen in x1 to x31 of the next.
"""
import argparse
import os
import subprocess
import sys
import tempfile
from itertools import islice
from pathlib import Path
from typing import NamedTuple

from hart_memory import PAGE, RAM
from judge import add_choices, choices_of
from run_kernel import make_hart, run

HERE = Path(__file__).parent
CSRS = (
    "mstatus", "mip", "mie", "mideleg", "medeleg", "mtvec", "stvec", "mepc", "sepc", "mcause", "scause", "mtval",
    "stval", "mscratch", "sscratch", "satp",
)
EXTENSIONS_OFF = ("f", "d", "h", "sstc", "zba", "zbb", "zbc", "zbs")
DEVICE_TREE_ROOM = 16 << 20  # at the end of RAM, where qemu puts a device tree
EMPTY = bytes(PAGE)
STATE_LINES = 26  # of the registers after the line of a row


class Trap(NamedTuple):
    """A trap or interrupt in the log."""

    interrupt: bool
    cause: int
    pc: int
    value: int


class State(NamedTuple):
    """A row in the log: before it is carried out."""

    pc: int
    mode: int
    bits: int | None
    registers: list
    csrs: dict


class Log:
    """What qemu's log tells, as rows and traps in order."""

    def __init__(self, lines):
        self.lines = lines
        self.words = {}  # the bits of a translated instruction, by the place of its translation
        self.latest = ()  # those of the last translation, while it is not known where it went

    def events(self):
        """The traps and states; a state is held back until it is known that its row was carried out."""
        held = None
        for line in self.lines:
            if line.startswith("Trace "):
                if held:
                    yield held
                held = self.state(line)
            elif line.startswith("0x"):
                self.latest = (shown_bits(line),)
            elif line.startswith("riscv_cpu_do_interrupt"):
                if held:
                    yield held
                held = None
                yield trap(line)
            elif line.startswith(("Stopped execution", "cpu_io_recompile")):
                held = None  # it begins anew later
        if held:
            yield held

    def state(self, line):
        """The row of a line with the place and flags of a translation, and of the state after it."""
        _, _, place, flags, *_ = line.split()
        if self.latest:
            (self.words[place],), self.latest = self.latest, ()
        _, _, flags, _ = flags.split("/")
        fields = " ".join(islice(self.lines, STATE_LINES)).split()
        values = {name: int(value, 16) for name, value in zip(fields[::2], fields[1::2], strict=True)}
        registers = [value for name, value in values.items() if "/" in name]
        return State(values["pc"], int(flags, 16) & 3, self.words[place], registers, values)


def shown_bits(line):
    """The bits in the line of a translation; None where they lie in a page that can be executed alone."""
    _, shown, *_ = line.split()
    return None if shown == "Address" else int(shown, 16)


def trap(line):
    """The trap of a line of the log."""
    fields = dict(part.strip().split(":", 1) for part in line.split(",") if ":" in part)
    return Trap(fields["async"] == "1", *(int(fields[name], 16) for name in ("cause", "epc", "tval")))


def differences(pairs):
    """Those that are not equal, of what has a name, an expected value and a found one."""
    return [f"{name} here 0x{ours:x} qemu 0x{theirs:x}" for name, ours, theirs in pairs if ours != theirs]


class Comparison:
    """The rows that agreed, those among them whose bits qemu does not show, and what differs in the next."""

    def __init__(self, events):
        self.events = events
        self.rows = 0
        self.without_bits = 0
        self.difference = None

    def compare(self, rows):
        for row in rows:
            found = self.compare_row(row)
            if found:
                place = f"row {self.rows + 1}, pc 0x{row.retired.pc:x}, {row.retired.instruction}"
                self.difference = f"{place}: {'; '.join(found)}"
                return
            self.rows += 1

    def compare_row(self, row):
        """What differs in a row; takes qemu's events for it."""
        found, retired = [], row.retired
        if row.interrupt is not None:
            found += self.compare_trap(True, row.interrupt, ())
        if retired.bits is not None:
            found += self.compare_state(row)
        if retired.trap:
            address_and_value = (("pc", retired.pc), ("trap value", retired.trap.value))
            found += self.compare_trap(False, retired.trap.cause, address_and_value)
        return found

    def compare_state(self, row):
        """What differs before a row is carried out."""
        state = next(self.events, None)
        if not isinstance(state, State):
            return [f"a row here, qemu {state}"]
        pairs = [("pc", row.retired.pc, state.pc), ("mode", row.mode, state.mode)]
        if state.bits is None:
            self.without_bits += 1
        else:
            pairs.append(("insn", row.retired.bits, state.bits))
        pairs += [(f"x{n}", ours, theirs) for n, (ours, theirs) in enumerate(zip(row.registers, state.registers))]
        pairs += [(name, row.before[name], state.csrs[name]) for name in CSRS]
        return differences(pairs)

    def compare_trap(self, interrupt, cause, others):
        """What differs between a trap here and qemu's; of an interrupt the registers tell all but the cause."""
        event = next(self.events, None)
        if not isinstance(event, Trap) or event.interrupt != interrupt:
            return [f"{'interrupt' if interrupt else 'exception'} {cause} here, qemu {event}"]
        theirs = {"pc": event.pc, "trap value": event.value}
        pairs = [("cause", cause, event.cause), *((name, ours, theirs[name]) for name, ours in others)]
        return differences(pairs)


def write_memory(memory, path):
    """Writes the pages of memory to a file that stands for RAM."""
    with open(path, "wb") as ram:
        ram.truncate(len(RAM))
        for number, page in memory.pages.items():
            ram.seek(number * PAGE - RAM.start)
            ram.write(page)


def compare_ends(hart, folder):
    """What differs at the end, in what the UART was sent or in memory."""
    sent = (folder / "uart").read_bytes()
    if sent != hart.core.sent:
        return f"the UART was sent {bytes(hart.core.sent)} here, {sent} in qemu"
    with open(folder / "ram", "rb") as ram:
        for number in range(RAM.start // PAGE, (RAM.stop - DEVICE_TREE_ROOM) // PAGE):
            if hart.memory.pages.get(number, EMPTY) != ram.read(PAGE):
                return f"the memory of page 0x{number * PAGE:x} differs at the end"
    return None


def qemu_command(folder, log):
    return [
        "qemu-system-riscv64", "-M", "virt,memory-backend=ram", "-m", f"{len(RAM) >> 20}M",
        "-object", f"memory-backend-file,id=ram,size={len(RAM)},share=on,mem-path={folder / 'ram'}",
        "-cpu", ",".join(["rv64", *(f"{name}=off" for name in EXTENSIONS_OFF)]),
        "-bios", "none", "-device", f"loader,addr=0x{RAM.start:x},cpu-num=0",
        "-display", "none", "-monitor", "none", "-serial", f"file:{folder / 'uart'}",
        "-icount", "shift=0,sleep=off", "-singlestep", "-d", "exec,cpu,int,in_asm,nochain", "-D", log,
    ]


def compare_runs(hart, folder):
    """The comparison of a run here and in qemu, which keeps its files in the folder."""
    write_memory(hart.memory, folder / "ram")
    reader, writer = os.pipe()
    with subprocess.Popen(qemu_command(folder, f"/dev/fd/{writer}"), pass_fds=(writer,)) as qemu:
        os.close(writer)
        with open(reader, encoding="ascii") as text:
            comparison = Comparison(Log(text).events())
            comparison.compare(run(hart, CSRS))
        qemu.kill()
    if comparison.difference is None:
        comparison.difference = compare_ends(hart, folder)
    return comparison


def main():
    parser = argparse.ArgumentParser(
        description=__doc__, formatter_class=argparse.RawDescriptionHelpFormatter, allow_abbrev=False
    )
    parser.add_argument("image", nargs="?", default=HERE / "kernel" / "kernel.hex")
    add_choices(parser)
    options = parser.parse_args()
    with tempfile.TemporaryDirectory() as name:
        comparison = compare_runs(make_hart(options.image, choices_of(options)), Path(name))
    if comparison.difference:
        print(comparison.difference)
        return 1
    print(f"{comparison.rows} rows agree with qemu, {comparison.without_bits} of them without the instruction's bits")
    return 0


if __name__ == "__main__":
    sys.exit(main())
