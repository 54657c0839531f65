#!/usr/bin/env python3
"""Turns the log of qemu-system-riscv64 into a trace that rvjudge judges.

    qemu-system-riscv64 -M virt \\
        -cpu rv64,f=off,d=off,h=off,sstc=off,zba=off,zbb=off,zbc=off,zbs=off \\
        -bios none -device loader,file=program.elf,cpu-num=0 -display none -monitor none \\
        -serial null -singlestep -d in_asm,cpu,exec,int,nochain -D run.log
    qemu_log.py run.log -o run.csv

The log must have in_asm (or --image), cpu and nochain, and one instruction in each block
(-singlestep; later versions: -accel tcg,one-insn-per-tb=on). int tells traps and interrupts: without
it a program that takes interrupts differs, and so does one that cannot be fetched somewhere. exec
tells apart what stands at one address in several address spaces. qemu 7.2 lists a word whose seven low
bits are 1, as 0xffffffff or 0x7f, without end: the trace ends there; the whole run needs exec without
in_asm, and --image. What M carries out where MPRV of mstatus has loads translated it lists as loads
find it: the instruction is then that which was listed there before, or that of --image. Without LOG,
or with - for it, standard input is read. A row is written for each instruction that was carried out
or trapped, from the first at --pc on; what the log does not show stays an empty field. Memory use
grows with the program's code, and not with the log.

The address, the masks and the data of an access follow from the instruction, the registers before
it and those after it. What a load or an AMO to x0 found is not known, nor whether an SC to x0
stored. trap is shown from the log's first trap or interrupt on.

qemu carries out loads and stores at any address. One over the end of a page is shown as all others,
from its first byte on, as if its bytes lay side by side. qemu sets A and D of page tables. Where a run
has such accesses, or translates, the last lines on standard error name --profile qemu, by which the
judge does as qemu; --choices names it in any case. --bits on is named where instructions of Zba,
Zbb or Zbs were carried out, as qemu does with zba=on, zbb=on, zbs=on. Where registers are not as at
reset before the first row, as a boot ROM leaves them, the commands are named by which the judge
begins with these: make_state.py makes the state.

Several harts: --harts N reads the log of -smp N with -accel tcg,thread=single, under which qemu
runs one hart at a time, and with exec in -d. The column hart names the hart of each row. Rows stand
in the order in which qemu carried them out, which is the order of memory; those of a turn, a tenth
of a second, wait until the harts before it go on. Judge with --harts N too. The rows of each hart
begin at --pc; where harts stand apart at first, as at a checkpoint, --pc has an address for each.
"""
import argparse
import functools
import re
import sys
from collections import deque
from typing import NamedTuple

import make_state
from common import (
    MOST_HARTS, RESET_PC, Refused, add_log, convert_log, number_word, parser_of, row_writer,
    take_log_words,
)
from core_registers import XLENS
from image_start import parts_of
from instructions import BIT_MANIPULATION, Access, decoded, signed

CSRS = (
    "mstatus", "medeleg", "mideleg", "mie", "mtvec", "mscratch", "mepc", "mcause", "mtval", "mip",
    "satp", "stvec", "sscratch", "sepc", "scause", "stval",
)
KNOWN = {"pc", "mhartid", *CSRS, *(f"x{number}" for number in range(32))}
# The judge's options that fit qemu.
CORE, BITS = "--profile qemu", "--bits on"
AT_RESET = {"mstatus": XLENS, "mode": 3}
MSTATUS, SATP = ([it for it in CSRS if it != "mip"].index(name) for name in ("mstatus", "satp"))
MACHINE = 3  # the mode M
MEMORY = ("mem_addr", "mem_rmask", "mem_rdata", "mem_wmask", "mem_wdata")
COLUMNS = (
    "intr", "pc_rdata", "mode", "trap", "insn", "rs1_addr", "rs1_rdata", "rs2_addr", "rs2_rdata",
    "rd_addr", "rd_wdata", "pc_wdata", "csr_mip_rmask", *(f"csr_{name}_rdata" for name in CSRS),
    *MEMORY,
)
CHUNK = 1 << 20  # bytes that are read at once
MOST_BLOCKS = 1 << 16  # lines of exec that are remembered
FETCHES = (1, 12)  # the causes of an instruction that could not be fetched
INSTRUCTION = re.compile(r"(0x[0-9a-f]+): +(\S+)")
PRIVILEGE = re.compile(r"Priv: (\d)")
ENTERED = re.compile(r"Trace (\d+): (0x[0-9a-f]+) \[[0-9a-f]+/[0-9a-f]+/([0-9a-f]+)/")
RAISED = re.compile(r"riscv_cpu_do_interrupt: hart:(\d+), async:([01]), cause:([0-9a-f]+), "
                    r"epc:0x([0-9a-f]+)")
READS_OF_MIP = (0x344, 0x144)
NO_ACCESS = ",0x0,,0x0,"
ONE_AT_A_TIME = "-accel tcg,thread=single"
NOT_CARRIED_OUT = ("Stopped execution", "cpu_io_recompile")
PASSED_OVER = ("----", "IN:", "Disassembler disagrees", "Please report this")


class Endless(Exception):
    """qemu lists one instruction without end, and goes no further."""


class Code(NamedTuple):
    """An instruction as it was translated: bits is None where qemu cannot show them."""

    pc: int
    bits: int | None
    mode: int | None


def addresses(text):
    return [number_word(it) for it in text.split(",")]


def harts(text):
    if not text.isdigit() or not 1 <= int(text) <= MOST_HARTS:
        raise argparse.ArgumentTypeError(f"{text} is no number from 1 to {MOST_HARTS}")
    return int(text)


def image_bytes(path):
    """The bytes of an image by address."""
    found = {}
    for at, part in parts_of(path):
        found.update(enumerate(part, at))
    return found


def as_hex(digits):
    """The digits of a state as a number of the trace."""
    return "0x" + (digits.lstrip("0") or "0")


class Shown(NamedTuple):
    """What rows show of an instruction: rs1 and rs2 are those of 32-bit instructions alone."""

    insn: str
    name: str
    rs1: int | None
    rs2: int | None
    rd: int
    reads_mip: bool
    is_bit_manipulation: bool
    access: Access | None


@functools.lru_cache(1 << 16)
def shown_of(bits):
    name, rs1, rs2, rd, access = decoded(bits)
    if bits & 3 != 3:
        rs1 = rs2 = None
    reads_mip = name.startswith("csrr") and bits >> 20 in READS_OF_MIP
    return Shown(f"0x{bits:x}", name, rs1, rs2, rd, reads_mip, name in BIT_MANIPULATION, access)


def amo_result(name, old, operand, bits):
    """What an AMO stores, of the old value and the operand, both below 2^bits."""
    signs = signed(old, bits), signed(operand, bits)
    return {
        "amoadd": old + operand, "amoswap": operand, "amoxor": old ^ operand,
        "amoor": old | operand, "amoand": old & operand, "amomin": min(signs),
        "amomax": max(signs), "amominu": min(old, operand), "amomaxu": max(old, operand),
    }[name] & (1 << bits) - 1


def memory_fields(code, address, registers, value):
    """The fields of MEMORY: registers are those before, value is what rd got, or None (x0)."""
    kind, size, _, _, source = code.access
    mask, most = (1 << size) - 1, (1 << 8 * size) - 1
    read = None if value is None else value & most
    if source is None:
        return f"0x{address:x},0x{mask:x},{as_field(read)},0x0,"
    data = int(registers[source], 16) & most
    if kind == "store-conditional" and value is None:
        return ",,,,"
    if kind == "store-conditional" and value:
        return NO_ACCESS
    if kind != "atomic":
        return f"0x{address:x},0x0,,0x{mask:x},0x{data:x}"
    stored = None if read is None else amo_result(code.name.partition(".")[0], read, data, 8 * size)
    return f"0x{address:x},0x{mask:x},{as_field(read)},0x{mask:x},{as_field(stored)}"


def as_field(value):
    return "" if value is None else f"0x{value:x}"


class State(NamedTuple):
    """The registers before an instruction, as digits. rest and lines are the text they were read
    from: most states differ from the one before in pc and one register."""

    pc: str
    registers: list
    csrs: tuple
    mip: str | None
    hart: str
    rest: str = ""
    lines: tuple = ()

    def is_as(self, other):
        """Whether all but mip is the same."""
        return (self.pc == other.pc and self.registers == other.registers
                and self.csrs == other.csrs)


def translates_loads(state):
    """Whether loads of M are translated, by MPRV of mstatus."""
    status, satp = (int(state.csrs[it] or "0", 16) for it in (MSTATUS, SATP))
    return status >> 17 & 1 == 1 and status >> 11 & 3 != MACHINE and satp >> 60 != 0


def state_of(names, values):
    by_name = dict(zip(names, values))
    return State(by_name["pc"], [by_name[f"x{it}"] for it in range(32)],
                 tuple(by_name.get(it) for it in CSRS if it != "mip"), by_name.get("mip"),
                 by_name.get("mhartid", "0"))


class Layout:
    """The form of a state, taken from the lines of one: later ones are read by comparison with the
    one before, and what differs by patterns."""

    def __init__(self, lines):
        texts = [f"{it}\n" for it in lines]
        first = next(at for at, it in enumerate(texts) if it.startswith(" x0/"))
        head = "".join(texts[:first])
        self.lead = head[: head.index(" pc ") + len(re.search(r" pc +", head)[0])]
        self.head, self.count = len(head), len(texts)
        self.digits = len(re.match(r"[0-9a-f]+", head[len(self.lead):])[0])
        rest, self.names = self.pattern(head[len(self.lead) + self.digits:])
        self.rest = re.compile(rest)
        self.registers, at = [], 0
        for text in texts[first:]:
            pattern, names = self.pattern(text)
            self.registers.append((len(text), re.compile(pattern), at))
            at += len(names)
        self.length = self.head + sum(it[0] for it in self.registers)
        self.is_whole = at == 32 and {*self.names} >= {*CSRS, "mhartid"} and " x31" in texts[-1]

    @staticmethod
    def pattern(text):
        """What matches lines of this form, and the known names that it has groups for."""
        pattern, names = "", []
        for gap, name, space, digits, end in re.findall(
                r"(\s*)(?:(\S+)( +)([0-9a-f]+)(?=\s)|(.+))", text):
            name_alone = name.partition("/")[0]
            value = f"[0-9a-f]{{{len(digits)}}}"
            if name_alone in KNOWN:
                names.append(name_alone)
                value = f"({value})"
            pattern += gap + (re.escape(end) if end else re.escape(name) + space + value)
        return pattern + r"\s*", names

    def state(self, text, at, before):
        """The state in the text, given the one before; None where it is of another form."""
        if not text.startswith(self.lead, at):
            return None
        pc_at = at + len(self.lead)
        rest_at, at = pc_at + self.digits, at + self.head
        rest = text[rest_at:at]
        _, registers, csrs, mip, hart, before_rest, before_lines = before
        if rest != before_rest:
            if (found := self.rest.fullmatch(rest)) is None:
                return None
            values = dict(zip(self.names, found.groups()))
            csrs, mip, hart = tuple(values[it] for it in CSRS if it != "mip"), values["mip"], \
                values["mhartid"]
        lines = []
        for number, (length, pattern, first) in enumerate(self.registers):
            line = text[at:at + length]
            at += length
            lines.append(line)
            if not before_lines or line != before_lines[number]:
                if (found := pattern.fullmatch(line)) is None:
                    return None
                values = found.groups()
                registers = registers[:first] + [*values] + registers[first + len(values):]
        return State(text[pc_at:rest_at], registers, csrs, mip, hart, rest, lines)


class Row:
    """A row that is held until what it has written is known."""

    __slots__ = ("pc", "code", "mode", "intr", "trap", "state", "mip", "mask", "pc_wdata", "place")


class Translations:
    """What stands where: by the block that exec names, or else by address."""

    def __init__(self, image):
        self.image = image  # bytes by address, for what is not listed
        self.by_block = {}
        self.by_address = {}
        self.of_machine = {}  # the bits of instructions of M by address
        self.listed = []  # until the state after it says which block it is
        self.mode = None

    def take(self, text, shown):
        if self.listed and self.listed[-1].pc == int(text, 16):
            raise Endless(f"qemu lists the word at {text} without end: "
                          "run it without in_asm, and give --image")
        bits = None if shown == "Address" else int(shown, 16)
        self.listed.append(Code(int(text, 16), bits, self.mode))

    def latest(self, state):
        """The instruction that was listed before a state, or None. Of an address of M qemu lists what
        a load finds there. Where MPRV has loads translated that may be anything."""
        listed, self.listed = self.listed, []
        if listed and listed[0].mode == MACHINE and translates_loads(state):
            pc = listed[0].pc
            bits = self.of_machine.get(pc)
            if bits is None and pc in self.image:
                bits = self.word(pc)
            return Code(pc, bits, MACHINE)
        if len(listed) > 1:
            raise Refused("several instructions in one block: qemu was run without -singlestep")
        for it in listed:
            if it.mode == MACHINE:
                self.of_machine[it.pc] = it.bits
        return listed[0] if listed else None

    def word(self, pc):
        """The instruction that the image has at an address."""
        bits = sum(self.image.get(pc + it, 0) << 8 * it for it in range(4))
        return bits if bits & 3 == 3 else bits & 0xFFFF

    def find(self, pc, block, state):
        """The instruction that a state at pc, in a block, begins to carry out."""
        latest = self.latest(state)
        if block is not None:
            if latest:
                self.by_block[block] = latest
            found = self.by_block.get(block)
        else:
            if latest:
                known = self.by_address.setdefault(latest.pc, [])
                known[:] = [it for it in known if it != latest] + [latest]
            known = self.by_address.get(pc, ())
            found = latest or (known[-1] if known else None)
            if found and not latest and len({it.bits for it in known}) > 1:
                raise Refused(f"several instructions at 0x{pc:x}: add exec to -d")
            if found and not latest and len(known) > 1:
                found = found._replace(mode=None)
        if (found is None or found.pc != pc) and pc in self.image:
            found = Code(pc, self.word(pc), None)
        if found is None or found.pc != pc:
            raise Refused(f"no instruction at 0x{pc:x} is listed: add in_asm to -d")
        if found.bits is None and found.mode == MACHINE:
            raise Refused(f"qemu does not show the instruction at 0x{pc:x}, where MPRV has loads "
                          "translated: give --image")
        if found.bits is None:
            raise Refused(f"qemu does not show the instruction at 0x{pc:x}, in a page without R")
        return found


class Order:
    """The texts of several harts, in the order in which their places were taken."""

    def __init__(self, write):
        self.write = write
        self.waiting = deque()

    def place(self):
        self.waiting.append([None])
        return self.waiting[-1]

    def fill(self, place, text):
        """An empty text leaves a place out."""
        place[0] = text
        while self.waiting and self.waiting[0][0] is not None:
            if first := self.waiting.popleft()[0]:
                self.write(first)


class Converter:
    """What the lines of a log say, for its harts."""

    def __init__(self, starts, image, harts, write):
        self.code = Translations(image)
        self.block = self.block_mode = self.turn_of = None  # of the latest line of exec
        self.lines, self.names, self.values = [], [], []  # of the state that is being read
        self.layout = self.latest = None  # the form of states, and the last one
        self.blocks = {}  # lines of exec, with what they say
        self.tells_traps = False
        order = Order(write) if harts > 1 else None
        self.starts = starts if len(starts) == harts else starts * harts
        self.harts = [Hart(self, it, start, write, order) for it, start in enumerate(self.starts)]
        self.by_digits = {}  # the harts of states, by mhartid as it stands there
        self.hart = self.harts[0]  # that of the latest state

    def take(self, line):
        if line.startswith(" "):
            self.take_values(line)
        elif self.lines:
            raise Refused("a state is cut off")
        elif found := ENTERED.match(line):
            self.turn_of, self.block, self.block_mode = found[1], found[2], int(found[3], 16) & 3
            if len(self.blocks) < MOST_BLOCKS:
                self.blocks[line] = self.turn_of, self.block, self.block_mode
        elif found := INSTRUCTION.match(line):
            self.code.take(*found.groups())
        elif found := PRIVILEGE.match(line):
            self.code.mode = int(found[1])
        elif found := RAISED.match(line):
            self.tells_traps = True
            self.numbered(int(found[1])).raised(found)
        elif line.startswith(NOT_CARRIED_OUT):
            self.hart.drop()
        elif line and not line.startswith(PASSED_OVER):
            raise Refused(f"no line of a log of in_asm, cpu, exec and int: {line[:60]!r}")

    def take_values(self, line):
        """Takes a line of a state: names and values in turn, x31 the last."""
        self.lines.append(line)
        words = line.split()
        if words[1:2] == ["="]:
            return
        for name, value in zip(words[::2], words[1::2]):
            if (name := name.partition("/")[0]) in KNOWN:
                self.names.append(name)
                self.values.append(value)
        if self.names[-1:] == ["x31"]:
            lines, names, values = self.lines, self.names, self.values
            self.lines, self.names, self.values = [], [], []
            self.latest = state_of(names, values)
            self.begin(self.latest)
            if self.layout is None and names[-32:] == [f"x{it}" for it in range(32)]:
                layout = Layout(lines)
                self.layout = layout if layout.is_whole else None

    def numbered(self, number):
        if number >= len(self.harts):
            raise Refused(f"hart {number} is in the log: give --harts {number + 1}, or more")
        return self.harts[number]

    def begin(self, state):
        """A state: before its hart carries out an instruction."""
        hart = self.by_digits.get(state.hart)
        if hart is None:
            hart = self.by_digits[state.hart] = self.numbered(int(state.hart, 16))
        if hart.order is not None:
            self.take_turn(hart)
        pc, block, mode = int(state.pc, 16), self.block, self.block_mode
        self.block = self.block_mode = self.turn_of = None
        hart.begin(state, pc, self.code.find(pc, block, state), mode)

    def take_turn(self, hart):
        """The state of one of several harts: it must be that which exec names."""
        if self.turn_of is None:
            raise Refused("a state without its line of exec: add exec to -d")
        if int(self.turn_of) != hart.number:
            raise Refused(f"hart {hart.number} and hart {self.turn_of} run at once")
        if hart is not self.hart:
            self.hart.rest()
            self.hart = hart

    def finish(self):
        """The log ends."""
        for hart in self.harts:
            hart.finish(None)

    def total(self, name):
        """How many of something all harts have."""
        return sum(getattr(it, name) for it in self.harts)

    def tell(self):
        """What standard error gets of a log that was read."""
        yield f"{self.total('rows')} rows"
        if before := self.total("before"):
            yield f"{before} rows before {self.where()} are left out"
        if again := self.total("again"):
            yield f"{again} states are left out that were begun anew, or led to themselves"
        if self.lines:
            yield "the log ends in the middle of a state, which is left out"
        if misaligned := self.total("misaligned"):
            yield f"{misaligned} accesses at misaligned addresses: judge with {CORE}"
        if self.total("translates"):
            yield f"pages whose A and D qemu sets: judge with {CORE}"
        if bits := self.total("bits"):
            yield f"{bits} instructions of bit manipulation: judge with {BITS}"
        if len(self.harts) > 1:
            yield from (f"hart {it.number} has no row" for it in self.harts if not it.rows)
            yield f"{len(self.harts)} harts: judge with --harts {len(self.harts)}"

    def where(self):
        """The addresses of the first rows."""
        return " and ".join(f"0x{it:x}" for it in dict.fromkeys(self.starts))

    def set_at_start(self):
        """What is not as at reset before the first rows, a table for each hart, and their pc, which is
        in the tables where it is not that of all."""
        found = [it.set_at_start() for it in self.harts]
        if len({*self.starts}) == 1:
            return found, self.starts[0]
        return [{"pc": start} | it for start, it in zip(self.starts, found)], None

    def choices(self):
        """The judge's options that fit qemu, and what it carried out."""
        return f"{CORE} {BITS}" if self.total("bits") else CORE


class Hart:
    """The rows of a hart. One is held until the state after it says what it has written."""

    def __init__(self, log, number, start, write, order):
        self.log, self.number, self.start, self.write, self.order = log, number, start, write, order
        self.held = None  # a row
        self.unfetched = None  # a row after it that could not be fetched, with its place
        self.interrupt = None  # the code of one that was entered, until its handler's first row
        self.entered = None  # the code of the last one
        self.csrs, self.csr_text = None, ("", "")
        self.rows = self.before = self.again = self.misaligned = self.bits = 0
        self.first = self.first_mode = None  # the state before the first row
        self.translates = False

    def begin(self, state, pc, code, mode):
        """A state: before an instruction is carried out."""
        if self.held is None and self.rows == 0 and pc != self.start:
            self.before += 1
            self.interrupt = None
            return
        if self.held is not None and self.is_same(state):
            self.drop()
        self.finish(state)
        row, now = Row(), shown_of(code.bits)
        row.pc, row.code, row.state, row.pc_wdata = pc, now, state, None
        row.mode = code.mode if mode is None else mode
        if self.first is None:
            self.first, self.first_mode = state, row.mode
        row.intr, row.trap = int(self.interrupt is not None), 0 if self.log.tells_traps else None
        row.mip, row.mask = self.lines_of(now, state)
        row.place = None if self.order is None else self.order.place()
        self.held = row
        self.interrupt = None

    def rest(self):
        """Another hart has its turn. One that waits in WFI may do so to the log's end: its row is
        known, and the rows of others do not wait for it."""
        row = self.held
        if row and row.code.name == "wfi" and not row.trap and not self.unfetched:
            self.finish(row.state._replace(pc=f"{row.pc + 4:x}"))

    def lines_of(self, code, state):
        """What is shown of mip before the row, an interrupt's entry included, and its mask."""
        line = 0 if self.interrupt is None else 1 << self.interrupt
        if code.reads_mip:  # a line may rise after the state: the lines are those of the value
            return f"0x{line:x}", f"0x{line:x}"
        if state.mip is None:
            return "", ""
        return (f"0x{int(state.mip, 16) | line:x}" if line else as_hex(state.mip)), ""

    def is_begun(self):
        return self.held is not None or self.rows > 0

    def is_same(self, state):
        """Whether all is as before the held row: it was not carried out, or leaps to itself."""
        if self.unfetched or self.held.trap or self.interrupt is not None:
            return False
        return state.is_as(self.held.state)

    def drop(self):
        """The held row was not carried out, and is begun anew."""
        if self.held and not self.held.trap:
            self.again += 1
            if self.held.intr:
                self.interrupt = self.entered
            if self.order is not None:
                self.order.fill(self.held.place, "")
            self.held = None

    def raised(self, found):
        """A trap or an interrupt."""
        pc, cause = int(found[4], 16), int(found[3], 16)
        if found[2] == "1":
            self.enter(pc, cause & 63)
        elif self.held and self.held.pc == pc and not self.unfetched:
            self.held.trap = 1
        elif cause not in FETCHES:
            raise Refused(f"a trap at 0x{pc:x}, where no instruction was begun")
        elif self.is_begun() or pc == self.start:
            self.add_unfetched(pc)

    def enter(self, pc, code):
        if self.held and self.held.pc == pc and not self.held.trap:
            self.drop()
        if self.interrupt is not None:
            raise Refused("two interrupts without an instruction between them have no form as rows")
        if self.held and not self.held.trap:
            self.held.pc_wdata = f"0x{pc:x}"
        self.interrupt = self.entered = code

    def add_unfetched(self, pc):
        if self.unfetched:
            self.finish(None)
        if self.held and not self.held.trap and self.held.pc_wdata is None:
            self.held.pc_wdata = f"0x{pc:x}"
        line = "" if self.interrupt is None else f"0x{1 << self.interrupt:x}"
        csrs = ",".join(line if it == "mip" else "" for it in CSRS)
        text = f"{'0x1' if line else '0x0'},0x{pc:x},,0x1,0x0,,,,,,,,{line},{csrs},,,,,\n"
        self.unfetched = text, None if self.order is None else self.order.place()
        self.interrupt = None

    def finish(self, state):
        """Writes what is held, after which the hart has a state."""
        if self.held is not None:
            self.put(self.row_text(self.held, state), self.held.place)
        if self.unfetched is not None:
            self.put(*self.unfetched)
        self.held = self.unfetched = None

    def put(self, text, place):
        """Writes a row, of several harts at its place."""
        self.rows += 1
        if place is None:
            self.write(text)
        else:
            self.order.fill(place, f"0x{self.number:x},{text}")

    def row_text(self, row, after):
        """The fields of a row, in the order of COLUMNS."""
        code, registers = row.code, row.state.registers
        rs1 = rs2 = written = ","
        memory, pc_wdata = ",,,,", row.pc_wdata or ""
        if code.rs1 is not None:
            rs1 = f"0x{code.rs1:x},{as_hex(registers[code.rs1])}"
        if code.rs2 is not None:
            rs2 = f"0x{code.rs2:x},{as_hex(registers[code.rs2])}"
        if after is not None and not row.trap:
            written = f"0x{code.rd:x},{as_hex(after.registers[code.rd])}"
            pc_wdata = pc_wdata or as_hex(after.pc)
            memory = NO_ACCESS
            if code.is_bit_manipulation and int(pc_wdata, 16) == row.pc + 4:
                self.bits += 1
            if code.access is not None:
                value = int(after.registers[code.rd], 16) if code.rd else None
                base, offset = registers[code.access.base], code.access.offset
                address = int(base, 16) + offset & (1 << 64) - 1
                if address % code.access.size and code.access.kind in ("load", "store"):
                    self.misaligned += 1
                memory = memory_fields(code, address, registers, value)
        before_mip, after_mip = self.csr_fields(row.state.csrs)
        mode = "" if row.mode is None else f"0x{row.mode:x}"
        trap = "" if row.trap is None else f"0x{row.trap:x}"
        return (f"0x{row.intr:x},0x{row.pc:x},{mode},{trap},{code.insn},{rs1},{rs2},{written},"
                f"{pc_wdata},{row.mask},{before_mip},{row.mip},{after_mip},{memory}\n")

    def csr_fields(self, csrs):
        """The control and status registers before and after mip; most rows change none."""
        if csrs != self.csrs:
            texts = ["" if it is None else as_hex(it) for it in csrs]
            at = CSRS.index("mip")
            self.translates = self.translates or (csrs[SATP] or "0").startswith("8")
            self.csrs, self.csr_text = csrs, (",".join(texts[:at]), ",".join(texts[at:]))
        return self.csr_text

    def set_at_start(self):
        """The registers that are not as at reset before the first row. Of mip it is the bits that no
        interrupt line has."""
        if self.first is None:
            return {}
        values = {f"x{at}": int(value, 16) for at, value in enumerate(self.first.registers)}
        shown = zip((it for it in CSRS if it != "mip"), self.first.csrs)
        values |= {name: int(value, 16) for name, value in shown if value}
        values["mip"] = int(self.first.mip or "0", 16) & 0x22
        values["mode"] = 3 if self.first_mode is None else self.first_mode
        return {name: it for name, it in values.items() if it != AT_RESET.get(name, 0)}


class Reader:
    """Takes a log to a converter: states by their layout, all else by lines."""

    def __init__(self, converter):
        self.converter = converter
        self.at = 0  # the line that is taken
        self.rest = ""

    def take(self, text, is_end=False):
        """Takes the whole lines of some more text; a state waits until all of it is there."""
        text, position = self.rest + text, 0
        converter, blocks = self.converter, self.converter.blocks
        while True:
            layout = converter.layout
            if layout and not converter.lines and text.startswith(" ", position):
                if len(text) - position < layout.length and not is_end:
                    break
                if state := layout.state(text, position, converter.latest):
                    self.at += layout.count
                    converter.latest = state
                    converter.begin(state)
                    position += layout.length
                    continue
            end = text.find("\n", position)
            if end < 0:  # a line that is cut off ends a log that was
                break
            self.at += 1
            line = text[position:end].rstrip()
            position = end + 1
            if line in blocks and not converter.lines:
                converter.turn_of, converter.block, converter.block_mode = blocks[line]
            else:
                converter.take(line)
        self.rest = text[position:]


def arguments():
    parser = parser_of(__doc__)
    add_log(parser, "csr_medeleg_rdata")
    parser.add_argument("--pc", type=addresses, default=[RESET_PC], metavar="A[,A..]",
                        help="address of the first row, as the judge's --pc, or one for each hart, "
                        "where they stand apart at a checkpoint (default 0x80000000)")
    parser.add_argument("--image", metavar="FILE",
                        help="the judge's image, for instructions that the log does not list")
    parser.add_argument("--harts", type=harts, default=1, metavar="N",
                        help="the harts of the log, which are then shown in a column hart: 1 to "
                        f"{MOST_HARTS} (default 1: no such column)")
    parser.add_argument("--choices", action="store_true",
                        help="tell on standard error which options of the judge fit what qemu "
                        "chooses otherwise than the judge does by default")
    return take_log_words(parser, COLUMNS)


def convert(log, words, out):
    """Writes the trace of a log, and says on standard error what was left out."""
    columns = ("hart", *COLUMNS) if words.harts > 1 else COLUMNS
    write = row_writer(out, columns, words.without)
    image = image_bytes(words.image) if words.image else {}
    if len(words.pc) not in (1, words.harts):
        raise Refused(f"--pc has {len(words.pc)} addresses, and there are {words.harts} harts")
    converter = Converter(words.pc, image, words.harts, write)
    reader = Reader(converter)
    hint = "" if words.harts == 1 else f" (several harts need {ONE_AT_A_TIME})"
    try:
        while chunk := log.read1(CHUNK):
            reader.take(chunk.decode("latin-1"))
        reader.take("", is_end=True)
    except Endless as fault:
        print(f"qemu_log.py: {fault}{hint}", file=sys.stderr)
    except Refused as fault:
        raise Refused(f"{words.log}: line {reader.at}: {fault}{hint}") from None
    try:
        converter.finish()
        if not converter.total("rows"):
            raise Refused(f"no instruction at {converter.where()}")
    except Refused as fault:
        raise Refused(f"{words.log}: line {reader.at}: {fault}") from None
    tell(converter, words)


def tell(converter, words):
    """Says on standard error what there is to say of a log that was read."""
    for text in converter.tell():
        print(f"qemu_log.py: {text}", file=sys.stderr)
    found, pc = converter.set_at_start()
    if any(found):
        print("qemu_log.py: registers are set before the first row; to begin with them:",
              *make_state.command_lines(found, pc, words.o, CORE), sep="\n", file=sys.stderr)
    if words.choices:
        print(f"qemu_log.py: the judge's options that fit qemu: {converter.choices()}",
              file=sys.stderr)


if __name__ == "__main__":
    sys.exit(convert_log("qemu_log.py", arguments(), convert))
