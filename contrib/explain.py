#!/usr/bin/env python3
"""Explains a difference: what the core did at the row, and where its operands came from.

    explain.py IMAGE TRACE [--elf FILE] [--html FILE] [--gtkw WAVE] [-- OPTION..]

Runs the judge, prints its line, and where that is a difference: the last rows with address,
disassembly, function and source line; the signal with both values and the bits that differ; the
operands with the rows that last wrote them; the access to memory, why the hart traps there, and
the rows that last stored there; the registers. TRACE may be packed (.gz, .zst). Functions and lines
need --elf, or an IMAGE that is an ELF file, and python3-pyelftools, disassembly a riscv objdump
(binutils-riscv64-unknown-elf). OPTIONs are those of the judge; what traps is told by --misaligned,
--ad, --bits, --io, --io-faults and --profile too. With --harts the registers are those of the row's
hart.

Which rows wrote the operands of the differing row is what the judge says with --origin. Where it
does not know this word, or says nothing of a row, they are searched in the trace. What is not
shown in the trace is not known here: it is said so. The trace is read once for the rows, and once
more for each doubleword of memory that is looked for; no more than the last rows are held. The
status is the judge's, or 70 where it gave no verdict.
"""
import html
import re
import shutil
import subprocess
import sys
import tempfile
from bisect import bisect_right
from collections import deque
from pathlib import Path
from typing import NamedTuple

import elf_image
from common import (
    ABI, Refused, add_program, ends, fields_of, judge_words, names_of, number, opened, parser_of,
    shown_lines, unpacker_of,
)
from core_registers import PROFILES
from image_start import bytes_at, registers_at
from instructions import BIT_MANIPULATION, decoded, name_of, signed

DIFFERS = re.compile(r"differs row (\d+): (\w+) expected (\S+) found (\S+)")
ORIGIN = re.compile(r"origin (?:x(\d+)|byte (0x[0-9a-f]{16})) (?:row (\d+)|reset|image)")
CHOICES = ("misaligned", "ad", "bits", "io-faults")  # the judge's options that say what traps
DEBIAN = "/usr/lib/python3/dist-packages"
MASK = (1 << 64) - 1
SATP = 0x180
SLOT = 8  # bytes of a file for objdump in which an instruction stands
DISASSEMBLED = re.compile(r"^ *([0-9a-f]+):\t[^\t\n]*\t(.*)", re.MULTILINE)
WITH_GOAL = ("jal", "beq", "bne", "blt", "bge", "bltu", "bgeu", "c.j", "c.beqz", "c.bnez")
WITH_AMOUNT = ("slli.uw", "rori", "roriw", "bclri", "bexti", "binvi", "bseti")
# The columns that are read; the others are the judge's matter.
READ = {
    "valid", "insn", "pc_rdata", "trap", "mode", "rs1_addr", "rs1_rdata", "rs2_addr", "rs2_rdata",
    "rd_wdata", "mem_addr", "mem_wdata", "mem_paddr", "csr_satp_wdata", "csr_mstatus_rdata", "time",
    "cycle", "hart",
}
MEANING = {
    "valid": "a valid row after one that showed halt", "order": "the row's number",
    "intr": "an interrupt was entered before this row", "pc_rdata": "the instruction's address",
    "mode": "the mode of the instruction: 0 U, 1 S, 3 M", "ixl": "the register width's code",
    "trap": "the instruction took a synchronous trap", "insn": "the instruction's bits",
    "rs1_addr": "the first register that is read", "rs1_rdata": "the value of rs1",
    "rs2_addr": "the second register that is read", "rs2_rdata": "the value of rs2",
    "rd_addr": "the register that is written", "rd_wdata": "the value written to rd",
    "pc_wdata": "the next address", "mem_addr": "the address of the access",
    "mem_rmask": "the bytes that are read", "mem_rdata": "what memory held",
    "mem_wmask": "the bytes that are written", "mem_wdata": "what is stored",
    "mem_paddr": "the physical address of the access",
}


# ---- the trace


class Row(NamedTuple):
    number: int
    line: int  # of the file
    hart: int
    before: int  # the number of its hart's row before it, 0 where there is none
    shown: dict  # from signal to number
    state: dict  # of the registers before it, each (value or None, the row that wrote it)
    satp: tuple  # (value or None, the row)

    @property
    def pc(self):
        return self.shown["pc_rdata"]

    @property
    def bits(self):
        return self.shown["insn"]


class Hart:
    """What the rows of a hart lead to: its registers, satp, and the number of its last row."""

    def __init__(self, start):
        self.state = {it: (start.get(f"x{it}", 0), 0) for it in range(32)}
        self.satp = (start.get("csr_satp", 0), 0)
        self.last = 0

    def take(self, row):
        self.state, self.satp, self.last = state_after(row), satp_after(row), row.number


def rows_of(words, last):
    """The rows from the first to number last, each with its hart's registers before it."""
    harts = {it: Hart(start) for it, start in enumerate(words.start)}
    with opened(words.trace, is_whole=False) as file:
        lines = shown_lines(it.decode("latin-1") for it in file)
        names = names_of(next(lines)[1])
        columns = [(at, name) for at, name in enumerate(names) if name in READ]
        for count, (at, text) in enumerate(lines, 1):
            fields = fields_of(text)
            shown = {name: number(it) for column, name in columns
                     if (it := fields[column].strip(" \t"))}
            if shown.get("valid", 1) == 1 and "insn" in shown and "pc_rdata" in shown:
                whose = shown.get("hart", 0) if words.harts > 1 else 0
                hart = harts.setdefault(whose, Hart({}))
                row = Row(count, at, whose, hart.last, shown, hart.state, hart.satp)
                yield row
                hart.take(row)
            if count == last:
                return


def state_after(row):
    """The registers after a row, as far as the trace shows them."""
    if row.shown.get("trap"):
        return row.state
    if not (rd := decoded(row.bits).rd):
        return row.state
    return row.state | {rd: (row.shown.get("rd_wdata"), row.number)}


def satp_after(row):
    if "csr_satp_wdata" in row.shown:
        value = row.shown["csr_satp_wdata"]
        return row.satp if value == row.satp[0] else (value, row.number)
    if row.bits & 0x7F == 0x73 and row.bits >> 20 == SATP and row.bits >> 12 & 3 == 1:
        if not row.shown.get("trap"):
            return operand(row, row.bits >> 15 & 31, "rs1"), row.number
    return row.satp


def operand(row, register, name=None):
    """A register's value before a row: as the row shows it, or as it was last written."""
    if name and row.shown.get(f"{name}_addr") == register and f"{name}_rdata" in row.shown:
        return row.shown[f"{name}_rdata"]
    return row.state[register][0]


def address_of(row, access):
    base = operand(row, access.base, "rs1")
    return None if base is None else base + access.offset & MASK


def is_translated(row):
    """Whether the hart translates at a row; None where that is not known."""
    mode = row.shown.get("mode")
    if row.satp[0] is not None and row.satp[0] >> 60 == 0 or mode == 3:
        return False
    return None if mode is None or row.satp[0] is None else True


def store_of(row):
    """The physical address, the size and the data of what a row stores, or None."""
    access = decoded(row.bits).access
    if access is None or access.data is None or row.shown.get("trap"):
        return None
    if access.kind == "store-conditional" and row.shown.get("rd_wdata"):
        return None
    address, shift = address_of(row, access), 0
    if address is not None and "mem_addr" in row.shown:
        shift = address - row.shown["mem_addr"]
    if is_translated(row) is not False:
        address = row.shown.get("mem_paddr", -shift) + shift if "mem_paddr" in row.shown else None
    data = operand(row, access.data, "rs2") if access.kind != "atomic" else None
    if data is None and "mem_wdata" in row.shown and 0 <= shift < 8:
        data = row.shown["mem_wdata"] >> 8 * shift
    return address, access.size, data


class Stored(NamedTuple):
    """Bytes of memory as the trace and the image have them."""

    value: int | None
    rows: list  # that stored each byte last; 0: the image
    text: str


def memory_at(words, address, size, before):
    """What stands at a physical address before a row: the image, and the stores of the rows."""
    memory = bytes_at(words.image, address, size)
    known, rows, hidden = list(memory), [0] * size, 0
    for row in rows_of(words, before - 1):
        stored = store_of(row)
        if stored is None:
            continue
        start, length, data = stored
        if start is None:
            hidden += 1
            continue
        for it in range(size):
            if 0 <= (shift := address + it - start) < length:
                known[it] = None if data is None else data >> 8 * shift & 255
                rows[it] = row.number
    value = None if None in known else sum(it << 8 * at for at, it in enumerate(known))
    text = f"{hidden} stores do not show where they went" if hidden else ""
    return Stored(value, rows, text)


class Origins(NamedTuple):
    """The rows that last wrote what the differing row read, as the judge says; 0: none did."""

    registers: dict
    bytes: dict  # by physical address


def origins_in(lines):
    """What the judge's lines of --origin say, or None where there is none."""
    found = Origins({}, {})
    for line in lines:
        if (it := ORIGIN.fullmatch(line)) is None:
            raise Refused(f"the judge printed {line[:60]!r}")
        if it[1]:
            found.registers[int(it[1])] = int(it[3] or 0)
        else:
            found.bytes[int(it[2], 16)] = int(it[3] or 0)
    return found if lines else None


# ---- names of places


class Places:
    """Functions and source lines of an ELF file, and disassembly."""

    def __init__(self, path):
        self.functions, self.lines, self.said = [], [], []
        self.wanted = {}  # the instructions whose texts are shown, numbered
        names = ("riscv64-unknown-elf-objdump", "riscv64-linux-gnu-objdump")
        self.objdump = next(filter(shutil.which, names), None)
        if not self.objdump:
            self.said.append("no disassembly: apt install binutils-riscv64-unknown-elf")
        if path:
            self.read(path)

    def read(self, path):
        if DEBIAN not in sys.path:
            sys.path.append(DEBIAN)  # where python3 is another one than Debian's
        try:
            from elftools.common.exceptions import ELFError
            from elftools.elf.elffile import ELFFile
        except ImportError:
            self.said.append("no functions and lines: apt install python3-pyelftools")
            return
        try:
            with open(path, "rb") as file:
                elf = ELFFile(file)
                table = elf.get_section_by_name(".symtab")
                for it in table.iter_symbols() if table else ():
                    if it["st_info"]["type"] in ("STT_FUNC", "STT_NOTYPE") and it.name[:1] != "$":
                        self.functions.append((it["st_value"], it.name))
                if elf.has_dwarf_info():
                    self.read_lines(elf.get_dwarf_info())
        except ELFError as fault:
            raise Refused(f"{path}: {fault}") from None
        self.functions.sort()
        self.lines.sort()

    def read_lines(self, info):
        for unit in info.iter_CUs():
            program = info.line_program_for_CU(unit)
            if program is None:
                continue
            names, base = program["file_entry"], 0 if program["version"] >= 5 else 1
            for entry in program.get_entries():
                if (it := entry.state) is None:
                    continue
                at = it.file - base
                name = names[at].name.decode() if 0 <= at < len(names) else "?"
                self.lines.append((it.address, "" if it.end_sequence else f"{name}:{it.line}"))

    def name(self, pc):
        """The function and the line at an address."""
        found = [f"{name}+0x{pc - at:x}" for at, name in self.below(self.functions, pc)]
        found += [f"({text})" for _, text in self.below(self.lines, pc) if text]
        return " ".join(found)

    @staticmethod
    def below(table, pc):
        at = bisect_right(table, pc, key=lambda it: it[0])
        return table[max(0, at - 1):at]

    def disassembly(self, pc, bits, width=0):
        """What stands for the text of an instruction until `filled` puts it there; without a width its
        bits are shown where it has no text."""
        return f"\0{self.wanted.setdefault((pc, bits), len(self.wanted))}:{width}\0"

    def filled(self, parts):
        """The parts of an explanation with the texts of their instructions, from one run of objdump."""
        wanted = [*self.wanted]
        texts = self.disassembled(wanted)

        def text(found):
            at, width = int(found[1]), int(found[2])
            return texts[at].ljust(width) or hex(wanted[at][1])

        return [(title, [re.sub(r"\0(\d+):(\d+)\0", text, it).rstrip() for it in lines])
                for title, lines in parts]

    def disassembled(self, wanted):
        """The texts of instructions, each an address and bits. They stand side by side in one file,
        which begins at 0, so that what a jump or a branch goes to is moved to where it is."""
        ran = {}
        if self.objdump and wanted:
            with tempfile.NamedTemporaryFile() as file:
                for _, bits in wanted:
                    word = bits.to_bytes(4, "little")[: 4 if bits & 3 == 3 else 2]
                    file.write(word.ljust(SLOT, b"\0"))
                file.flush()
                ran = subprocess.run([self.objdump, "-D", "-z", "-b", "binary", "-m", "riscv:rv64",
                                      file.name], capture_output=True, text=True)
            ran = {int(it[1], 16): it[2] for it in DISASSEMBLED.finditer(ran.stdout)}
        return [bit_manipulation_text(bits) if name_of(bits) in BIT_MANIPULATION
                else moved(ran.get(SLOT * at, ""), name_of(bits), pc - SLOT * at)
                for at, (pc, bits) in enumerate(wanted)]

    def row(self, row, mark=" ", has_harts=False):
        bits = f"{row.bits:08x}" if row.bits & 3 == 3 else f"    {row.bits & 0xffff:04x}"
        hart = f"hart {row.hart}  " if has_harts else ""
        text = f"{mark} row {row.number:<6} {hart}0x{row.pc:016x}  {bits}  "
        return f"{text}{self.disassembly(row.pc, row.bits, 28)} {self.name(row.pc)}"


def moved(text, name, distance):
    """The text of an instruction, whose goal is so far from where it was disassembled."""
    text = re.sub(r"\s*<.*?>|# .*", "", text.replace("\t", " ")).strip()
    if name not in WITH_GOAL:
        return text
    return re.sub("0x[0-9a-f]+$", lambda it: hex(int(it[0], 16) + distance & MASK), text)


def bit_manipulation_text(bits):
    """An instruction of bit manipulation as the assembler has it."""
    name, rs1, rs2, rd, _ = decoded(bits)
    words = [ABI[rd], ABI[rs1]]
    if rs2 is not None:
        words.append(ABI[rs2])
    elif name in WITH_AMOUNT:
        words.append(hex(bits >> 20 & (31 if name == "roriw" else 63)))
    return f"{name} {','.join(words)}"


# ---- what is said


class Explanation:
    """The parts of an explanation, in order: a title and lines each."""

    def __init__(self, words, places, found, rows, origins):
        self.words, self.places, self.parts = words, places, []
        self.signal, self.expected, self.found = found[2], number(found[3]), number(found[4])
        self.row, self.rows, self.origins = rows[-1], rows, origins
        self.by_number = {it.number: it for it in rows}
        self.add("the last rows", [self.line(it, ">" if it is self.row else " ") for it in rows]
                 + places.said)
        self.tell_signal()
        self.tell_instruction()
        self.tell_operands()
        self.tell_path()
        self.tell_access(self.row)
        self.tell_registers()

    def add(self, title, lines):
        if lines:
            self.parts.append((title, lines))

    def line(self, row, mark=" "):
        return self.places.row(row, mark, self.words.harts > 1)

    def tell_signal(self):
        differing = self.expected ^ self.found
        bits = [it for it in range(64) if differing >> it & 1]
        spans = []
        for it in bits:
            if spans and spans[-1][1] == it - 1:
                spans[-1][1] = it
            else:
                spans.append([it, it])
        shown = ", ".join(f"{high}:{low}" if high > low else f"{low}" for low, high in spans[::-1])
        meaning = MEANING.get(self.signal, "")
        if found := re.fullmatch(r"csr_(\w+)_([rw])data", self.signal):
            meaning = f"{found[1]} {'before' if found[2] == 'r' else 'after'} the instruction"
        lines = [f"expected 0x{self.expected:016x}", f"found    0x{self.found:016x}",
                 f"differ   0x{differing:016x}  bit{'s' if len(bits) > 1 else ''} {shown}"]
        if self.signal in ("pc_rdata", "pc_wdata"):
            for name, value in (("expected", self.expected), ("found", self.found)):
                if place := self.places.name(value):
                    lines.append(f"{name} is {place}")
        self.add(f"{self.signal}: {meaning}", lines)

    def tell_instruction(self):
        name = name_of(self.row.bits)
        if name in BIT_MANIPULATION and self.words.bits == "off":
            self.add("instruction", [f"traps    {name} is illegal without --bits on (cause 2)"])

    def tell_operands(self):
        lines = []
        shown = decoded(self.row.bits)[1:3]
        for name, register in zip(("rs1", "rs2"), shown):
            if register:
                lines.append(f"{name} {self.register(self.row, register, name)}")
        for register in self.origins.registers if self.origins else ():
            if register not in shown:
                text = self.register(self.row, register)
                lines.append(f"read by the instruction in memory: {text}")
        self.add("operands", lines)

    def register(self, row, register, name=None):
        """A register's value and where it was written."""
        value, writer = operand(row, register, name), row.state[register][1]
        if self.origins and row is self.row:
            writer = self.origins.registers.get(register, writer)
        shown = "not shown" if value is None else f"0x{value:016x}"
        text = f"{ABI[register]} (x{register}) = {shown}"
        if writer:
            return f"{text}, {self.written_in(writer)}"
        is_saved = self.words.start
        return f"{text}, {'as the saved state has it' if is_saved else 'never written before'}"

    def numbered(self, count):
        """The row with a number."""
        if count not in self.by_number:
            self.by_number[count] = next(
                it for it in rows_of(self.words, count) if it.number == count)
        return self.by_number[count]

    def written_in(self, count):
        row = self.numbered(count)
        hart = f" of hart {row.hart}" if self.words.harts > 1 else ""
        return f"written in row {count}{hart} at 0x{row.pc:x}: " \
               f"{self.places.disassembly(row.pc, row.bits) or hex(row.bits)}"

    def tell_path(self):
        """Where the row is at another address or in another mode, its hart's row before is looked
        at."""
        if self.signal in ("pc_rdata", "mode", "intr", "order") and self.row.before:
            before = self.numbered(self.row.before)
            self.add("the row before decides where the hart goes on", [self.line(before)])
            self.tell_access(before)

    def tell_access(self, row):
        access = decoded(row.bits).access
        if access is None:
            return
        address = address_of(row, access)
        name = f"{access.kind} of {access.size} byte{'s' if access.size > 1 else ''}"
        if address is None:
            said = f"its address is not known: {ABI[access.base]} is not shown"
            self.add(f"access: {name}", [said])
            return
        lines = [f"address  0x{address:016x} = {ABI[access.base]} + {access.offset}"]
        physical = self.tell_place(row, access, address, lines)
        is_loaded = access.kind not in ("store", "store-conditional")
        if physical is not None and access.kind != "store":
            stored = memory_at(self.words, physical, access.size, row.number)
            if row is self.row and is_loaded:
                stored = self.by_origin(stored, physical)
            value = "not known" if stored.value is None else f"0x{stored.value:0{2 * access.size}x}"
            lines.append(f"memory   {value}, {self.stored_by(stored)}")
        elif row is self.row and self.origins:
            for address, count in self.origins.bytes.items():
                where = self.written_in(count) if count else "as the image has it"
                lines.append(f"memory   the byte at 0x{address:x} is {where}")
        self.add(f"access: {name}", lines)

    def by_origin(self, stored, physical):
        """The same with the rows that the judge names."""
        if not self.origins:
            return stored
        rows = [self.origins.bytes.get(physical + at, it) for at, it in enumerate(stored.rows)]
        return stored._replace(rows=rows)

    def stored_by(self, stored):
        """Which rows stored bytes last, each run of bytes with its row."""
        runs = []
        for at, count in enumerate(stored.rows):
            if runs and runs[-1][2] == count:
                runs[-1][1] = at
            else:
                runs.append([at, at, count])
        texts = []
        for first, last, count in runs:
            many = f"byte {first}" if first == last else f"bytes {first} to {last}"
            where = self.written_in(count) if count else "as the image has it"
            texts.append(where if len(runs) == 1 else f"{many} {where}")
        if not any(stored.rows):
            texts.append("no row stored there")
        where = ", ".join(texts)
        return f"{where}; {stored.text}" if stored.text else where

    def tell_place(self, row, access, address, lines):
        """Why the access traps, or the physical address in RAM that it has."""
        cause = 4 if access.data is None else 6
        is_misaligned = address % access.size != 0
        is_plain = access.kind in ("load", "store")
        if is_misaligned and not (is_plain and self.words.misaligned == "done"):
            lines.append(f"traps    not aligned to {access.size} bytes (cause {cause})")
            return None
        translated = is_translated(row)
        if translated is None:
            lines.append("whether it is translated is not known: show mode and csr_satp_wdata")
            return None
        physical = self.walk(row, access, address, lines) if translated else address
        if physical is None:
            return None
        if translated and address % 4096 + access.size > 4096:
            lines.append(f"place    0x{physical:x}, of the part before the end of the page")
            return None
        if self.words.ram[0] <= physical < sum(self.words.ram):
            return physical
        device = next((it for it in self.words.io if it[0] <= physical < sum(it)), None)
        if device and (fault := self.device_fault(access, is_misaligned)):
            lines.append(f"traps    a device{fault} (cause {cause + 1})")
            return None
        if device:
            more = ", and so is a refusal" if self.words.io_faults == "row" else ""
            lines.append(f"device   in --io {as_spans([device])}, whose data are the trace's{more}")
            return None
        io = self.words.io
        given = f"--io {as_spans(io)}" if io else "--io, which is not given"
        lines.append(f"traps    outside --ram 0x{self.words.ram[0]:x}:0x{self.words.ram[1]:x} and "
                     f"{given} (cause {cause + 1})")
        lines.append(f"         where a device is there: give --io 0x{physical & ~0xfff:x}:0x1000")
        return None

    def device_fault(self, access, is_misaligned):
        """Why devices refuse an access, whatever the row shows, or an empty text."""
        name = {"load-reserved": "LR", "store-conditional": "SC", "atomic": "AMO"}.get(access.kind)
        if name and (name, self.words.io_faults) != ("AMO", "row"):
            return f", which takes no {name}"
        return ", and not aligned" if is_misaligned else ""

    def walk(self, row, access, address, lines):
        """The physical address by Sv39, or None, and what the entries are."""
        satp, writer = row.satp
        lines.append(f"satp     0x{satp:016x}" + (f", {self.written_in(writer)}" if writer else ""))
        cause, table = 13 if access.data is None else 15, (satp & (1 << 44) - 1) << 12
        if signed(address & (1 << 39) - 1, 39) & MASK != address:
            lines.append(f"traps    bits 63:39 are not bit 38 (cause {cause})")
            return None
        for level in (2, 1, 0):
            at = table + 8 * (address >> 12 + 9 * level & 511)
            stored = memory_at(self.words, at, 8, row.number)
            if stored.value is None:
                lines.append(f"level {level}  0x{at:x}: the entry is not known; {stored.text}")
                return None
            entry = stored.value
            flags = "".join(name if entry >> it & 1 else "-" for it, name in enumerate("VRWXUGAD"))
            lines.append(f"level {level}  entry at 0x{at:x} is 0x{entry:016x} {flags}, "
                         f"{self.stored_by(stored)}")
            if fault := entry_fault(entry, level, row, access, self.words.ad == "set"):
                lines.append(f"traps    {fault} (cause {cause})")
                return None
            table = (entry >> 10 & (1 << 44) - 1) << 12
            if entry & 0xA:
                low = (1 << 12 + 9 * level) - 1
                return table & ~low | address & low
        return None

    def tell_registers(self):
        lines = []
        for first in range(0, 32, 4):
            texts = []
            for it in range(first, first + 4):
                value = self.row.state[it][0]
                texts.append(f"{ABI[it]:>4} " + ("?" * 16 if value is None else f"{value:016x}"))
            lines.append("  ".join(texts))
        shown = "the saved state and the trace have" if self.words.start else "the trace shows"
        self.add(f"registers before the row, as {shown} them", lines)


def entry_fault(entry, level, row, access, sets_marks):
    """Why an entry of a page table refuses an access, or None."""
    is_store = access.data is not None
    if not entry & 1:
        return "not mapped: V is 0"
    if entry >> 54 or entry & 6 == 4:
        return "bits 63:54 are set, or W without R"
    if not entry & 0xA:
        if entry & 0xD0 or level == 0:
            return "a pointer with A, D or U, or at the last level"
        return None
    if is_store and not entry & 4:
        return "not permitted: W is 0"
    if not is_store and not entry & 2:
        return "not permitted: R is 0 (unless MXR and X)"
    if row.shown.get("mode") == 0 and not entry & 16:
        return "not permitted in U: U is 0"
    has_sum = row.shown.get("csr_mstatus_rdata", 0) >> 18 & 1
    if row.shown.get("mode") == 1 and entry & 16 and not has_sum:
        return "not permitted in S: U is 1, unless SUM is set"
    if entry >> 10 & (1 << 9 * level) - 1:
        return "a large page that is not aligned"
    if not entry & 64 and not sets_marks:
        return "A is 0, which the judge's hart does not set without --ad set"
    if is_store and not entry & 128 and not sets_marks:
        return "D is 0, which the judge's hart does not set without --ad set"
    return None


def as_text(line, parts):
    blocks = [line] + ["\n".join([title, *(f"    {it}" for it in lines)]) for title, lines in parts]
    return "\n\n".join(blocks) + "\n"


def as_page(line, parts, words):
    """One page that needs no other file."""
    body = "".join(f"<h2>{html.escape(title)}</h2>\n<pre>" + "\n".join(
        f"<b>{html.escape(it)}</b>" if it.startswith(">") else html.escape(it) for it in lines)
        + "</pre>\n" for title, lines in parts)
    return f"""<!DOCTYPE html>
<html lang="en"><meta charset="utf-8"><title>{html.escape(line)}</title>
<style>body {{ font-family: sans-serif; margin: 2em }} pre {{ background: #f4f4f4; padding: 1em;
overflow-x: auto }} b {{ background: #fdd }} h2 {{ font-size: 1em }}</style>
<h1>{html.escape(line)}</h1>
<p>{html.escape(words.image)} {html.escape(words.trace)}</p>
{body}</html>
"""


def write_marker(wave, row):
    """A save file of GTKWave with its marker at the row's time."""
    at = row.shown.get("time", row.shown.get("cycle"))
    if at is None:
        raise Refused("--gtkw: the trace has neither a column time nor a column cycle")
    Path(f"{wave}.gtkw").write_text(
        f'[dumpfile] "{Path(wave).resolve()}"\n[timestart] {max(0, at - 100)}\n'
        f"*-5.000000 {at}{' -1' * 26}\n", encoding="utf-8")


def judged(words):
    """The judge's status and lines, with --origin where it knows this word."""
    for more in ([] if "--origin" in words.options else ["--origin"]), []:
        status, said, told = run_judge(words, more)
        if (status, said) != (2, "refused words") or not more:
            break
    if not 0 <= status <= 6:
        raise Refused(f"the judge ended with status {status}: {told}")
    return status, (said or told).split("\n")


def run_judge(words, more):
    """The judge's status, and what it printed and told."""
    with opened(words.trace, is_whole=False) as source:
        is_packed = unpacker_of(words.trace) is not None
        trace = "/dev/stdin" if is_packed else words.trace
        ran = subprocess.run(
            [words.program, "judge", words.image, trace, *words.options, *more],
            stdin=source if is_packed else subprocess.DEVNULL,
            stdout=subprocess.PIPE, stderr=subprocess.PIPE, text=True)
    return ran.returncode, ran.stdout.strip(), ran.stderr.strip()


def value_of(options, name):
    """The value of an option of the judge, or None."""
    for word, after in zip(options, [*options[1:], ""]):
        if word.partition("=")[0] == f"--{name}":
            return word.partition("=")[2] or after
    return None


def default_of(name):
    return judge_words.WORDS[f"--{name}"].default


def spans(options, name):
    """Base and size of each range of an option."""
    text = value_of(options, name) or default_of(name)
    if text == "none":
        return []
    return [tuple(number(it) for it in part.split(":")) for part in text.split(",")]


def as_spans(ranges):
    return ",".join(f"0x{base:x}:0x{size:x}" for base, size in ranges)


def arguments(given):
    parser = parser_of(__doc__, prog="explain.py")
    add = parser.add_argument
    add("image", metavar="IMAGE")
    add("trace", metavar="TRACE")
    add_program(parser)
    add("--elf", metavar="FILE", help="the program, for functions and source lines")
    add("--rows", type=int, default=8, metavar="N", help="rows that are shown (default 8)")
    add("--html", metavar="FILE", help="write the explanation as one page")
    add("--gtkw", metavar="WAVE", help="write WAVE.gtkw, with a marker at the row")
    cut = given.index("--") if "--" in given else len(given)
    words = parser.parse_args(given[:cut])
    words.options = given[cut + 1:]
    words.ram = spans(words.options, "ram")[0]
    words.io = spans(words.options, "io")
    core = PROFILES.get(value_of(words.options, "profile"), {})
    for name in CHOICES:
        value = value_of(words.options, name) or core.get(name, default_of(name))
        setattr(words, name.replace("-", "_"), value)
    words.harts = number(value_of(words.options, "harts") or default_of("harts"))
    return words


def elf_of(image):
    """The image, where it is an ELF file."""
    with open(image, "rb") as file:
        return image if file.read(len(elf_image.MAGIC)) == elf_image.MAGIC else None


def explain(words):
    status, (line, *more) = judged(words)
    found = DIFFERS.fullmatch(line)
    if found is None:
        print("\n".join([line, *more]))
        return status
    words.start = registers_at(words.image)
    rows = deque(rows_of(words, int(found[1])), max(1, words.rows))
    if not rows or rows[-1].number != int(found[1]):
        raise Refused(f"row {found[1]} was not found in {words.trace}")
    places = Places(words.elf or elf_of(words.image))
    explanation = Explanation(words, places, found, list(rows), origins_in(more))
    parts = places.filled(explanation.parts)
    print(as_text(line, parts), end="")
    if words.html:
        Path(words.html).write_text(as_page(line, parts, words), encoding="utf-8")
    if words.gtkw:
        write_marker(words.gtkw, rows[-1])
    return status


def main():
    words = arguments(sys.argv[1:])
    return ends("explain.py", lambda: explain(words), 70)


if __name__ == "__main__":
    sys.exit(main())
