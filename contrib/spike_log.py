#!/usr/bin/env python3
"""Turns the log of Spike into a trace that rvjudge judges.

    spike -l --log-commits --log=run.log --isa=rv64imac program.elf
    spike_log.py run.log -o run.csv

-l lists each instruction as it is fetched, and each trap and interrupt; --log-commits lists what
each instruction that retired has written. Both are needed. Without LOG, or with - for it, standard
input is read. A row is written for each instruction that retired or trapped, from the first at --pc
on; what the log does not show stays an empty field. Memory use does not grow with the log.

Judge with --bits on where Spike was run with _zba_zbb_zbs in --isa.

Where the boot code has left registers that are not 0, the last lines on standard error are the commands
by which the judge begins with these: make_state.py makes the state.

What is not said on a row: the mode of an instruction that traps, what a load found in memory, and
registers that have no column. The last are counted on standard error.
"""
import re
import sys
from collections import Counter

import make_state
from common import (
    RESET_PC, Refused, add_log, convert_log, number_word, parser_of, row_writer, take_log_words,
)

CSRS = (
    "mstatus", "misa", "medeleg", "mideleg", "mie", "mtvec", "mscratch", "mepc", "mcause", "mtval",
    "mip", "satp", "sstatus", "sie", "sip", "stvec", "sscratch", "sepc", "scause", "stval",
    "pmpcfg0", "pmpcfg2",
)
COLUMNS = (
    "intr", "pc_rdata", "mode", "trap", "insn", "rd_addr", "rd_wdata", "pc_wdata", "mem_addr",
    "mem_wmask", "mem_wdata", "csr_mip_rmask", "csr_mip_rdata",
    *(f"csr_{name}_wdata" for name in CSRS),
)
# The instruction's bits are not known where these were raised.
FETCHES = (
    "trap_instruction_address_misaligned", "trap_instruction_access_fault",
    "trap_instruction_page_fault",
)
LINE = re.compile(r"core +(\d+): *(.*)")
LISTED = re.compile(r"0x([0-9a-f]+) \(0x([0-9a-f]+)\) ?(.*)")
COMMITTED = re.compile(r"([0-3]) 0x([0-9a-f]+) \(0x([0-9a-f]+)\)(.*)")
RAISED = re.compile(r"exception (.+), epc 0x([0-9a-f]+)")
INTERRUPT = re.compile(r"interrupt #(\d+)")
# An instruction as it is listed, and after it as it retired, where it wrote no more than a
# register and made no more than one access: most of a log.
PLAIN = re.compile(
    r"core +(\d+): 0x([0-9a-f]{16}) \(0x([0-9a-f]+)\)[^\n]*\n"
    r"core +(\d+): ([0-3]) 0x([0-9a-f]{16}) \(0x0*([0-9a-f]+)\)(?: x(\d+) +0x0*([0-9a-f]+))?"
    r"(?: mem 0x([0-9a-f]{16})(?: 0x([0-9a-f]+))?)?\n")
CHUNK = 1 << 20  # bytes that are read at once
PASSED_OVER = re.compile(r">>>> |Executed \d+ times|tval 0x|$")


BEFORE, AFTER = COLUMNS[: COLUMNS.index("pc_wdata")], COLUMNS[COLUMNS.index("pc_wdata") + 1 :]
REST = "," * len(AFTER[3:]) + "\n"  # the fields of registers, all empty
NO_REGISTER, NO_ACCESS = "0x0,0x0,", ",,0x0," + REST
REGISTERS = {str(it): f"0x{it:x}," for it in range(32)}


def address(digits):
    if len(digits) != 16:
        raise Refused(f"0x{digits} has not the 16 digits of a hart of 64 bits")
    return int(digits, 16)


class Converter:
    """Rows from lines. A row is held until the line after it says where the program goes on."""

    def __init__(self, start, hart, write):
        self.start = start
        self.hart = hart
        self.write = write
        self.held = None  # a row's text before pc_wdata and after it, and whether it has one
        self.hart_text = str(hart)
        self.listed = None  # address and bits of the last instruction that -l listed
        self.interrupt = None  # the code of one that was entered, until its handler's first row
        self.rows = self.before = 0
        self.written = {}  # registers and values of the instruction at hand
        self.at_start = {}  # those that were written before the first row
        self.stored = 0  # stores before it
        self.without_column = Counter()
        self.others = Counter()  # lines of other harts

    def take(self, line):
        found = LINE.fullmatch(line)
        if not found:
            raise Refused(f"no line of Spike's log (grep '^core' drops such): {line[:60]!r}")
        hart, text = found.groups()
        if int(hart) != self.hart:
            self.others[hart] += 1
        elif found := COMMITTED.fullmatch(text):
            self.commit(*found.groups())
        elif found := LISTED.fullmatch(text):
            self.listed = address(found[1]), int(found[2], 16)
        elif found := RAISED.fullmatch(text):
            self.raised(*found.groups())
        elif not PASSED_OVER.match(text):
            raise Refused(f"no line of Spike's log: {line[:60]!r}")

    def commit(self, mode, pc, insn, written):
        if self.listed is None:
            raise Refused("an instruction that -l has not listed: Spike was run without -l")
        row = {
            "pc_rdata": address(pc), "insn": int(insn, 16), "mode": int(mode), "trap": 0,
            "rd_addr": 0, "rd_wdata": 0, "mem_wmask": 0,
        }
        self.written = {}
        self.add_written(row, iter(written.split()))
        self.hold(row)

    def add_written(self, row, words):
        """What stands after an instruction: registers and values, and the accesses to memory."""
        access = None  # a mem whose next word may be the data of a store
        for word in words:
            if word == "mem":
                access = next(words, "")
                shown = address(access.removeprefix("0x"))
                if row.setdefault("mem_addr", shown) != shown:
                    raise Refused("more than one access to memory in one instruction")
            elif word.startswith("0x") and access:
                self.add_store(row, word.removeprefix("0x"))
                access = None
            else:
                self.add_register(row, word, next(words, ""))

    def add_store(self, row, digits):
        if row["mem_wmask"]:
            raise Refused("more than one store in one instruction")
        length = max(1, len(digits) // 2)  # a byte may have one digit
        row["mem_wmask"], row["mem_wdata"] = (1 << length) - 1, int(digits, 16)

    def add_register(self, row, name, value):
        if not value.startswith("0x"):
            raise Refused(f"{name!r} where a register and its value are awaited")
        if re.fullmatch(r"x\d+", name):
            if row["rd_addr"]:
                raise Refused("more than one of x1 to x31 written by one instruction")
            row["rd_addr"], row["rd_wdata"] = int(name[1:]), int(value, 16)
            self.written[name] = int(value, 16)
        elif found := re.fullmatch(r"c\d+_(\w+)", name):
            self.written[found[1]] = int(value, 16)
            if found[1] in CSRS:
                row[f"csr_{found[1]}_wdata"] = int(value, 16)
            elif self.is_begun():
                self.without_column[found[1]] += 1
        else:
            raise Refused(f"a write of {name!r}, which is no register of the judge's hart")

    def raised(self, name, pc):
        pc = address(pc)
        if found := INTERRUPT.fullmatch(name):
            self.go_on(pc)
            self.interrupt = int(found[1])
        elif name in FETCHES:
            self.hold({"pc_rdata": pc, "insn": 0, "trap": 1})
        elif self.listed is None or self.listed[0] != pc:
            raise Refused(f"{name} at 0x{pc:x}, where -l has listed no instruction")
        else:
            self.hold({"pc_rdata": pc, "insn": self.listed[1], "trap": 1})

    def is_begun(self):
        return self.held is not None or self.rows > 0

    def take_plain(self, found):
        """Takes what PLAIN matched; whether it did, or the lines are to be taken one by one."""
        hart, listed, bits, again, mode, pc, insn, rd, value, at, stored = found.groups()
        if hart != self.hart_text or again != hart or not self.held or self.interrupt is not None:
            return False
        self.listed = int(listed, 16), int(bits, 16)
        shown = pc.lstrip("0") or "0"
        before, after, goes_on = self.held
        self.write(f"{before}0x{shown}{after}" if goes_on else before + after)
        self.rows += 1
        if rd is None or rd == "0":
            register = NO_REGISTER if rd is None else f"0x0,0x{value},"
        else:
            register = f"{REGISTERS[rd]}0x{value},"
        if at is None:
            access = NO_ACCESS
        elif stored is None:
            access = f",0x{at.lstrip('0') or '0'},0x0,{REST}"
        else:
            mask = (1 << max(1, len(stored) // 2)) - 1
            access = f",0x{at.lstrip('0') or '0'},0x{mask:x},0x{stored.lstrip('0') or '0'}{REST}"
        self.held = f"0x0,0x{shown},0x{mode},0x0,0x{insn},{register}", access, True
        return True

    def hold(self, row):
        if not self.is_begun() and row["pc_rdata"] != self.start:
            self.before += 1
            self.at_start |= self.written
            self.stored += row.get("mem_wmask", 0) != 0
            self.interrupt = None
            return
        self.go_on(row["pc_rdata"])
        row["intr"] = int(self.interrupt is not None)
        if self.interrupt is not None:
            row["csr_mip_rmask"] = row["csr_mip_rdata"] = 1 << self.interrupt
        self.interrupt = None
        before, after = (
            ["" if row.get(name) is None else f"0x{row[name]:x}" for name in names]
            for names in (BEFORE, AFTER))
        self.held = ",".join(before) + ",", "," + ",".join(after) + "\n", not row["trap"]

    def go_on(self, pc):
        """Writes the row that is held, after which the program goes on at pc."""
        if self.held:
            before, after, goes_on = self.held
            self.write(before + (f"0x{pc:x}" if goes_on and pc is not None else "") + after)
            self.held = None
            self.rows += 1

    def tell(self):
        """What standard error gets of a log that was read."""
        yield f"{self.rows} rows"
        if self.before:
            yield f"{self.before} rows before 0x{self.start:x} are left out"
        if self.stored:
            yield f"{self.stored} stores before 0x{self.start:x}: the image must have their bytes"
        for hart, lines in sorted(self.others.items()):
            yield f"{lines} lines of core {hart} are left out"
        for name, writes in sorted(self.without_column.items()):
            yield f"{writes} writes of {name}, which has no column, are left out"

    def set_at_start(self):
        """The registers that are not 0 before the first row, as far as the log says."""
        known = {*make_state.CSRS, *make_state.REGISTERS} - {"x0"}
        return {name: value for name, value in self.at_start.items() if value and name in known}


def arguments():
    parser = parser_of(__doc__)
    add_log(parser, "csr_medeleg_wdata")
    parser.add_argument("--pc", type=number_word, default=RESET_PC, metavar="A",
                        help="address of the first row, as the judge's --pc (default 0x80000000)")
    parser.add_argument("--hart", type=number_word, default=0, metavar="N",
                        help="the core whose rows are written (default 0)")
    return take_log_words(parser, COLUMNS)


class Reader:
    """Takes a log to a converter: what is plain at once, all else by lines."""

    def __init__(self, converter):
        self.converter = converter
        self.at = 0  # the line that is taken
        self.rest = ""

    def take(self, text):
        """Takes the whole lines of some more text."""
        text, position = self.rest + text, 0
        match, take_plain, find = PLAIN.match, self.converter.take_plain, text.find
        while True:
            if (found := match(text, position)) and take_plain(found):
                self.at += 2
                position = found.end()
                continue
            if (end := find("\n", position)) < 0:
                break
            self.at += 1
            self.converter.take(text[position:end].rstrip())
            position = end + 1
        self.rest = text[position:]

    def finish(self):
        """Takes a last line without an end."""
        if self.rest:
            self.at += 1
            self.converter.take(self.rest.rstrip())
        self.converter.go_on(None)


def convert(log, words, out):
    """Writes the trace of a log, and says on standard error what was left out."""
    converter = Converter(words.pc, words.hart, row_writer(out, COLUMNS, words.without))
    reader = Reader(converter)
    try:
        while chunk := log.read1(CHUNK):
            reader.take(chunk.decode("latin-1"))
        reader.finish()
        if not converter.rows:
            raise Refused(f"no instruction at 0x{words.pc:x}")
    except Refused as fault:
        raise Refused(f"{words.log}: line {reader.at}: {fault}") from None
    for text in converter.tell():
        print(f"spike_log.py: {text}", file=sys.stderr)
    if found := converter.set_at_start():
        print("spike_log.py: registers are set before the first row; to begin with them:",
              *make_state.command_lines([found], words.pc, words.o), sep="\n", file=sys.stderr)


if __name__ == "__main__":
    sys.exit(convert_log("spike_log.py", arguments(), convert))
