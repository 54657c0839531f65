#!/usr/bin/env python3
"""Tells what traces exercised, and what in them the judge would pass over.

    cover.py TRACE.. [--bits on] [--json FILE] [--lint]

An agreement is worth what the trace shows. For all traces together: the instructions of the judge's
table that retired, and those that never did; exceptions, interrupts, control and status registers,
modes, harts, page sizes, the sizes and alignments of accesses; columns that are never or partly
filled. Where the column hart is there each hart's rows are followed by themselves.
The 40 instructions of bit manipulation (Zba, Zbb, Zbs) are of the table with --bits on, and where
one of them retired.

Then the lint: names that the judge does not know and passes over, rd_wdata left empty where rd is
not x0, addresses without their 0x, rows out of order, harts that the judge cannot have, a trace
without a valid row. time and cycle are names of explain.py, and are no fault. With --lint alone
these are told.

A cause is known where mcause or scause is shown, or by the instruction; a page's size only where
mem_paddr is shown, by the bits that translation changed. Traces may be packed (.gz, .zst). Memory
use does not grow with the traces.

Status: 0, or 3 where the lint found something, or 2 where a trace could not be read.
"""
import difflib
import json
import sys
from collections import Counter
from pathlib import Path

from common import (
    MOST_HARTS, Refused, ends, fields_under, header_of, names_of, number, opened, parser_of,
    shown_lines,
)
from instructions import BIT_MANIPULATION, ILLEGAL, TABLE, decoded, name_of

PLAIN = (
    "valid order intr pc_rdata mode ixl trap insn rs1_addr rs1_rdata rs2_addr rs2_rdata rd_addr "
    "rd_wdata pc_wdata mem_addr mem_rmask mem_rdata mem_wmask mem_wdata mem_paddr halt "
    "hart").split()
CSR_COLUMNS = (
    "mstatus misa medeleg mideleg mie mtvec mscratch mepc mcause mtval mip satp sstatus sie sip "
    "stvec sscratch sepc scause stval pmpcfg0 pmpcfg2").split()
KNOWN = PLAIN + [f"csr_{it}_{part}" for it in CSR_COLUMNS
                 for part in ("rmask", "wmask", "rdata", "wdata")]
OF_EXPLAIN = ("time", "cycle")
ADDRESSES = ("pc_rdata", "pc_wdata", "mem_addr", "mem_paddr")
MODES = {0: "U", 1: "S", 3: "M"}
EXCEPTIONS = {
    1: "instruction access fault", 2: "illegal instruction", 3: "breakpoint",
    4: "load address misaligned", 5: "load access fault", 6: "store address misaligned",
    7: "store access fault", 8: "call from U", 9: "call from S", 11: "call from M",
    12: "instruction page fault", 13: "load page fault", 15: "store page fault",
}
INTERRUPTS = {
    1: "software (S)", 3: "software (M)", 5: "timer (S)", 7: "timer (M)", 9: "external (S)",
    11: "external (M)",
}
CSRS = {
    0x300: "mstatus", 0x301: "misa", 0x302: "medeleg", 0x303: "mideleg", 0x304: "mie",
    0x305: "mtvec", 0x306: "mcounteren", 0x30A: "menvcfg", 0x320: "mcountinhibit",
    0x340: "mscratch", 0x341: "mepc", 0x342: "mcause", 0x343: "mtval", 0x344: "mip",
    0x100: "sstatus", 0x104: "sie", 0x105: "stvec", 0x106: "scounteren", 0x10A: "senvcfg",
    0x140: "sscratch", 0x141: "sepc", 0x142: "scause", 0x143: "stval", 0x144: "sip", 0x180: "satp",
    0x3A0: "pmpcfg0", 0x3A2: "pmpcfg2", **{0x3B0 + it: f"pmpaddr{it}" for it in range(16)},
    0xB00: "mcycle", 0xB02: "minstret", **{0xB00 + it: f"mhpmcounter{it}" for it in range(3, 32)},
    **{0x320 + it: f"mhpmevent{it}" for it in range(3, 32)},
    0xC00: "cycle", 0xC01: "time", 0xC02: "instret",
    **{0xC00 + it: f"hpmcounter{it}" for it in range(3, 32)},
    0xF11: "mvendorid", 0xF12: "marchid", 0xF13: "mimpid", 0xF14: "mhartid", 0xF15: "mconfigptr",
}


# ---- a trace


def unknown_names(names):
    """The names that the judge does not know, each with the nearest that it knows."""
    for name in names:
        if name not in KNOWN and name not in OF_EXPLAIN:
            near = difflib.get_close_matches(name.lower(), KNOWN, 1, 0.6)
            yield f"{name}, the nearest is {near[0]}" if near else name


class Cover:
    """What the rows of all traces exercised. has_bits: the table is that of --bits on."""

    def __init__(self, has_bits=False):
        self.has_bits = has_bits
        self.rows = self.valid = 0
        self.counts = {it: Counter() for it in (
            "instructions", "exceptions", "interrupts", "registers", "modes", "harts", "pages",
            "accesses", "filled")}
        self.present = Counter()  # columns, by the rows that have them
        self.faults = Counter()
        self.first = {}  # where each fault was first
        self.trapped = {}  # by hart the row before, where it trapped
        self.orders = {}  # by hart

    def read(self, path):
        self.trapped, self.orders = {}, {}
        with opened(path) as file:
            lines = shown_lines(it.decode("latin-1") for it in file)
            try:
                names = names_of(header_of(lines))
            except Refused as fault:
                raise Refused(f"{path}: {fault}") from None
            self.lint_names(path, names)
            before = self.valid
            for at, line in lines:
                try:
                    self.take(path, at, names, fields_under(names, line))
                except Refused as fault:
                    raise Refused(f"{path}: line {at}: {fault}") from None
            for row in self.trapped.values():
                self.count_exception(row, {})
            if self.valid == before:
                self.fault(path, 1, "no valid row")

    def fault(self, path, line, text):
        self.faults[text] += 1
        self.first.setdefault(text, f"{path}: line {line}")

    def lint_names(self, path, names):
        for text in unknown_names(names):
            self.fault(path, 1, f"the judge does not know the column {text}")
        for name in ("insn", "pc_rdata"):
            if name not in names:
                self.fault(path, 1, f"the column {name}, which is needed, is missing")

    def take(self, path, at, names, fields):
        self.rows += 1
        row = {}
        for name, text in zip(names, fields):
            if not text:
                continue
            if name in ADDRESSES and len(text) >= 8 and text.isdigit() and text[0] != "0":
                self.fault(path, at, f"{name} is a number of 8 digits and more without 0x")
            if shown := text.strip(" \t"):
                row[name] = number(shown)
        if row.get("valid", 1) == 0:
            return
        self.valid += 1
        self.counts["filled"].update(row.keys())
        self.present.update(names)
        if row.get("hart", 0) >= MOST_HARTS:
            self.fault(path, at, f"hart is not 0 to {MOST_HARTS - 1}")
            row["hart"] = MOST_HARTS - 1
        self.lint_row(path, at, row)
        self.count(row)

    def lint_row(self, path, at, row):
        order, bits, hart = row.get("order"), row.get("insn"), row.get("hart", 0)
        due = self.orders.get(hart)
        if None not in (order, due) and order != due:
            self.fault(path, at, "order is not the next number")
        if order is not None or due is not None:
            self.orders[hart] = (due if order is None else order) + 1 & (1 << 64) - 1
        if bits is not None and "rd_wdata" not in row and not row.get("trap") \
                and decoded(bits).rd:
            self.fault(path, at, "rd_wdata is empty or missing where rd is not x0")

    def count(self, row):
        bits, mode = row.get("insn"), row.get("mode")
        if mode is not None:
            self.counts["modes"][MODES.get(mode, str(mode))] += 1
        hart = row.get("hart", 0)
        if self.present["hart"]:
            self.counts["harts"][str(hart)] += 1
        before = self.trapped.pop(hart, None)
        if row.get("trap"):
            self.trapped[hart] = row
        if before is not None:
            self.count_exception(before, row)
        elif row.get("intr"):
            self.count_interrupt(row)
        if bits is None:
            return
        if row.get("trap"):
            return
        name = name_of(bits)
        self.counts["instructions"][name] += 1
        if name.startswith("csrr"):
            self.counts["registers"][CSRS.get(bits >> 20, f"0x{bits >> 20:x}")] += 1
        if size := decoded(bits).size:
            self.count_access(row, size)

    def count_exception(self, before, row):
        """A trap is counted on the row after it, whose mode says where it went."""
        register = "scause" if row.get("mode") == 1 else "mcause"
        cause = before.get(f"csr_{register}_wdata", row.get(f"csr_{register}_rdata"))
        name = name_of(before.get("insn", 0))
        if cause is None and name in ("ecall", "ebreak", "c.ebreak"):
            cause = 3 if name != "ecall" else {0: 8, 1: 9, 3: 11}.get(before.get("mode"))
        if cause is None and name in (ILLEGAL, *BIT_MANIPULATION) and before.get("insn"):
            cause = 2
        self.counts["exceptions"][EXCEPTIONS.get(cause, "of a cause that is not shown")] += 1

    def count_interrupt(self, row):
        register = "scause" if row.get("mode") == 1 else "mcause"
        cause = row.get(f"csr_{register}_rdata")
        lines = row.get("csr_mip_rdata", 0) & row.get("csr_mip_rmask", -1)
        if cause is None and lines and lines & lines - 1 == 0:
            cause = lines.bit_length() - 1
        self.counts["interrupts"][
            "of a cause that is not shown" if cause is None
            else INTERRUPTS.get(cause & 63, str(cause & 63))] += 1

    def count_access(self, row, size):
        mask = row.get("mem_wmask") or row.get("mem_rmask")
        if "mem_addr" not in row or not mask:
            return
        offset = (mask & -mask).bit_length() - 1
        self.counts["accesses"][f"{size} at {row['mem_addr'] + offset & 7}"] += 1
        if "mem_paddr" in row and row.get("mode") in (0, 1):
            changed = row["mem_addr"] ^ row["mem_paddr"]
            self.counts["pages"]["4 KiB" if changed & 0x1FF000 else
                                 "2 MiB or smaller" if changed & 0x3FE00000 else "any size"] += 1

    def report(self):
        """All as one table, what was never seen included."""
        counts = self.counts
        has_bits = self.has_bits or not counts["instructions"].keys().isdisjoint(BIT_MANIPULATION)
        table = TABLE + BIT_MANIPULATION if has_bits else TABLE
        never = {
            "instructions": [it for it in table if it not in counts["instructions"]],
            "exceptions": [it for it in EXCEPTIONS.values() if it not in counts["exceptions"]],
            "interrupts": [it for it in INTERRUPTS.values() if it not in counts["interrupts"]],
            "registers": [it for it in CSRS.values() if it not in counts["registers"]
                          and "hpm" not in it],
            "modes": [it for it in MODES.values() if it not in counts["modes"]],
            "accesses": [f"{size} at {at}" for size in (1, 2, 4, 8) for at in range(0, 8, size)
                         if f"{size} at {at}" not in counts["accesses"]],
        }
        filled = counts["filled"]
        columns = {
            "not there": [it for it in PLAIN if not self.present[it]] + [
                f"csr_{it}_*" for it in CSR_COLUMNS
                if not any(self.present[f"csr_{it}_{part}data"] for part in "rw")],
            "never filled": [it for it in KNOWN if self.present[it] and not filled[it]],
            "partly filled": [f"{it} {filled[it]} of {self.valid}" for it in KNOWN
                              if 0 < filled[it] < self.valid],
        }
        seen = {it: dict(counts[it].most_common()) for it in counts if it != "filled"}
        lint = [{"fault": it, "times": self.faults[it], "first": self.first[it]}
                for it in self.faults]
        return {"rows": self.rows, "valid rows": self.valid, "seen": seen, "never": never,
                "columns": columns, "lint": lint}


TITLES = {
    "instructions": "instructions that retired", "exceptions": "exceptions",
    "interrupts": "interrupts", "registers": "control and status registers that were accessed",
    "modes": "modes", "harts": "harts", "pages": "sizes of pages, by what translation changed",
    "accesses": "accesses, bytes at address modulo 8",
}


def wrapped(words):
    """Lines of at most 96 characters."""
    line = "   "
    for word in words:
        if len(line) + len(word) > 95:
            yield line
            line = "   "
        line += f" {word},"
    if line.strip():
        yield line.rstrip(",")


def as_text(report, is_lint):
    if not is_lint:
        yield f"{report['rows']} rows, {report['valid rows']} of them valid"
        for kind, title in TITLES.items():
            if kind == "harts" and not report["seen"][kind]:
                continue
            yield f"{title}:"
            yield from wrapped(f"{it} {count}" for it, count in report["seen"][kind].items())
            if left := report["never"].get(kind):
                yield "  never:"
                yield from wrapped(left)
        for kind, names in report["columns"].items():
            if names:
                yield f"columns {kind}:"
                yield from wrapped(names)
    yield f"lint: {len(report['lint'])} kinds of fault"
    for it in report["lint"]:
        yield f"    {it['fault']}: {it['times']} times, first {it['first']}"


def main():
    parser = parser_of(__doc__)
    parser.add_argument("traces", nargs="+", metavar="TRACE")
    parser.add_argument("--bits", choices=("off", "on"), default="off",
                        help="the table is that of the judge under this option")
    parser.add_argument("--json", metavar="FILE", help="write the report as JSON")
    parser.add_argument("--lint", action="store_true", help="tell the lint alone")
    words = parser.parse_args()

    def run():
        cover = Cover(words.bits == "on")
        for path in words.traces:
            cover.read(path)
        report = cover.report()
        if words.json:
            Path(words.json).write_text(json.dumps(report, indent=1) + "\n", encoding="utf-8")
        print("\n".join(as_text(report, words.lint)))
        return 3 if report["lint"] else 0

    return ends("cover.py", run, 2)


if __name__ == "__main__":
    sys.exit(main())
