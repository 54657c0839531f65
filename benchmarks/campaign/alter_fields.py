#!/usr/bin/env python3
"""Alters single fields of a trace and holds a program to foretold answers.

    alter_fields.py IMAGE TRACE [PROGRAM] [--io BASE:SIZE] [--count N] [--seed S] [--jobs J] [--keep FOLDER]
        [--cut MOST]

Each of the N altered traces is the front of TRACE up to some rows after the altered one, with one field
altered; rows well before it do not show the registers. The whole answer is foretold by judge.py, which goes
on from a state before the altered row; then PROGRAM judges the altered trace from its beginning, and must
print that answer and end with its status; with --cut, in segments of up to MOST rows and windows of up to
MOST segments, both drawn for each trace. Without PROGRAM the answers are only foretold. The status is 1
where an answer is not as foretold, where the unaltered trace does not agree, or where too few alterations
are of bits that are compared.
"""
import argparse
import os
import subprocess
import sys
import tempfile
from concurrent.futures import ThreadPoolExecutor
from pathlib import Path
from random import Random
from typing import NamedTuple

# The hart and its judge are those of the folder beside this one.
sys.path.insert(0, str(Path(__file__).resolve().parents[1] / "interpreter"))

from hart_instructions import LOADS, STORES, decode, expand
from hart_memory import Memory, Ranges, read_image
from hart_registers import ADDRESSES, DECIDED, SATP_MODE_AT, SV39, M
from judge import PLAIN, WIDTHS, Judge, answer, number, read_row
from profile_words import read_ranges
from reference_hart import Hart

EVERY = 32  # rows between two kept states
ROWS_AFTER = 6  # rows of an altered trace after the altered one
TRIES = 200  # alterations that are tried for one that makes a difference
NEVER_EMPTY = ("insn", "pc_rdata")  # a row without them cannot be read
AGREEMENTS = 9  # of 100 alterations so many may make no difference


class Alteration(NamedTuple):
    """A field of a row, counted from 0, its other text, and the answer that is due."""

    row: int
    column: str
    text: str
    due: str

    def makes_difference(self):
        return self.due.startswith("differs")


class Trace:
    """The lines of a trace with their rows, and states of a judge along it."""

    def __init__(self, path, judge):
        with open(path, encoding="ascii") as text:
            self.header, *self.lines = text.readlines()
        self.columns = [name.removeprefix("rvfi_") for name in self.header.rstrip("\n").split(",")]
        self.rows = [read_row(self.columns, line) for line in self.lines]
        self.thin = list(self.thin_lines())
        self.kept = []  # each: the judge before a row, and the number of valid rows before it
        self.translating = set()  # the numbers of the rows while satp says that addresses are translated
        valid = 0
        for at, row in enumerate(self.rows):
            if at % EVERY == 0:
                self.kept.append((judge.copy(), valid))
            if judge.hart.csrs.values["satp"] >> SATP_MODE_AT == SV39:
                self.translating.add(at)
            self.verdict = answer(judge, [row], at, valid)
            if self.verdict.startswith("differs"):
                return
            valid = int(self.verdict.split()[1])

    def thin_lines(self):
        """The lines without registers but mip: what a hart needs to be stepped along them, in fewer bytes."""
        hidden = [at for at, name in enumerate(self.columns) if name.startswith("csr_") and "_mip_" not in name]
        for line in self.lines:
            fields = line.rstrip("\n").split(",")
            for at in hidden:
                fields[at] = ""
            yield ",".join(fields) + "\n"

    def end_of(self, row):
        """Where an altered trace ends."""
        return min(row + 1 + ROWS_AFTER, len(self.rows))

    def altered_line(self, row, column, text):
        fields = self.lines[row].rstrip("\n").split(",")
        fields[self.columns.index(column)] = text
        return ",".join(fields) + "\n"

    def foretell(self, row, column, text):
        """The answer to the front of the trace with this field altered."""
        judge, valid = self.kept[row // EVERY]
        first = row - row % EVERY
        rows = self.rows[first : self.end_of(row)]
        rows[row - first] = read_row(self.columns, self.altered_line(row, column, text))
        return answer(judge.copy(), rows, first, valid)

    def write_altered(self, path, alteration):
        """The rows well before the altered one are thin: that they agree is known."""
        row, column, text, _ = alteration
        whole = max(0, row - EVERY)
        with open(path, "w", encoding="ascii") as altered:
            altered.write(self.header)
            altered.writelines(self.thin[:whole])
            altered.writelines(self.lines[whole:row])
            altered.write(self.altered_line(row, column, text))
            altered.writelines(self.lines[row + 1 : self.end_of(row)])


def instruction_of(row):
    """The instruction that a row shows, None where it shows none."""
    bits = row["insn"]
    return decode(bits) if bits & 3 == 3 else expand(bits)


def choice_shown(row, devices):
    """What a core chose in a row, and the columns that show it."""
    instruction = instruction_of(row)
    if row.get("valid") == 0 or instruction is None:
        return None, ()
    csr = ADDRESSES.get(instruction.csr)
    match instruction.name:
        case "SC.W" | "SC.D":
            return "store", ("rd_wdata", "mem_wmask")
        case "ECALL" | "EBREAK" | "WFI":
            return "call", ("trap",)
        case name if name.startswith("CSRR") and csr in DECIDED:
            return "value", ("rd_wdata", "trap") if csr == "time" else ("rd_wdata",)
        case name if name.startswith("CSRR") and csr in ("mip", "sip"):
            return "lines", ("rd_wdata", "csr_mip_rdata", "csr_mip_rmask")
        case name if name in LOADS and row.get("mem_paddr") in devices:
            return "device", ("mem_rdata", "rd_wdata", "mem_addr")
    return ("interrupt", ("intr", "csr_mip_rdata", "csr_mip_rmask")) if row.get("intr") else (None, ())


def kinds_of_rows(trace):
    """The numbers of all rows, and of those of each kind.

    Traps, handlers, S and U, the system, stores and loads; under translation S and U, traps, and accesses whose
    physical address is another one.
    """
    numbered = list(enumerate(trace.rows))
    names = [instruction.name if instruction else "" for instruction in map(instruction_of, trace.rows)]
    traps = [at for at, row in numbered if row.get("trap")]
    lower = [at for at, row in numbered if row.get("mode", M) != M]
    stores = [at for at, name in enumerate(names) if name in STORES or name.startswith(("AMO", "SC"))]
    loads = [at for at, name in enumerate(names) if name in LOADS or name.startswith(("AMO", "LR"))]
    return [
        range(len(trace.rows)),
        traps,
        [at for at, row in numbered if row.get("intr") and not row.get("trap")],
        lower,
        [at for at, row in numbered if row["insn"] & 0x7F == 0x73],
        stores,
        loads,
        [at for at in lower if at in trace.translating],
        [at for at in traps if at in trace.translating],
        [at for at in stores + loads if at in trace.translating and is_moved(trace.rows[at])],
    ]


def is_moved(row):
    """Whether a row shows an access whose physical address is not the virtual one."""
    both = row.get("mem_addr"), row.get("mem_paddr")
    return not row.get("trap") and None not in both and both[0] != both[1]


def other_text(chance, column, old):
    """Another text for a field: one bit flipped, another number, or nothing."""
    width = WIDTHS[column]
    if old < 2 and chance.getrandbits(1):
        return f"0x{1 - old:x}"
    kind = chance.getrandbits(4)
    if kind == 0 and column not in NEVER_EMPTY:
        return ""
    if kind < 12:  # half of these among the low bits
        return f"0x{old ^ 1 << chance.getrandbits(16) % min(width, 12 if kind < 6 else 64):x}"
    value = chance.getrandbits(width)
    return f"0x{value if value != old else old ^ 1:x}"


class Alterations:
    """Makes alterations by a chance that is the same for the same seed."""

    def __init__(self, trace, seed, devices):
        self.trace = trace
        self.chance = Random(seed)
        # Plain columns are fewer than those of registers and come more often.
        self.columns = [name for name in trace.columns for _ in range(3 if name in PLAIN else 1)]
        kinds = kinds_of_rows(trace)
        self.translated = set().union(*kinds[-3:])
        self.kinds = [kind for kind in kinds if kind]
        choices = {}
        for at, row in enumerate(trace.rows):
            choice, columns = choice_shown(row, devices)
            choices.setdefault(choice, []).extend((at, name) for name in columns if name in row)
        self.choices = [shown for shown in choices.values() if shown]

    def pick(self, items):
        return items[self.chance.getrandbits(32) % len(items)]

    def field_of(self, column):
        """A row that shows this column; rows of each kind come as often."""
        while True:
            row = self.pick(self.pick(self.kinds))
            if column in self.trace.rows[row]:
                return row, column

    def altered(self, row, column):
        text = other_text(self.chance, column, self.trace.rows[row][column])
        return Alteration(row, column, text, self.trace.foretell(row, column, text))

    def one(self, draw, may_agree):
        """One of the fields that are drawn; one that makes a difference where it must and can."""
        for _ in range(TRIES):
            found = self.altered(*draw())
            if may_agree or found.makes_difference():
                break
        return found

    def make(self, count):
        """So many: the columns in turn, and in 3 of 16 cases a field by which a core shows a choice."""
        agreements = turn = 0
        for _ in range(count):
            of_choice = self.choices and self.chance.getrandbits(4) < 3
            may_agree = self.chance.getrandbits(1 if of_choice else 5) == 0
            may_agree = may_agree and 100 * (agreements + 1) <= AGREEMENTS * count
            if of_choice:
                found = self.one(lambda: self.pick(self.pick(self.choices)), may_agree)
            else:
                column = self.columns[turn % len(self.columns)]
                turn += 1
                found = self.one(lambda: self.field_of(column), may_agree)
            agreements += not found.makes_difference()
            yield found


def judged(options, trace, folder, alteration):
    """What the program prints and its status."""
    command = [options.program, "judge", options.image]
    if options.io:
        command += ["--io", options.io]
    if options.cut:
        chance = Random(f"{options.seed} {alteration}")
        for name, most in (("segment", options.cut), ("window", options.cut), ("workers", 3)):
            command.append(f"--{name}={chance.randint(1, most)}")
    with tempfile.NamedTemporaryFile(dir=folder) as file:
        trace.write_altered(file.name, alteration)
        run = subprocess.run([*command, file.name], stdout=subprocess.PIPE, check=False)
    return run.stdout.decode("utf-8", "replace").strip(), run.returncode


def compare(trace, altered, options):
    """The number of answers that are not as foretold; prints the first of them."""
    wrong = 0
    with tempfile.TemporaryDirectory() as folder, ThreadPoolExecutor(options.jobs) as pool:

        def run(alteration):
            return judged(options, trace, folder, alteration)

        for place, (alteration, (said, status)) in enumerate(zip(altered, pool.map(run, altered))):
            due_status = 1 if alteration.makes_difference() else 0
            if (said, status) == (alteration.due, due_status):
                continue
            wrong += 1
            if wrong <= 20:
                row, column, text, due = alteration
                print(f"row {row + 1}, {column} altered to {text or 'nothing'}:\n  foretold: {due}")
                print(f"  answered: {said} (status {status})")
            if options.keep:
                options.keep.mkdir(parents=True, exist_ok=True)
                trace.write_altered(options.keep / f"altered_{place}.csv", alteration)
    return wrong


def main():
    parser = argparse.ArgumentParser(description=__doc__, formatter_class=argparse.RawDescriptionHelpFormatter)
    parser.add_argument("image")
    parser.add_argument("trace")
    parser.add_argument("program", nargs="?")
    parser.add_argument("--io", help="the range of devices, for the program and here")
    parser.add_argument("--count", type=number, default=1000)
    parser.add_argument("--seed", type=number, default=1)
    parser.add_argument("--jobs", type=number, default=os.cpu_count())
    parser.add_argument("--keep", type=Path, help="where to put the traces with a wrong answer")
    parser.add_argument("--cut", type=number, help="the most rows of a segment, and segments of a window")
    options = parser.parse_args()
    devices = read_ranges(options.io) if options.io else Ranges()
    trace = Trace(options.trace, Judge(Hart(Memory(read_image(options.image)), devices=devices)))
    print(f"unaltered: {trace.verdict}")
    if trace.verdict.startswith("differs"):
        return 1
    alterations = Alterations(trace, options.seed, devices)
    altered = list(alterations.make(options.count))
    compared = sum(alteration.makes_difference() for alteration in altered)
    columns = len({alteration.column for alteration in altered})
    translated = sum(alteration.row in alterations.translated for alteration in altered)
    print(f"altered: {len(altered)} fields of {columns} columns, {translated} under translation")
    print(f"foretold: {compared} differences, {len(altered) - compared} agreements")
    wrong = 0
    if options.program:
        wrong = compare(trace, altered, options)
        print(f"answers not as foretold: {wrong}")
    return 1 if wrong or 10 * compared < 9 * len(altered) else 0


if __name__ == "__main__":
    sys.exit(main())
