#!/usr/bin/env python3
"""Judges a trace by the hart of reference_hart.py.

    judge.py [judge|state] IMAGE TRACE [--pc A] [--ram B:S] [--io B:S,..] [--max-image M] [--max-trace M]
             [--misaligned trap|done] [--mtval value|zero|zero:C,..] [--ad fault|set] [--reserve BYTES]
             [--bits off|on] [--csr LIST] [--pmp N] [--pmp-bits B] [--lines MASK] [--io-faults none|row]
             [--insn full|length] [--harts N] [--origin]

Prints the line that `rvjudge judge` prints for an image and a trace, and ends with its status; after the
word state, where they agree, the text of the state that the hart is in at the end. The rules of
comparison are those that docs/REFERENCE.md describes, written here a second time after riscv-formal's
description of RVFI; those of the texts stand in trace_text.py, those of images that are no text of bytes
in elf_file.py and saved_state.py. Of the words it knows what these options say, and no limits of --pc and
those of bytes. An option that stands twice, and a choice that is not listed here, is refused. BYTES is a
power of two from 8 to 4096.

Five options say what the core chose that made the trace; the first values and 64 are the defaults.
hart_choices.py says what each means. Those from --csr to --insn say what the core has (hart_profile.py);
profile_words.py reads their lists. LIST has items NAME=MASK, NAME=MASK:FIXED, NAME=row, NAME=none and
NAME=maybe, C is a cause, N is 0, 8 or 16, B is from 10 to 54, and MASK is 0xA88 with bit 1, bit 5 or both.

N harts, 1 to 8, stand over one memory, each reset alike. A row steps the hart that its column
`hart` names, 0 where that is not shown; then each other hart loses its reservation where a byte of
RAM that the step wrote lies in its block. With --origin, which is for judging alone, lines after
that of a difference say which earlier rows wrote last what the differing row works on
(row_origin.py).
"""
import argparse
import sys
from pathlib import Path
from typing import NamedTuple

import elf_file
import hart_choices
import hart_profile
import saved_state
from hart_choices import Choices
from hart_instructions import MASK
from hart_memory import RAM, Memory, Ranges
from hart_profile import FOR_S, LINES, Profile
from hart_registers import M
from profile_words import read_range, read_ranges, read_registers, read_trap_values, word_number
from reference_hart import BREAKPOINT, CALL_FROM_U, Core, Hart
from row_origin import Last
from trace_text import Refused, read_image, read_rows

# the columns with their bits, in the order of comparison; halt is never compared
PLAIN = {
    "valid": 1, "order": 64, "intr": 1, "pc_rdata": 64, "mode": 2, "ixl": 2, "trap": 1, "insn": 32,
    "rs1_addr": 5, "rs1_rdata": 64, "rs2_addr": 5, "rs2_rdata": 64, "rd_addr": 5, "rd_wdata": 64,
    "pc_wdata": 64, "mem_addr": 64, "mem_rmask": 8, "mem_rdata": 64, "mem_wmask": 8, "mem_wdata": 64,
    "mem_paddr": 64, "halt": 1,
}
CSRS = (
    "mstatus", "misa", "medeleg", "mideleg", "mie", "mtvec", "mscratch", "mepc", "mcause", "mtval", "mip",
    "satp", "sstatus", "sie", "sip", "stvec", "sscratch", "sepc", "scause", "stval", "pmpcfg0", "pmpcfg2",
)
WIDTHS = PLAIN | {
    f"csr_{name}_{part}": 64 for name in CSRS for part in ("rmask", "wmask", "rdata", "wdata")
}
HART = "hart"  # the column that names a row's hart, which is not compared
KNOWN = WIDTHS | {HART: 64}  # all columns that are known
MOST_HARTS = 8
CSR_DATA = [(name, f"csr_{name}_rdata", f"csr_{name}_wdata") for name in CSRS]

CALLS = range(CALL_FROM_U, CALL_FROM_U + M + 1)


class Difference(NamedTuple):
    """A signal that is not as expected, with both values under the mask of what is compared."""

    signal: str
    expected: int
    found: int


class Expected(NamedTuple):
    """What a signal must show in the bits of the mask."""

    signal: str
    value: int
    mask: int = MASK


def number(text):
    return int(text, 16) if text[:2] in ("0x", "0X") else int(text)


def read_row(columns, line):
    """The signals that a line shows which has neither quotes nor blanks nor anything to refuse."""
    return {
        column: number(field) for column, field in zip(columns, line.rstrip("\n").split(","), strict=True) if field
    }


def csr_shown(row, name, part):
    """The bits of a register's value that a row shows, as a mask."""
    if f"csr_{name}_{part}data" not in row:
        return 0
    return row.get(f"csr_{name}_{part}mask", MASK)


def distance(row, access):
    """How far after mem_addr the access begins; None where mem_addr is not shown."""
    return access.address - row["mem_addr"] & MASK if "mem_addr" in row else None


class RowCore(Core):
    """A core that chose what a row shows; driven has the bits of mip that are lines."""

    def __init__(self, row, driven=LINES):
        self.row = row
        self.driven = driven
        self.shown_lines = csr_shown(row, "mip", "r") & driven
        self.up = row.get("csr_mip_rdata", 0) & self.shown_lines

    def stores(self, instruction):
        if instruction.rd and "rd_wdata" in self.row:
            return self.row["rd_wdata"] == 0
        return self.row.get("mem_wmask", 1) != 0

    def decided(self, name, instruction):
        return self.row.get("rd_wdata", 0)

    def lines(self, instruction):
        return self.up | self.row.get("rd_wdata", 0) & self.driven & ~self.shown_lines

    def refuses(self, instruction):
        return self.row.get("trap", 0) == 1

    def device_refuses(self, place, length):
        return self.row.get("trap", 0) == 1

    def device_load(self, address, place, length):
        bits, offset = (1 << 8 * length) - 1, address - self.row.get("mem_addr", 0) & MASK
        if "mem_addr" in self.row and "mem_rdata" in self.row and offset <= 8 - length:
            return self.row["mem_rdata"] >> 8 * offset & bits
        return self.row.get("rd_wdata", 0) & bits


class Judge:
    """A hart that is stepped along the rows, and what is known of the trace besides."""

    def __init__(self, hart):
        self.hart = hart
        self.next_order = None
        self.trapped_last = False
        self.halted = False
        self.retired = None  # what the last row's step did; None where the hart was halted

    def copy(self):
        judge = Judge(self.hart.copy())
        judge.next_order, judge.trapped_last, judge.halted = self.next_order, self.trapped_last, self.halted
        return judge

    def judge(self, row):
        """Steps the hart along a valid row; the first difference, None where there is none."""
        self.retired = None
        for signal, value, mask in list(self.expect(row)):
            found = row.get(signal, 1 if signal == "valid" else None)
            if found is not None and (found ^ value) & mask:
                return Difference(signal, value & mask, found & mask)
        return None

    def expect(self, row):
        """What the signals of a row must show, in the order of comparison; steps the hart on the way."""
        if self.halted:
            yield Expected("valid", 0)
            return
        if self.next_order is not None:
            yield Expected("order", self.next_order)
        known = self.next_order if self.next_order is not None else row.get("order")
        self.next_order = known if known is None else known + 1 & MASK
        profile = self.hart.choices.profile
        hart, hart.core = self.hart, RowCore(row, profile.lines)
        if row.get("intr") == 1 and not (self.trapped_last and row["pc_rdata"] == hart.pc):
            code = hart.csrs.pending(hart.mode, hart.core.up)
            if code is None:
                yield Expected("intr", 0)  # that differs
            else:
                hart.take_interrupt(code)
        mode, registers = hart.mode, list(hart.registers)
        shown = [name for name, before, after in CSR_DATA if before in row or after in row]
        before = self.csr_values(shown)
        retired = self.retired = hart.step()
        after = self.csr_values(shown)
        self.trapped_last, self.halted = retired.trap is not None, row.get("halt") == 1
        yield from expect_head(retired, mode, profile)
        if not retired.trap:
            yield from expect_registers(retired, row, registers)
            yield from expect_memory(retired.access, row)
        yield from expect_csrs(row, before, after, profile)

    def csr_values(self, names):
        return {name: self.hart.csrs.read(name, self.hart.core.up) for name in names}


def expect_head(retired, mode, profile):
    """From pc_rdata to insn."""
    yield Expected("pc_rdata", retired.pc)
    yield Expected("mode", mode)
    yield Expected("ixl", 2)
    trap = retired.trap
    if not (trap and (trap.cause == BREAKPOINT or trap.cause in CALLS)):
        yield Expected("trap", 1 if trap else 0)
    if retired.bits is not None:
        is_half = retired.length == 2 and profile.insn == "length"
        yield Expected("insn", retired.bits, 0xFFFF if is_half else MASK)


def expect_registers(retired, row, registers):
    """From rs1_addr to pc_wdata, of an instruction that did not trap."""
    instruction = retired.instruction
    for source, read in (("rs1", instruction.rs1), ("rs2", instruction.rs2)):
        if read:
            yield Expected(f"{source}_addr", read)
        named = row.get(f"{source}_addr", read or None)
        if named is not None:
            yield Expected(f"{source}_rdata", registers[named])
    yield Expected("rd_addr", instruction.rd)
    yield Expected("rd_wdata", retired.value)
    yield Expected("pc_wdata", retired.next_pc)


def expect_memory(access, row):
    """The signals of memory, of an instruction that did not trap."""
    if access is None:
        yield Expected("mem_wmask", 0)
        return
    offset = distance(row, access)
    shown = offset is not None
    if shown and offset > 8 - access.length:
        yield Expected("mem_addr", access.address)
        return  # that differs
    offset = offset or 0
    touched = (1 << access.length) - 1 << offset
    places = (1 << 8 * access.length) - 1 << 8 * offset
    if shown and access.read is not None:
        yield Expected("mem_rmask", touched, touched)
        yield Expected("mem_rdata", access.read << 8 * offset, places)
    if access.written is None:
        yield Expected("mem_wmask", 0)
    elif shown:
        yield Expected("mem_wmask", touched)
        yield Expected("mem_wdata", access.written << 8 * offset, places)
    yield Expected("mem_paddr", access.place - offset & MASK)


def expect_csrs(row, before, after, profile):
    """The registers before the instruction and after it, under the row's masks."""
    for name in before:
        if profile.words.get(name) == "row":
            continue  # its values are the core's own
        told = MASK
        if name == "sip":  # whether a line is up that is not shown in mip is not known
            told ^= profile.lines & FOR_S & ~csr_shown(row, "mip", "r")
        moved = profile.untold_after.get(name, 0)
        yield Expected(f"csr_{name}_rdata", before[name], csr_shown(row, name, "r") & told)
        yield Expected(f"csr_{name}_wdata", after[name], csr_shown(row, name, "w") & ~moved)


class Harts:
    """Judges of harts that stand over one memory, by the numbers of the harts."""

    def __init__(self, judges):
        self.judges = judges
        self.stepped = None  # the number of the last row's hart, and what its step did

    def judge(self, row):
        """The same for the hart that the row names; then others may lose their reservations."""
        number = row.get(HART, 0)
        own = self.judges[number]
        difference = own.judge(row)
        self.stepped = number, own.retired
        if own.retired:
            for other in self.judges:
                if other is not own:
                    other.hart.lose(own.retired.written)
        return difference

    def load(self, memory):
        """Puts all harts over this memory."""
        for judge in self.judges:
            judge.hart.memory = memory

    def go_to(self, pc):
        """Lets all harts go on at this pc."""
        for judge in self.judges:
            judge.hart.pc = pc


def answer(judge, rows, seen=0, valid=0, last=None):
    """The text for these rows, where so many rows and valid rows stood before them.

    With a judge of Harts and what its rows wrote last, it says too where things came from.
    """
    for row in rows:
        seen += 1
        if row.get("valid") == 0:
            continue
        valid += 1
        difference = judge.judge(row)
        if difference:
            signal, expected, found = difference
            line = f"differs row {seen}: {signal} expected 0x{expected:016x} found 0x{found:016x}"
            return "\n".join([line, *(last.lines(*judge.stepped) if last else ())])
        if last:
            last.add(seen, *judge.stepped)
    return f"agrees {valid}"


class Setting(NamedTuple):
    """What the options of a command say of the hart, and how many bytes its files may have.

    Where no pc is given it is that of the image, if it has one, else the first address of the usual RAM.
    """

    pc: int | None = None
    ram: range = RAM
    devices: Ranges | range = Ranges()
    most_image: int = 1 << 30
    most_trace: int = 1 << 40
    choices: Choices = Choices()
    harts: int = 1
    origin: bool = False


# each option that names a choice, with the choice, and each that names a part of the profile, with that
CHOSEN = {
    "--misaligned": "misaligned", "--mtval": "trap_values", "--ad": "marks", "--reserve": "block",
    "--bits": "bits",
}
PROFILE = {
    "--csr": "csrs", "--pmp": "pmp_entries", "--pmp-bits": "pmp_bits", "--lines": "lines",
    "--io-faults": "io_faults", "--insn": "insn",
}
# how those are read that have more values than can be listed
READ_AS = {"trap_values": read_trap_values, "csrs": read_registers}

STATUS = {"agrees": 0, "rvstate": 0, "differs": 1, "refused image:": 3, "refused trace:": 4}


def judge_at_start(image, setting):
    """A judge of harts that are in the state which an image and the options say."""
    if len(image) > setting.most_image:
        raise Refused(f"image: more than {setting.most_image} bytes")
    memory = Memory(ram=setting.ram)
    harts = Harts([
        Judge(Hart(memory, devices=setting.devices, choices=setting.choices))
        for _ in range(setting.harts)
    ])
    if image.startswith(saved_state.FRONT):
        saved_state.read_into(harts, image, setting)
    else:
        found, pc = read_bytes(image, setting.ram)
        harts.load(Memory(found.items(), setting.ram))
        harts.go_to(pc)
    if setting.pc is not None:
        harts.go_to(setting.pc)
    return harts


def read_bytes(image, ram):
    """The bytes of an image by their addresses, and its first pc."""
    if image.startswith(elf_file.FRONT):
        return elf_file.read_elf(image, ram)
    return read_image(image, ram), RAM.start


LAST_VERDICTS = {}  # on what was judged last, since the same trace is often judged again
MOST_VERDICTS = 40


def verdict_on(image, trace, setting):
    """The text for the bytes of an image and of a trace, and the harts after it; None where it is refused."""
    try:
        harts = judge_at_start(image, setting)
        rows = read_rows(trace, setting.most_trace, KNOWN, setting.harts)
        return answer(harts, rows, last=Last() if setting.origin else None), harts
    except Refused as refused:
        return f"refused {refused}", None


def known_verdict_on(image, trace, setting):
    """The same, which is not worked out again where it is among the last ones."""
    key = image, trace, repr(setting)
    if key not in LAST_VERDICTS:
        if len(LAST_VERDICTS) == MOST_VERDICTS:
            del LAST_VERDICTS[next(iter(LAST_VERDICTS))]
        LAST_VERDICTS[key] = verdict_on(image, trace, setting)
    return LAST_VERDICTS[key]


def foretell(image, trace, setting, command="judge"):
    """The text and the status for the bytes of an image and of a trace."""
    said, harts = known_verdict_on(
        image, trace, setting._replace(origin=setting.origin and command == "judge"))
    if command == "state" and said.startswith("agrees"):
        try:
            said = saved_state.text_of(harts).removesuffix("\n")
        except Refused as refused:
            said = f"refused {refused}"
    return said, next(status for front, status in STATUS.items() if said.startswith(front))


class Parser(argparse.ArgumentParser):
    """Refuses words with the judge's line and status."""

    def error(self, message):
        print("refused words")
        sys.stdout.flush()
        super().error(message)  # which ends with 2


class Once(argparse.Action):
    """An option that may stand once."""

    def __call__(self, parser, options, value, option=None):
        given = options.given = getattr(options, "given", set())
        if self.dest in given:
            parser.error(f"{option} stands twice")
        given.add(self.dest)
        setattr(options, self.dest, value)


class Flag(Once):
    """An option without a value."""

    def __init__(self, **words):
        super().__init__(nargs=0, default=False, **words)

    def __call__(self, parser, options, value, option=None):
        super().__call__(parser, options, True, option)


def add_choices(parser):
    """Gives a parser the options that say what a core chose, and what it has."""
    for options, usual, values in (
        (CHOSEN, Choices(), hart_choices.VALUES), (PROFILE, Profile(), hart_profile.VALUES),
    ):
        for name, what in options.items():
            default, read = getattr(usual, what), READ_AS.get(what)
            read = read or (word_number if isinstance(default, int) else str)
            few = None if what in READ_AS else values[what]
            parser.add_argument(name, type=read, default=default, choices=few, action=Once, dest=what)


def choices_of(options):
    """What these options say."""
    profile = Profile(**{what: getattr(options, what) for what in PROFILE.values()})
    return Choices(**{choice: getattr(options, choice) for choice in CHOSEN.values()}, profile=profile)


def said_before(words):
    """What these options say of a core's choices, by what they are about; of the others nothing."""
    parser = Parser(add_help=False, allow_abbrev=False)
    add_choices(parser)
    options = parser.parse_args(words)
    return {what: getattr(options, what) for what in getattr(options, "given", ())}


def parse(words, before=()):
    """The command of these words, the paths of image and trace, and the setting.

    The words before are options of a core's choices, of which these words may say others.
    """
    default = Setting()
    parser = Parser(
        description=__doc__, formatter_class=argparse.RawDescriptionHelpFormatter, allow_abbrev=False
    )
    parser.add_argument("image", type=Path)
    parser.add_argument("trace", type=Path)
    command = "judge"
    if words[:1] in (["judge"], ["state"]):
        command, *words = words
    for name, kind, value in (
        ("--pc", number, default.pc), ("--ram", read_range, default.ram), ("--io", read_ranges, default.devices),
        ("--max-image", number, default.most_image), ("--max-trace", number, default.most_trace),
    ):
        parser.add_argument(name, type=kind, default=value, action=Once)
    parser.add_argument(
        "--harts", type=word_number, default=1, choices=range(1, MOST_HARTS + 1), action=Once)
    parser.add_argument("--origin", action=Flag)
    add_choices(parser)
    parser.set_defaults(**said_before(before))
    options = parser.parse_args(words)
    if options.origin and command != "judge":
        parser.error("--origin is for judging alone")
    if Ranges((options.ram, *options.io)).meet():
        parser.error("devices have a byte in common with RAM, or with one another")
    return command, (options.image, options.trace), Setting(
        options.pc, options.ram, options.io, options.max_image, options.max_trace,
        choices_of(options), options.harts, options.origin)


def main():
    command, paths, setting = parse(sys.argv[1:])
    try:
        files = [path.read_bytes() for path in paths]
    except OSError as fault:
        print(fault, file=sys.stderr)
        return 5
    said, status = foretell(*files, setting, command)
    print(said)
    return status


if __name__ == "__main__":
    sys.exit(main())
