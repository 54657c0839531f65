#!/usr/bin/env python3
"""Makes the text of a saved state, from which the judge begins.

    make_state.py [IMAGE] [--set NAME=VALUE].. [--blob ADDRESS=FILE].. [--pc A] [--harts N]
                  [--profile NAME] [--csr LIST] [--pmp N] [--pmp-bits B] [--lines MASK] [-o FILE]
    rvjudge judge FILE TRACE [--harts N] [--profile NAME] ..

For a run that does not begin at reset: after a boot ROM, at the checkpoint of an emulator, in the
middle of a test. IMAGE is an ELF file, Verilog text, or a saved state, whose parts are then replaced.
Without it memory is 0. The first pc is --pc, else that of the saved state or the entry point of the
ELF file, else 0x80000000.

--set names a register: x1 to x31, ra, sp, a0 and so on, or a control and status register as mtvec or
csr_mtvec; or one of these:

    pc, mode (M, S, U, or 3, 1, 0), order (the order index of the next row, or none),
    flags (two digits: whether the last row took a synchronous trap, whether the hart halts),
    reserved (the address of the block that LR reserved, or none).

What is not set is as at reset, or as in the saved state. Bits 35:32 of mstatus, which are always 2 and
2, are added where they are 0; its bit 63, which tells that VS or FS is 3, is left out where one is.
--blob puts the bytes of a file into memory, over what is there. Of these two each may stand several
times, and a later one counts. A value that the judge's hart cannot have is refused here, as the judge
would refuse it. Give --profile, --csr, --pmp, --pmp-bits and --lines as the judge is given them: they
say which values those are.

Several harts: with --harts N, or where IMAGE is a saved state of N harts. --set sets a part of all of
them, and --set H:NAME=VALUE of hart H alone; --pc is that of all.
"""
import argparse
import re
import struct
import sys

import elf_image
from common import ABI, MOST_HARTS, RESET_PC, Refused, ends, judge_words, parser_of, target_of
from core_registers import ALL, CSRS, SD, WORDS, XLENS, Registers, add_words
from image_start import SAVED, text_parts

PAGE, BLOCK = 4096, 16  # bytes
RAM = judge_words.WORDS["--ram"].default
REGISTERS = {f"x{it}": it for it in range(32)} | {it: at for at, it in enumerate(ABI)} | {"fp": 8}
HARTS = re.compile(rb"harts ([2-8])\n")
MODES, FLAGS = {"M": 3, "S": 1, "U": 0}, ("00", "01", "10", "11")


def number(text):
    try:
        return int(text, 0)
    except ValueError:
        raise Refused(f"{text!r} is no number") from None


def as_line(name, value):
    return f"{name} none\n" if value is None else f"{name} {value:016x}\n"


class Memory:
    """The pages that have a byte, and for each byte the number of the file that put it there."""

    def __init__(self, base, size):
        self.base, self.size = base, size
        self.pages, self.owners = {}, {}
        self.files = [None]
        self.told = set()

    def begin(self, name):
        """The next bytes are those of this file."""
        self.files.append(name)

    def put(self, address, data):
        """Puts bytes over those of other files. A file may not have two for one address."""
        at = 0
        if data and not self.base <= address <= address + len(data) <= self.base + self.size:
            raise Refused(f"{self.files[-1]}: 0x{address:x} with {len(data)} bytes is outside of RAM, "
                          f"0x{self.base:x}:0x{self.size:x}: give --ram as the judge has it")
        while at < len(data):
            page_number, place = divmod(address + at, PAGE)
            part = data[at:at + PAGE - place]
            page = self.pages.setdefault(page_number, bytearray(PAGE))
            owners = self.owners.setdefault(page_number, bytearray(PAGE))
            self.look_over(address + at, owners[place:place + len(part)])
            page[place:place + len(part)] = part
            owners[place:place + len(part)] = bytes([len(self.files) - 1]) * len(part)
            at += len(part)

    def look_over(self, address, owners):
        """Refuses bytes that the file has put itself, and tells of those that others have."""
        if not any(owners):
            return
        if len(self.files) - 1 in owners:
            raise Refused(f"{self.files[-1]} has two bytes for one address near 0x{address:x}")
        for other in {*owners} - {0}:
            pair = self.files[-1], self.files[other]
            if pair not in self.told:
                self.told.add(pair)
                print(f"make_state.py: {pair[0]} is put over bytes of {pair[1]}", file=sys.stderr)

    def lines(self):
        """The blocks that are not all 0, addresses rising."""
        for page_number, page in sorted(self.pages.items()):
            if any(page):
                for at in range(0, PAGE, BLOCK):
                    block = page[at:at + BLOCK]
                    if any(block):
                        yield f"@{page_number * PAGE + at:016x} {block.hex()}\n"


class Hart:
    """The parts of a hart by the names of their lines. A core's registers say what they can hold."""

    def __init__(self, registers):
        self.registers = registers
        self.parts = {"pc": RESET_PC, "mode": 3, "order": None, "flags": "00", "reserved": None}
        self.parts |= {f"x{it}": 0 for it in range(1, 32)}
        self.parts |= {f"csr_{it}": registers.fixed[it] for it in CSRS}

    def lines(self):
        for name, value in self.parts.items():
            is_text = name in ("mode", "flags")
            yield f"{name} {value}\n" if is_text else as_line(name, value)

    def set(self, name, text):
        """Sets a part to what a word says."""
        csr = name.removeprefix("csr_")
        if name in REGISTERS:
            self.set_register(name, number(text))
        elif csr in CSRS:
            self.set_csr(csr, number(text))
        elif name in self.parts:
            self.parts[name] = special_value(name, text)
        else:
            raise Refused(f"{name!r} names no part of a state: {hint(csr)}")

    def set_register(self, name, value):
        if not -(1 << 63) <= value <= ALL or REGISTERS[name] == 0 and value:
            raise Refused(f"{name} cannot be 0x{value:x}")
        if REGISTERS[name]:
            self.parts[f"x{REGISTERS[name]}"] = value & ALL

    def set_csr(self, name, value):
        if name == "mstatus" and value >> 32 & 0xF == 0:
            value |= XLENS
        if name == "mstatus" and 3 in (value >> 9 & 3, value >> 13 & 3):
            value &= ~SD
        if fault := self.registers.fault_of(name, value):
            raise Refused(f"{name} cannot be 0x{value:x}: {fault}")
        self.parts[f"csr_{name}"] = value


class State:
    """The harts of a state, and the memory that they share."""

    def __init__(self, memory, count, registers):
        self.memory = memory
        self.harts = [Hart(registers) for _ in range(count)]

    def lines(self):
        yield SAVED.decode()
        if len(self.harts) > 1:
            yield f"harts {len(self.harts)}\n"
        for hart in self.harts:
            yield from hart.lines()
        yield from self.memory.lines()
        yield "end\n"

    def set(self, name, text):
        """Sets a part of all harts, or of the one whose number stands before a colon."""
        number_text, colon, part = name.rpartition(":")
        if not colon:
            for hart in self.harts:
                hart.set(name, text)
        elif not number_text.isdecimal() or int(number_text) >= len(self.harts):
            raise Refused(f"{name}: hart {number_text} is not there: give --harts")
        else:
            self.harts[int(number_text)].set(part, text)


def special_value(name, text):
    """What a word says for a part that is neither a register nor memory."""
    if name == "mode":
        value = MODES[text] if text in MODES else number(text)
        is_fit = value in MODES.values()
    elif name == "flags":
        value, is_fit = text, text in FLAGS
    else:
        value = None if text == "none" and name != "pc" else number(text)
        is_fit = value is None or 0 <= value <= ALL and not (name == "pc" and value % 2)
    if not is_fit:
        raise Refused(f"{name} cannot be {text}")
    return value


def hint(name):
    views = {"sstatus": "mstatus", "sie": "mie and mideleg", "sip": "mip and mideleg"}
    return f"set {views[name]}" if name in views else "see --help"


# ---- images


def harts_in(path):
    """The number of harts of a saved state, or None of another image."""
    with open(path, "rb") as file:
        if file.read(len(SAVED)) != SAVED:
            return None
        found = HARTS.fullmatch(file.readline(80))
    return int(found[1]) if found else 1


def take_image(state, path):
    """Takes memory, and what else an image says, into a state."""
    with open(path, "rb") as file:
        data = file.read()
    state.memory.begin(path)
    if data.startswith(elf_image.MAGIC):
        take_elf(state, path, data)
    elif data.startswith(SAVED):
        take_state(state, path, data.decode("latin-1").split("\n"))
    else:
        take_text(state, path, data.decode("latin-1"))


def take_elf(state, path, data):
    if not elf_image.is_executable(data):
        raise Refused(f"{path}: it is no executable of 64 bits for RISC-V")
    try:
        for hart in state.harts:
            hart.parts["pc"] = elf_image.entry_point(data)
        for address, part in elf_image.segments(data):
            state.memory.put(address, part)
    except struct.error:
        raise Refused(f"{path}: it is cut short") from None


def take_state(state, path, lines):
    """Takes the lines of a saved state of as many harts."""
    first = 1 if len(state.harts) == 1 else 2  # the first line of hart 0
    parts = [(hart, name) for hart in state.harts for name in hart.parts]
    for at, line in enumerate(lines[first:]):
        name, _, value = line.partition(" ")
        try:
            if line == "end" and at >= len(parts):
                return
            if at < len(parts) and name == parts[at][1]:
                is_text = name in ("mode", "flags") or value == "none"
                parts[at][0].set(name, value if is_text else f"0x{value}")
            elif at >= len(parts) and name.startswith("@"):
                state.memory.put(int(name[1:], 16), bytes.fromhex(value))
            else:
                raise Refused("another line stands there in a saved state")
        except (Refused, ValueError) as fault:
            raise Refused(f"{path}: line {at + first + 1}: {fault}") from None
    raise Refused(f"{path}: it has no end")


def take_text(state, path, text):
    """Takes Verilog text."""
    try:
        parts = [*text_parts(text)]
    except Refused as fault:
        raise Refused(f"{path}: {fault}") from None
    for address, part in parts:
        state.memory.put(address, part)


# ---- the command


def command_lines(values, pc, trace, core=""):
    """The commands by which a trace is judged whose harts began with these values, a table for
    each, and at this pc, or where it is None at those of the tables; the image's name is left to the
    reader, and that of a trace that has none. core has the judge's words for the core."""
    many = f" --harts {len(values)}" if len(values) > 1 else ""
    more = many + (core and f" {core}")
    words = [f"--set {f'{at}:' if many else ''}{name}=0x{value:x}"
             for at, table in enumerate(values) for name, value in table.items()]
    words = words if pc is None else [f"--pc 0x{pc:x}", *words]
    yield f"    contrib/make_state.py IMAGE{more} {' '.join(words)} -o start.rvstate"
    yield f"    bin/rvjudge judge start.rvstate {trace or 'TRACE'}{more}"


def assignment(text):
    name, equals, value = text.partition("=")
    if not equals:
        raise argparse.ArgumentTypeError(f"{text}: NAME=VALUE is awaited")
    return name, value


def arguments():
    parser = parser_of(__doc__, allow_abbrev=False)
    add = parser.add_argument
    add("image", nargs="?", metavar="IMAGE", help="an ELF file, Verilog text, or a saved state")
    add("-o", metavar="FILE", help="where to write (default: standard output)")
    add("--set", action="append", default=[], type=assignment, metavar="[H:]NAME=VALUE",
        help="a part of the state, of all harts or of hart H")
    add("--harts", type=int, choices=range(1, MOST_HARTS + 1), metavar="N",
        help="the harts, 1 to 8 (default: those of a saved state, else 1)")
    add("--blob", action="append", default=[], type=assignment, metavar="ADDRESS=FILE",
        help="a file whose bytes stand from an address on")
    add("--pc", metavar="A", help="the address of the next instruction")
    add("--ram", default=RAM, metavar="B:S",
        help=f"base and size of RAM, as the judge's --ram (default {RAM})")
    add_words(parser)
    return parser.parse_args()


def make(words):
    """The state that the words say."""
    base, _, size = words.ram.partition(":")
    given = harts_in(words.image) if words.image else None
    if None not in (given, words.harts) and given != words.harts:
        raise Refused(f"{words.image}: it is a state of {given} harts, and not of {words.harts}")
    registers = Registers({it: getattr(words, it.replace("-", "_")) for it in WORDS})
    state = State(Memory(number(base), number(size)), given or words.harts or 1, registers)
    if words.image:
        take_image(state, words.image)
    for address, path in words.blob:
        state.memory.begin(path)
        with open(path, "rb") as file:
            state.memory.put(number(address), file.read())
    for name, value in words.set:
        state.set(name, value)
    if words.pc is not None:
        state.set("pc", words.pc)
    return state


def main():
    words = arguments()

    def run():
        state = make(words)
        with target_of(words.o, "ascii") as out:
            out.writelines(state.lines())
        return 0

    return ends("make_state.py", run)


if __name__ == "__main__":
    sys.exit(main())
