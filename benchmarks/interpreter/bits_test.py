#!/usr/bin/env python3
"""Tests the instructions of hart_bits.py: bits_test.py.

Values are worked out by hand after the manual's description of each instruction. Words are those of GNU as.
Where Debian's tools are there, every word of the four opcodes is held to objdump, and random values to qemu.
"""
import re
import shutil
import subprocess
import tempfile
import unittest
from pathlib import Path
from random import Random

from choices_test import CODE, LOW, Run, image_of, rows_of
from hart_bits import AMOUNT_BITS, BITS, UNARY_BITS, decode_bits
from hart_choices import Choices
from hart_instructions import MASK, Instruction, decode
from hart_memory import RAM
from judge import Setting, foretell

ON = Choices(bits="on")
SIGN, ONES = 1 << 63, MASK
COUNTED = 0x0123456789ABCDEF

# rd is x3, rs1 is x1, rs2 is x2 where there is one, amounts and indexes are 0
WORDS = {
    "ADD_UW": 0x082081BB, "SH1ADD": 0x2020A1B3, "SH1ADD_UW": 0x2020A1BB, "SH2ADD": 0x2020C1B3,
    "SH2ADD_UW": 0x2020C1BB, "SH3ADD": 0x2020E1B3, "SH3ADD_UW": 0x2020E1BB, "SLLI_UW": 0x0800919B,
    "ANDN": 0x4020F1B3, "ORN": 0x4020E1B3, "XNOR": 0x4020C1B3, "CLZ": 0x60009193, "CLZW": 0x6000919B,
    "CTZ": 0x60109193, "CTZW": 0x6010919B, "CPOP": 0x60209193, "CPOPW": 0x6020919B, "MAX": 0x0A20E1B3,
    "MAXU": 0x0A20F1B3, "MIN": 0x0A20C1B3, "MINU": 0x0A20D1B3, "SEXT_B": 0x60409193, "SEXT_H": 0x60509193,
    "ZEXT_H": 0x0800C1BB, "ROL": 0x602091B3, "ROLW": 0x602091BB, "ROR": 0x6020D1B3, "RORI": 0x6000D193,
    "RORIW": 0x6000D19B, "RORW": 0x6020D1BB, "ORC_B": 0x2870D193, "REV8": 0x6B80D193, "BCLR": 0x482091B3,
    "BCLRI": 0x48009193, "BEXT": 0x4820D1B3, "BEXTI": 0x4800D193, "BINV": 0x682091B3, "BINVI": 0x68009193,
    "BSET": 0x282091B3, "BSETI": 0x28009193,
}
UNARY = {name for names in UNARY_BITS.values() for name in names.values()}
AMOUNTS = {name: size for _, size, names in AMOUNT_BITS for name in names.values()}

# each: rs1, then rs2 or the immediate where there is one, and rd
VALUES = {
    "ADD_UW": [(0xFFFFFFFF80000000, 1, 0x80000001), (0xFFFFFFFF, ONES, 0xFFFFFFFE)],
    "SH1ADD": [(SIGN + 1, 0x10, 0x12), (ONES, 0, ONES - 1)],
    "SH1ADD_UW": [(0xFFFFFFFF80000001, 0, 0x100000002), (ONES, ONES, 0x1FFFFFFFD)],
    "SH2ADD": [(3, 5, 17), (0x4000000000000001, 0, 4)],
    "SH2ADD_UW": [(0xFFFFFFFF80000001, 1, 0x200000005)],
    "SH3ADD": [(3, ONES, 23), (0x2000000000000000, 7, 7)],
    "SH3ADD_UW": [(0xFFFFFFFF80000001, 2, 0x40000000A)],
    "SLLI_UW": [
        (0xFFFFFFFF80000001, 0, 0x80000001), (0xFFFFFFFF80000001, 4, 0x800000010),
        (0xFFFFFFFF80000001, 32, 0x8000000100000000), (3, 63, SIGN),
    ],
    "ANDN": [(0b1100, 0b1010, 0b0100), (ONES, 0xFFFF, 0xFFFFFFFFFFFF0000)],
    "ORN": [(0b1100, 0b1010, 0xFFFFFFFFFFFFFFFD), (0, ONES, 0)],
    "XNOR": [(0b1100, 0b1010, 0xFFFFFFFFFFFFFFF9), (5, 5, ONES)],
    "CLZ": [(0, 64), (1, 63), (SIGN, 0), (0x80000000, 32), (ONES, 0)],
    "CLZW": [(0, 32), (0xFFFFFFFF00000000, 32), (1, 31), (0x80000000, 0), (0xFFFFFFFF00010000, 15)],
    "CTZ": [(0, 64), (1, 0), (SIGN, 63), (0x100000000, 32), (ONES, 0)],
    "CTZW": [(0, 32), (0x100000000, 32), (0x80000000, 31), (0x600000006, 1)],
    "CPOP": [(0, 0), (ONES, 64), (0x8000000000000101, 3)],
    "CPOPW": [(0, 0), (ONES, 32), (0xFFFFFFFF00000003, 2)],
    "MAX": [(ONES, 1, 1), (1, ONES, 1), (SIGN, SIGN - 1, SIGN - 1), (ONES, SIGN, ONES)],
    "MAXU": [(ONES, 1, ONES), (1, ONES, ONES), (SIGN, SIGN - 1, SIGN)],
    "MIN": [(ONES, 1, ONES), (1, ONES, ONES), (SIGN, SIGN - 1, SIGN), (ONES, SIGN, SIGN)],
    "MINU": [(ONES, 1, 1), (1, ONES, 1), (SIGN, SIGN - 1, SIGN - 1)],
    "SEXT_B": [(0x80, 0xFFFFFFFFFFFFFF80), (0xFFFFFFFFFFFFFF7F, 0x7F), (0x1FF, ONES)],
    "SEXT_H": [(0x8000, 0xFFFFFFFFFFFF8000), (0xFFFFFFFFFFFF7FFF, 0x7FFF), (0x1FFFF, ONES)],
    "ZEXT_H": [(ONES, 0xFFFF), (0x12348000, 0x8000)],
    "ROL": [(SIGN + 1, 1, 3), (COUNTED, 8, 0x23456789ABCDEF01), (COUNTED, 64, COUNTED), (1, ONES, SIGN)],
    "ROLW": [
        (0xAAAAAAAA80000001, 1, 3), (0x40000000, 1, 0xFFFFFFFF80000000), (0x12345678, 36, 0x23456781),
        (0xFFFFFFFF00000001, 32, 1), (0x180000000, 0, 0xFFFFFFFF80000000),
    ],
    "ROR": [(1, 1, SIGN), (COUNTED, 8, 0xEF0123456789ABCD), (COUNTED, 64, COUNTED), (1, ONES, 2)],
    "RORI": [(COUNTED, 4, 0xF0123456789ABCDE), (COUNTED, 0, COUNTED), (1, 63, 2), (1, 32, 0x100000000)],
    "RORIW": [
        (1, 1, 0xFFFFFFFF80000000), (0x912345678, 4, 0xFFFFFFFF81234567), (0x180000000, 0, 0xFFFFFFFF80000000),
        (1, 31, 2),
    ],
    "RORW": [
        (1, 1, 0xFFFFFFFF80000000), (0x912345678, 36, 0xFFFFFFFF81234567), (0xFFFFFFFF00000001, 32, 1),
        (0xFFFFFFFF00000001, 31, 2),
    ],
    "ORC_B": [(0, 0), (0x0100800000FF0010, 0xFF00FF0000FF00FF)],
    "REV8": [(COUNTED, 0xEFCDAB8967452301), (5, 0x0500000000000000)],
    "BCLR": [(ONES, 0, ONES - 1), (ONES, 127, SIGN - 1), (0, 5, 0)],
    "BCLRI": [(ONES, 32, 0xFFFFFFFEFFFFFFFF), (ONES, 63, SIGN - 1)],
    "BEXT": [(SIGN, 63, 1), (SIGN, 62, 0), (2, 65, 1), (0b101, 2, 1)],
    "BEXTI": [(1 << 40, 40, 1), (1 << 40, 41, 0)],
    "BINV": [(0, 63, SIGN), (8, 3, 0), (0, 64, 1)],
    "BINVI": [(0xFF, 4, 0xEF), (0, 33, 1 << 33)],
    "BSET": [(0, 70, 64), (64, 6, 64)],
    "BSETI": [(0, 63, SIGN), (0, 31, 0x80000000)],
}

# words beside those of the tables: legal ones have another bit there
OTHERS = {
    "ZEXT_H": [0x0810C1BB],  # rs2 is 1
    "RORIW": [0x6200D19B],  # bit 25 of the amount
    "REV8": [0x6980D193, 0x6B90D193],  # that of RV32, and another low bit
    "ORC_B": [0x2860D193, 0x28F0D193],
    "CLZ": [0x60309193, 0x60609193, 0x61009193],
    "CLZW": [0x6030919B, 0x6040919B],
    "MIN": [0x0A2091B3, 0x0A20A1B3, 0x0A20B1B3],  # Zbc
    "ROL": [0x6020A1B3, 0x602081B3],
    "ADD_UW": [0x082091BB, 0x0820D1BB],
    "SH1ADD": [0x202081B3, 0x2020B1B3],
}


def name_in_assembler(name):
    return name.lower().replace("_", ".")


class Values(unittest.TestCase):
    def test_each_instruction_has_values_and_a_word(self):
        self.assertEqual(len(BITS), 40)
        self.assertEqual(BITS.keys(), VALUES.keys())
        self.assertEqual(BITS.keys(), WORDS.keys())

    def test_values(self):
        for name, cases in VALUES.items():
            for rs1, *other, rd in cases:
                with self.subTest(name=name, rs1=f"{rs1:x}", other=other):
                    word = WORDS[name] | (other[0] << 20 if name in AMOUNTS else 0)
                    # A second operand that is not read is one that would tell.
                    rs2 = other[0] if other and name not in AMOUNTS else 0x5555555555555555
                    run = Run(ON, word, rs2, stored=rs1)
                    retired = run.step()
                    self.assertEqual((retired.trap, retired.next_pc, retired.access), (None, CODE + 4, None))
                    self.assertEqual((retired.value, run.hart.registers[3]), (rd, rd))
                    self.assertEqual(run.hart.registers[1], rs1)

    def test_operands(self):
        for name, word in WORDS.items():
            instruction = decode_bits(word)
            is_register = name not in UNARY and name not in AMOUNTS
            self.assertEqual(instruction, Instruction(name, 3, 1, 2 if is_register else None))
            self.assertEqual(decode_bits(word | 31 << 7 | 31 << 15)[1:3], (31, 31))

    def test_x0(self):
        run = Run(ON, WORDS["CLZ"] & ~(31 << 7 | 31 << 15), 0)
        self.assertEqual(run.step().value, 0)
        self.assertEqual(run.hart.registers[0], 0)

    def test_misa_stays(self):
        for choices in (ON, Choices()):
            self.assertEqual(Run(choices, 0, 0).hart.csrs.read("misa"), 0x8000000000141105)


class Decoding(unittest.TestCase):
    def test_off_is_the_default(self):
        for word in WORDS.values():
            self.assertIsNone(decode(word))
            self.assertEqual(Run(Choices(), word, LOW).cause(), (2, word))

    def test_words_beside_them_are_illegal(self):
        for words in OTHERS.values():
            for word in words:
                self.assertEqual(Run(ON, word, LOW).cause(), (2, word))

    def test_no_word_has_two_meanings(self):
        for opcode in (0x13, 0x1B, 0x33, 0x3B):
            for top in range(1 << 15):
                word = top >> 3 << 20 | 1 << 15 | (top & 7) << 12 | 3 << 7 | opcode
                self.assertFalse(decode(word) and decode_bits(word), f"{word:08x}")

    def test_a_copy_means_the_same(self):
        run = Run(ON, WORDS["CPOP"], 0, stored=7)
        copy = run.hart.copy()
        self.assertEqual(copy.step().value, 3)


class Toolchain(unittest.TestCase):
    """Held to Debian's binutils and qemu."""

    def setUp(self):
        self.folder = Path(self.enterContext(tempfile.TemporaryDirectory()))

    def run_tool(self, *words):
        if shutil.which(words[0]) is None:
            self.skipTest(f"there is no {words[0]}")
        return subprocess.run(words, cwd=self.folder, check=True, capture_output=True).stdout

    def assemble(self, text):
        (self.folder / "text.s").write_text(text, encoding="ascii")
        self.run_tool(
            "riscv64-unknown-elf-as", "-march=rv64imac_zba_zbb_zbs", "-mno-relax", "text.s", "-o", "text.o"
        )

    def test_words(self):
        lines = []
        for name in WORDS:
            other = ", 0" if name in AMOUNTS else "" if name in UNARY else ", x2"
            lines.append(f"{name_in_assembler(name)} x3, x1{other}\n")
        self.assemble("".join(lines))
        self.run_tool("riscv64-unknown-elf-objcopy", "-O", "binary", "-j", ".text", "text.o", "text")
        text = (self.folder / "text").read_bytes()
        words = [int.from_bytes(text[at : at + 4], "little") for at in range(0, len(text), 4)]
        self.assertEqual(words, list(WORDS.values()))

    def test_every_word_of_the_opcodes(self):
        chance = Random("words")
        words = [
            top << 20 | chance.getrandbits(5) << 15 | funct3 << 12 | chance.getrandbits(5) << 7 | opcode
            for opcode in (0x13, 0x1B, 0x33, 0x3B) for top in range(1 << 12) for funct3 in range(8)
        ]
        self.assemble("".join(f".insn 0x{word:08x}\n" for word in words))
        listing = self.run_tool(
            "riscv64-unknown-elf-objdump", "-d", "-M", "numeric,no-aliases", "text.o"
        ).decode()
        listed = re.findall(r"^ *[0-9a-f]+:\t([0-9a-f]{8}) *\t(\S+)(?:\t(\S+))?", listing, re.MULTILINE)
        self.assertEqual([int(word, 16) for word, _, _ in listed], words)
        for word, mnemonic, operands in listed:
            word, found = int(word, 16), decode_bits(int(word, 16))
            if found:
                due = [f"x{it}" for it in (found.rd, found.rs1, found.rs2) if it is not None]
                due += [f"0x{found.imm:x}"] if found.name in AMOUNTS else []
                self.assertEqual(mnemonic, name_in_assembler(found.name), f"{word:08x}")
                self.assertEqual(operands.split(","), due, f"{word:08x}")
            else:
                self.assertNotIn(mnemonic.upper().replace(".", "_"), BITS, f"{word:08x}")
                self.assertEqual(decode(word) is None, mnemonic.startswith("."), f"{word:08x} {mnemonic}")

    def test_values_in_qemu(self):
        chance = Random("bits")
        pairs = [(chance.choice(CORNERS), chance.choice(CORNERS)) for _ in range(100)]
        pairs += [(chance.getrandbits(64), chance.getrandbits(64)) for _ in range(50)]
        pairs += [(sparse(chance), sparse(chance)) for _ in range(50)]
        forms = [
            (name, amount) for name in BITS
            for amount in (range(1 << AMOUNTS[name]) if name in AMOUNTS else (None,))
        ]
        self.assemble(PROGRAM.format(
            pairs="\n".join(f".dword 0x{rs1:x}, 0x{rs2:x}" for rs1, rs2 in pairs),
            room=8 * len(forms) * len(pairs),
            loops="\n".join(loop(at, *form) for at, form in enumerate(forms)),
        ))
        self.run_tool("riscv64-unknown-elf-ld", "-Ttext=0x10000", "text.o", "-o", "text.elf")
        found = self.run_tool("qemu-riscv64", "-cpu", "rv64,zba=true,zbb=true,zbs=true", "text.elf")
        due = b"".join(
            (BITS[name](rs1, rs2 if amount is None else amount) & MASK).to_bytes(8, "little")
            for name, amount in forms for rs1, rs2 in pairs
        )
        self.assertEqual(len(found), len(due))
        for at in range(0, len(due), 8):
            name, amount = forms[at // 8 // len(pairs)]
            rs1, rs2 = pairs[at // 8 % len(pairs)]
            if name == "CTZW" and rs1 % (1 << 32) == 0:
                continue  # qemu 7.2 looks at the upper word too
            self.assertEqual(found[at : at + 8], due[at : at + 8], f"{name} {amount} {rs1:x} {rs2:x}")


CORNERS = (
    0, 1, ONES, ONES - 1, SIGN, SIGN - 1, SIGN + 1, 0x80, 0x7F, 0x8000, 0x7FFF, 0x80000000, 0x7FFFFFFF,
    0xFFFFFFFF, 0x100000000, 0xFFFFFFFF00000000, 0xFFFFFFFF80000000, 31, 32, 33, 63, 64, 65,
    0x0100000000000001, 0x00FF00FF00FF00FF,
)


def sparse(chance):
    """A number with few bits that are set, or with few that are not."""
    value = chance.getrandbits(64) & chance.getrandbits(64) & chance.getrandbits(64) & chance.getrandbits(64)
    return chance.choice((value, MASK - value))


def loop(at, name, amount):
    """The loop of one instruction through all pairs."""
    other = "" if name in UNARY else ", x2" if amount is None else f", {amount}"
    return LOOP.format(at=at, instruction=f"{name_in_assembler(name)} x3, x1{other}")


LOOP = """
    la x8, pairs
loop_{at}:
    ld x1, 0(x8)
    ld x2, 8(x8)
    {instruction}
    sd x3, 0(x18)
    addi x18, x18, 8
    addi x8, x8, 16
    bltu x8, x9, loop_{at}
"""
PROGRAM = """
    .globl _start
_start:
    la x9, pairs_end
    la x18, results
    {loops}
    la x11, results
    sub x12, x18, x11
    li x10, 1
    li x17, 64
write:
    mv x19, x12
    ecall
    li x10, 0
    li x17, 93
    ecall
    .data
    .balign 8
pairs:
    {pairs}
pairs_end:
    .bss
    .balign 8
results:
    .zero {room}
"""

# ADDI x1, x0, 5; CPOP x2, x1; REV8 x3, x1
COUNT_AND_REVERSE = [0x00500093, 0x60209113, 0x6B80D193]


class Verdicts(unittest.TestCase):
    """What the judge says of whole traces."""

    def said(self, words, header, last, choices):
        image, trace = image_of(RAM.start, words), rows_of(words, header, last)
        return foretell(image, trace, Setting(choices=choices))[0]

    def test_on_and_off(self):
        for words, last in ((COUNT_AND_REVERSE, "0,0x0500000000000000"), (COUNT_AND_REVERSE[:2], "0,2")):
            self.assertEqual(self.said(words, "trap,rd_wdata", last, ON), f"agrees {len(words)}")
        due = "differs row 2: trap expected 0x0000000000000001 found 0x0000000000000000"
        self.assertEqual(self.said(words, "trap,rd_wdata", last, Choices()), due)

    def test_a_core_without_them(self):
        words = COUNT_AND_REVERSE[:2]
        for choices, due in (
            (Choices(), "agrees 2"),
            (ON, "differs row 2: trap expected 0x0000000000000000 found 0x0000000000000001"),
        ):
            self.assertEqual(self.said(words, "trap,csr_mtval_wdata", "1,0x60209113", choices), due)

    def test_sources(self):
        # XNOR reads both, CPOP rs1 alone: what it shows as rs2 is any register with its value.
        words = [0x00500093, 0x00300113, WORDS["XNOR"]]
        header = "rs1_addr,rs1_rdata,rs2_addr,rs2_rdata,rd_addr,rd_wdata"
        for last, due in (
            ("1,5,2,3,3,0xfffffffffffffff9", "agrees 3"),
            ("1,5,1,5,3,0xfffffffffffffff9",
             "differs row 3: rs2_addr expected 0x0000000000000002 found 0x0000000000000001"),
            ("1,5,2,3,3,6", "differs row 3: rd_wdata expected 0xfffffffffffffff9 found 0x0000000000000006"),
        ):
            self.assertEqual(self.said(words, header, last, ON), due)
        words[2] = WORDS["CPOP"]
        for last, due in (
            ("1,5,1,5,3,2", "agrees 3"),
            ("1,5,0,0,3,2", "agrees 3"),
            ("1,5,2,5,3,2", "differs row 3: rs2_rdata expected 0x0000000000000003 found 0x0000000000000005"),
            ("2,3,2,3,3,2", "differs row 3: rs1_addr expected 0x0000000000000001 found 0x0000000000000002"),
        ):
            self.assertEqual(self.said(words, header, last, ON), due)


if __name__ == "__main__":
    unittest.main()
