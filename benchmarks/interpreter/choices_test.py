#!/usr/bin/env python3
"""Tests what each choice of hart_choices.py does, by small runs whose outcome is known: choices_test.py."""
import subprocess
import sys
import tempfile
import unittest
from pathlib import Path

from hart_choices import VALUES, Choices
from hart_memory import PAGE, PTE_A, PTE_D, PTE_R, PTE_U, PTE_V, PTE_W, PTE_X, RAM, Memory
from hart_registers import SATP_MODE_AT, SV39, M, S, U
from judge import Setting, foretell
from reference_hart import Hart

HERE = Path(__file__).parent
DONE, SET = Choices(misaligned="done"), Choices(marks="set")
BOTH = Choices(misaligned="done", marks="set")
EVERYTHING = (1 << 53) - 1  # the address of an entry of protection that covers all, as NAPOT

# Where the tests of translation have things; pages that follow each other in virtual addresses lie apart.
ROOT, MIDDLE, TABLE = RAM.start + 0x10000, RAM.start + 0x11000, RAM.start + 0x12000
CODE, LOW, HIGH = RAM.start + 0x20000, RAM.start + 0x33000, RAM.start + 0x31000
PAGES = 0x400000  # the virtual address of CODE; LOW and HIGH follow
ALL_RIGHTS = PTE_V | PTE_R | PTE_W | PTE_X | PTE_U
MARKED = ALL_RIGHTS | PTE_A | PTE_D


def load(length, rd=3, rs1=2):
    return 0x03 | rd << 7 | {1: 0, 2: 1, 4: 2, 8: 3}[length] << 12 | rs1 << 15


def store(length, rs2=1, rs1=2):
    return 0x23 | {1: 0, 2: 1, 4: 2, 8: 3}[length] << 12 | rs1 << 15 | rs2 << 20


def atomic(operation, rd=3, rs1=2):
    rs2 = 0 if operation == "LR" else 1
    return 0x2F | rd << 7 | 3 << 12 | rs1 << 15 | rs2 << 20 | {"LR": 2, "SC": 3, "ADD": 0}[operation] << 27


def image_of(address, words):
    """The text of an image with these words."""
    text = " ".join(f"{byte:02x}" for word in words for byte in word.to_bytes(4, "little"))
    return f"@{address:x} {text}".encode()


class Run:
    """A hart in M without translation, whose pc is at CODE and whose x2 has an address."""

    def __init__(self, choices, word, address, stored=0x1122334455667788, devices=range(0)):
        self.memory = Memory()
        self.hart = Hart(self.memory, devices=devices, pc=CODE, choices=choices)
        self.memory.write(CODE, 4, word)
        self.hart.registers[1], self.hart.registers[2] = stored, address

    def protect(self, *entries):
        """Puts entries of protection, each a first byte, a size and the rights, and one that allows all."""
        registers, values = self.hart.csrs, [0] * 8
        for at, (first, size, rights) in enumerate(entries):
            registers.write(f"pmpaddr{at}", first // 4 | size // 8 - 1 if size > 4 else first // 4)
            values[at] = rights | (0x18 if size > 4 else 0x10)
        registers.write("pmpaddr7", EVERYTHING)
        values[7] = 0x1F
        registers.write("pmpcfg0", int.from_bytes(bytes(values), "little"))

    def step(self):
        return self.hart.step()

    def cause(self):
        """Steps into a trap; its code, and what mtval tells."""
        self.step()
        values = self.hart.csrs.values
        return values["mcause"], values["mtval"]


class Translated(Run):
    """The same in U with Sv39: three pages, whose leaves are given."""

    def __init__(self, choices, word, address, code=MARKED, low=MARKED, high=MARKED, mode=U):
        super().__init__(choices, word, address)
        self.protect()
        self.memory.write(ROOT, 8, MIDDLE >> 2 | PTE_V)
        self.memory.write(MIDDLE + 8 * 2, 8, TABLE >> 2 | PTE_V)
        for at, (place, bits) in enumerate(((CODE, code), (LOW, low), (HIGH, high))):
            self.memory.write(TABLE + 8 * at, 8, place >> 2 | bits)
        self.hart.csrs.write("satp", SV39 << SATP_MODE_AT | ROOT // PAGE)
        self.hart.mode, self.hart.pc = mode, PAGES

    def marks(self):
        """A and D of the three leaves."""
        return [self.memory.read(TABLE + 8 * at, 8) & (PTE_A | PTE_D) for at in range(3)]


EDGE = PAGES + 2 * PAGE  # where LOW ends and HIGH begins


class Misaligned(unittest.TestCase):
    def test_trap_is_the_default(self):
        self.assertEqual(Run(Choices(), load(4), LOW + 1).cause(), (4, LOW + 1))
        self.assertEqual(Run(Choices(), store(2), LOW + 1).cause(), (6, LOW + 1))

    def test_loads_and_stores_are_done(self):
        for length in (2, 4, 8):
            for offset in (1, 3, PAGE - 1):
                run = Run(DONE, store(length), LOW + offset)
                access = run.step().access
                self.assertEqual((access.address, access.place, access.length), (LOW + offset,) * 2 + (length,))
                bytes_ = 0x1122334455667788.to_bytes(8, "little")[:length]
                found = bytes(run.memory.read(LOW + offset + at, 1) for at in range(length))
                self.assertEqual(found, bytes_)
                self.assertEqual(run.memory.read(LOW + offset + length, 1), 0)
                run.hart.pc = CODE
                run.memory.write(CODE, 4, load(length))
                self.assertEqual(run.step().access.read, int.from_bytes(bytes_, "little"))

    def test_atomics_trap_always(self):
        for operation, cause in (("LR", 4), ("SC", 6), ("ADD", 6)):
            self.assertEqual(Run(BOTH, atomic(operation), LOW + 4).cause(), (cause, LOW + 4))

    def test_one_page_is_one_part_for_protection(self):
        run = Run(DONE, load(4), LOW + 2)
        run.protect((LOW, 8, 7))
        self.assertIsNone(run.step().trap)
        run = Run(DONE, load(4), LOW + 2)
        run.protect((LOW, 4, 7))  # not all of the bytes, which M needs as well
        self.assertEqual(run.cause(), (5, LOW + 2))

    def test_each_part_is_held_to_protection_by_itself(self):
        run = Run(DONE, load(8), LOW + PAGE - 3)
        run.protect((LOW, PAGE, 7), (LOW + PAGE, PAGE, 7))
        self.assertIsNone(run.step().trap)
        run = Run(DONE, store(8), LOW + PAGE - 3)
        run.protect((LOW + PAGE, 4, 0))
        self.assertEqual(run.cause(), (7, LOW + PAGE))
        self.assertEqual(run.memory.read(LOW + PAGE - 3, 1), 0)

    def test_devices_take_aligned_accesses_alone(self):
        devices = range(0x10000000, 0x10001000)
        self.assertIsNone(Run(DONE, load(4), devices.start + 4, devices=devices).step().trap)
        run = Run(DONE, load(4), devices.start + 2, devices=devices)
        self.assertEqual(run.cause(), (5, devices.start + 2))

    def test_the_end_of_ram(self):
        run = Run(DONE, store(8), RAM.stop - 3)
        self.assertEqual(run.cause(), (7, RAM.stop))
        self.assertEqual(run.memory.read(RAM.stop - 3, 1), 0)
        self.assertEqual(Run(DONE, load(8), RAM.start - 3).cause(), (5, RAM.start - 3))

    def test_pages_that_lie_apart(self):
        run = Translated(DONE, store(8), EDGE - 3)
        access = run.step().access
        self.assertEqual((access.address, access.place), (EDGE - 3, LOW + PAGE - 3))
        self.assertEqual(run.memory.read(LOW + PAGE - 3, 3), 0x667788)
        self.assertEqual(run.memory.read(HIGH, 8), 0x1122334455)
        run = Translated(DONE, load(8), EDGE - 3)
        run.memory.write(LOW + PAGE - 3, 3, 0x030201)
        run.memory.write(HIGH, 4, 0x07060504)
        run.memory.write(HIGH + 4, 1, 8)
        self.assertEqual(run.step().access.read, 0x0807060504030201)

    def test_the_last_address_goes_on_at_0(self):
        run = Translated(DONE, load(8), (1 << 64) - 3)
        run.memory.write(ROOT + 8 * 511, 8, MIDDLE >> 2 | PTE_V)
        run.memory.write(MIDDLE + 8 * 511, 8, TABLE >> 2 | PTE_V)
        run.memory.write(TABLE + 8 * 511, 8, HIGH >> 2 | MARKED)
        run.memory.write(HIGH + PAGE - 3, 3, 0x030201)
        self.assertEqual(run.cause(), (13, 0))
        run.memory.write(MIDDLE, 8, TABLE >> 2 | PTE_V)  # so that address 0 is in the page of the code
        run.hart.mode, run.hart.pc = U, PAGES
        self.assertEqual(run.step().access.read, load(8) << 24 | 0x030201)
        self.assertEqual(Run(DONE, load(8), (1 << 64) - 3).cause(), (5, (1 << 64) - 3))

    def test_the_first_fault_is_that_of_the_access(self):
        # The first part is refused by protection, the second has no page: no walk is made for that.
        run = Translated(BOTH, store(8), EDGE - 3, low=ALL_RIGHTS, high=0)
        run.protect((LOW, PAGE, 5))
        self.assertEqual(run.cause(), (7, EDGE - 3))
        self.assertEqual(run.marks(), [PTE_A | PTE_D, PTE_A | PTE_D, 0])
        run = Translated(BOTH, load(8), EDGE - 3, high=ALL_RIGHTS)
        run.protect((LOW, PAGE, 4))
        self.assertEqual(run.cause(), (5, EDGE - 3))
        self.assertEqual(run.marks()[2], 0)

    def test_a_second_part_that_faults(self):
        run = Translated(BOTH, store(8), EDGE - 3, low=ALL_RIGHTS, high=ALL_RIGHTS & ~PTE_W)
        self.assertEqual(run.cause(), (15, EDGE))
        self.assertEqual(run.marks(), [PTE_A | PTE_D, PTE_A | PTE_D, 0])
        self.assertEqual(run.memory.read(LOW + PAGE - 3, 1), 0)


class TrapValues(unittest.TestCase):
    def test_zero(self):
        zero = Choices(trap_values="zero")
        for word, cause, value in (
            (load(4), 4, LOW + 1), (0xFFFFFFFF, 2, 0xFFFFFFFF), (0x00100073, 3, CODE), (0x00000073, 11, 0),
        ):
            self.assertEqual(Run(Choices(), word, LOW + 1).cause(), (cause, value))
            self.assertEqual(Run(zero, word, LOW + 1).cause(), (cause, 0))

    def test_zero_in_stval(self):
        run = Translated(Choices(trap_values="zero"), load(4), EDGE, high=0)
        run.hart.csrs.write("medeleg", 1 << 13)
        run.hart.csrs.write("stval", 5)
        run.step()
        self.assertEqual((run.hart.mode, run.hart.csrs.values["scause"], run.hart.csrs.values["stval"]), (S, 13, 0))


class Marks(unittest.TestCase):
    def test_fault_is_the_default(self):
        self.assertEqual(Translated(Choices(), load(4), EDGE, high=ALL_RIGHTS).cause(), (13, EDGE))
        run = Translated(Choices(), store(4), EDGE, high=ALL_RIGHTS | PTE_A)
        self.assertEqual(run.cause(), (15, EDGE))
        self.assertEqual(run.marks()[2], PTE_A)

    def test_what_each_access_sets(self):
        for word, marks in (
            (load(4), PTE_A), (store(4), PTE_A | PTE_D), (atomic("LR"), PTE_A),
            (atomic("SC"), PTE_A | PTE_D), (atomic("ADD"), PTE_A | PTE_D),
        ):
            run = Translated(SET, word, EDGE, code=ALL_RIGHTS, high=ALL_RIGHTS)
            self.assertIsNone(run.step().trap)
            self.assertEqual(run.marks(), [PTE_A, PTE_A | PTE_D, marks])

    def test_an_entry_that_lacks_nothing_is_not_written(self):
        run = Translated(SET, load(4), EDGE, high=ALL_RIGHTS | PTE_A)
        run.protect((TABLE, PAGE, 5))  # S may not store there
        self.assertIsNone(run.step().trap)

    def test_an_entry_that_may_not_be_set(self):
        for word, cause in ((load(4), 5), (store(4), 7), (atomic("LR"), 5), (atomic("ADD"), 7)):
            run = Translated(SET, word, EDGE, high=ALL_RIGHTS)
            run.protect((TABLE, PAGE, 5))
            self.assertEqual(run.cause(), (cause, EDGE))
            self.assertEqual(run.marks()[2], 0)
        run = Translated(SET, load(4), EDGE, code=ALL_RIGHTS)
        run.protect((TABLE, PAGE, 5))
        self.assertEqual(run.cause(), (1, PAGES))
        # What else the leaf refuses comes first.
        run = Translated(SET, store(4), EDGE, high=ALL_RIGHTS & ~PTE_W)
        run.protect((TABLE, PAGE, 5))
        self.assertEqual(run.cause(), (15, EDGE))

    def test_other_faults_set_nothing(self):
        for refused in (ALL_RIGHTS & ~PTE_W, ALL_RIGHTS & ~PTE_U, ALL_RIGHTS & ~PTE_V, ALL_RIGHTS | 1 << 54):
            run = Translated(SET, store(4), EDGE, high=refused)
            self.assertEqual(run.cause(), (15, EDGE))
            self.assertEqual(run.marks()[2], 0)
        run = Translated(SET, load(4), 5 << 21)
        run.memory.write(MIDDLE + 8 * 5, 8, LOW >> 2 | ALL_RIGHTS)  # a megapage at no multiple of its size
        self.assertEqual(run.cause(), (13, 5 << 21))
        self.assertEqual(run.memory.read(MIDDLE + 8 * 5, 8) & PTE_A, 0)

    def test_they_stay_where_the_instruction_traps(self):
        run = Translated(SET, load(4), EDGE + 1, code=ALL_RIGHTS)
        self.assertEqual(run.cause(), (4, EDGE + 1))
        self.assertEqual(run.marks(), [PTE_A, PTE_A | PTE_D, PTE_A | PTE_D])
        run = Translated(SET, load(4), EDGE, code=ALL_RIGHTS, high=0)
        run.memory.write(CODE, 4, 0xFFFFFFFF)
        self.assertEqual(run.cause(), (2, 0xFFFFFFFF))
        self.assertEqual(run.marks()[0], PTE_A)

    def test_the_first_half_of_a_fetch(self):
        run = Translated(SET, load(4), EDGE, low=ALL_RIGHTS, high=ALL_RIGHTS & ~PTE_X)
        run.memory.write(LOW + PAGE - 2, 2, load(4) & 0xFFFF)
        run.hart.pc = EDGE - 2
        self.assertEqual(run.cause(), (12, EDGE))
        self.assertEqual(run.marks(), [PTE_A | PTE_D, PTE_A, 0])

    def test_the_same_step_sees_what_it_set(self):
        run = Translated(SET, load(8), EDGE + 8 * 2, high=0)
        run.memory.write(TABLE + 8 * 2, 8, TABLE >> 2 | ALL_RIGHTS)  # the table itself is the page
        self.assertEqual(run.step().access.read, TABLE >> 2 | ALL_RIGHTS | PTE_A)
        run = Translated(BOTH, load(8), PAGES - 3)
        run.memory.write(MIDDLE + 8, 8, CODE >> 2 | PTE_V)  # a table in a page that is not used
        run.memory.write(CODE + 8 * 511, 8, HIGH >> 2 | MARKED)
        run.memory.write(TABLE, 8, TABLE >> 2 | ALL_RIGHTS)
        run.memory.write(LOW, 4, load(8))
        run.hart.pc = PAGES + PAGE
        self.assertEqual(run.step().access.read >> 24, TABLE >> 2 | ALL_RIGHTS | PTE_A)

    def test_borrowed_rights_ask_for_those_of_s(self):
        run = Translated(SET, load(4), EDGE, high=ALL_RIGHTS, mode=M)
        run.hart.pc = CODE
        run.hart.csrs.write("mstatus", 1 << 17)  # MPRV, with U in MPP
        run.protect((TABLE, PAGE, 1))  # M may store there, S may not
        self.assertEqual(run.cause(), (5, EDGE))


class Reservations(unittest.TestCase):
    def stores(self, block, apart):
        """Whether an SC stores so many bytes after what LR read."""
        run = Run(Choices(block=block), atomic("LR"), LOW)
        run.memory.write(CODE + 4, 4, atomic("SC"))
        run.step()
        run.hart.registers[2] += apart
        return run.step().access is not None

    def test_blocks(self):
        for block in VALUES["block"]:
            self.assertTrue(self.stores(block, block - 8))
            self.assertFalse(self.stores(block, block))
            self.assertFalse(self.stores(block, -8))
        self.assertFalse(self.stores(8, 8))
        self.assertTrue(self.stores(64, 8))

    def test_set_entries_leave_the_reservation(self):
        run = Translated(SET, atomic("LR"), EDGE, high=0)
        run.memory.write(TABLE + 8 * 2, 8, TABLE >> 2 | ALL_RIGHTS | PTE_A)
        run.memory.write(CODE + 4, 4, atomic("SC"))
        run.step()
        self.assertEqual(run.step().value, 0)  # though D was set in the reserved block

    def test_other_sizes_are_none(self):
        for block in (0, 4, 12, 48, 8192, "64"):
            self.assertRaises(ValueError, Choices, block=block)


LOADS_ODD = [0x00000117, 0x10112183]  # AUIPC x2, 0; LW x3, 0x101(x2)
REFUSED_PART = [
    0x00000117, 0x00215193, 0x04018193, 0x3B019073, 0x01000213, 0x3A021073, 0x10013283,
]  # an entry of protection for four bytes without a right, and LD of them and four more
LEAF_WITHOUT_A = [
    0xFFF00093, 0x3B009073, 0x01F00093, 0x3A009073, 0x00100193, 0x03F19193, 0x00080237, 0x00120213,
    0x0041E1B3, 0x18019073, 0x000212B7, 0x80028293, 0x00C21393, 0x20000437, 0x00740413, 0x0083B023,
    0x00000413, 0x30029073, 0x00003303,
]  # stores a leaf with V, R, W, and loads from there under MPRV as S


def rows_of(words, header, last):
    """A trace of these words one after the other; last is what the final row shows after pc_rdata."""
    lines, blank = [f"insn,pc_rdata,{header}"], "," * header.count(",")
    for at, word in enumerate(words):
        shown = last if at == len(words) - 1 else blank
        lines.append(f"0x{word:08x},0x{RAM.start + 4 * at:x},{shown}")
    return "\n".join(lines).encode()


class Verdicts(unittest.TestCase):
    """What the judge says of whole traces."""

    def said(self, words, header, last, choices, more=b""):
        image = image_of(RAM.start, words) + more
        return foretell(image, rows_of(words, header, last), Setting(choices=choices))[0]

    def test_a_misaligned_load(self):
        more = b" @80000101 78 56 34 12"
        for choices, due in (
            (DONE, "agrees 2"),
            (Choices(), "differs row 2: trap expected 0x0000000000000001 found 0x0000000000000000"),
        ):
            self.assertEqual(self.said(LOADS_ODD, "trap,rd_wdata", "0,0x12345678", choices, more), due)

    def test_what_an_access_in_two_parts_shows(self):
        # RAM has no translation here, so that the parts lie side by side.
        words = [0x00001117, 0xFFD13183]  # AUIPC x2, 1; LD x3, -3(x2)
        header = "rd_wdata,mem_addr,mem_rmask,mem_rdata,mem_wmask,mem_paddr"
        more, value = b" @80000ffd 01 02 03 04 05 06 07 08", 0x0807060504030201
        for last, due in (
            (f"{value},0x80000ffd,0xff,{value},0,0x80000ffd", "agrees 2"),
            (f"{value},0x80000ffd,0x7,{value},0,0x80000ffd",
             "differs row 2: mem_rmask expected 0x00000000000000ff found 0x0000000000000007"),
            (f"{value},0x80001000,0xff,{value},0,0x80001000",
             "differs row 2: mem_addr expected 0x0000000080000ffd found 0x0000000080001000"),
            (f"{value},0x80000ffd,0xff,{value},0,0x80001000",
             "differs row 2: mem_paddr expected 0x0000000080000ffd found 0x0000000080001000"),
        ):
            self.assertEqual(self.said(words, header, last, DONE, more), due)

    def test_the_trap_value_of_a_refused_load(self):
        header, last = "trap,csr_mcause_wdata,csr_mtval_wdata", "1,5,0x80000100"
        for choices, due in (
            (Choices(), "agrees 7"),
            (Choices(trap_values="zero"),
             "differs row 7: csr_mtval_wdata expected 0x0000000000000000 found 0x0000000080000100"),
        ):
            self.assertEqual(self.said(REFUSED_PART, header, last, choices), due)

    def test_a_leaf_without_a(self):
        for choices, due in (
            (SET, "agrees 19"),
            (Choices(), "differs row 19: trap expected 0x0000000000000001 found 0x0000000000000000"),
        ):
            said = self.said(LEAF_WITHOUT_A, "trap,rd_addr,rd_wdata", "0,6,0x3b009073fff00093", choices)
            self.assertEqual(said, due)
        memory = Memory()
        for at, word in enumerate(LEAF_WITHOUT_A):
            memory.write(RAM.start + 4 * at, 4, word)
        hart = Hart(memory, choices=SET)
        for _ in LEAF_WITHOUT_A:
            hart.step()
        self.assertEqual(memory.read(RAM.start + PAGE, 8), 0x20000047)

    def test_words(self):
        with tempfile.TemporaryDirectory() as name:
            image, trace = Path(name, "image"), Path(name, "trace")
            image.write_bytes(image_of(RAM.start, [0x00500093]))
            trace.write_bytes(b"insn,pc_rdata\n0x00500093,0x80000000\n")
            command = [sys.executable, HERE / "judge.py", image, trace]
            for words, due in (
                ("--misaligned done --mtval zero --ad set --reserve 4096 --bits on", (b"agrees 1\n", 0)),
                ("--misaligned trap --mtval value --ad fault --reserve=0x40 --bits=off", (b"agrees 1\n", 0)),
                *((words, (b"refused words\n", 2)) for words in (
                    "--reserve 48", "--reserve 4", "--reserve 8192", "--reserve 0_8", "--reserve", "--ad SET",
                    "--ad", "--mtval 0", "--misaligned=", "--misaligned done --misaligned done", "--mis done",
                    "--reserve 8 --reserve 8", "--bits", "--bits ON", "--bits 1", "--bits on --bits on",
                )),
            ):
                run = subprocess.run([*command, *words.split()], capture_output=True, check=False)
                self.assertEqual((run.stdout, run.returncode), due, words)


if __name__ == "__main__":
    unittest.main()
