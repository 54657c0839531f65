#!/usr/bin/env python3
"""Tests what --origin says of small runs whose outcome is known: origin_test.py."""
import unittest

from choices_test import CODE, HIGH, LOW, MARKED, MIDDLE, PAGES, ROOT, TABLE
from choices_test import atomic, image_of, load, store
from hart_choices import Choices
from hart_memory import PAGE, PTE_A, PTE_V, RAM
from hart_registers import SATP_MODE_AT, SV39, S
from judge import Setting, answer, foretell, judge_at_start
from row_origin import Last

HEADER = "hart,valid,insn,pc_rdata,rd_wdata"
FIVE, ONE_MORE, NOP = 0x00500093, 0x00108093, 0x13  # ADDI x1, x0, 5; ADDI x1, x1, 1
UPPER, SEVEN = 0x00008137, 0x00700113  # LUI x2, 8; ADDI x2, x0, 7
HERE = 0x00000117  # AUIPC x2, 0
WRONG = 0x1234567890


def add(rd, rs1, rs2):
    return 0x33 | rd << 7 | rs1 << 15 | rs2 << 20


def runs(words, *more, last=WRONG):
    """Rows of hart 0 that carry these words out from 0x80000000 on; the last shows this value."""
    shown = [f"0,1,{word},{RAM.start + 4 * at}," for at, word in enumerate(words)]
    return [*shown[:-1], shown[-1] + str(last), *more]


def origins(image, rows, header=HEADER, **setting):
    """The lines after that of the difference."""
    trace = "\n".join((header, *rows)).encode()
    text, status = foretell(image, trace, Setting(origin=True, **setting))
    plain, _ = foretell(image, trace, Setting(**setting))
    line, *rest = text.split("\n")
    if (line, status, line[:12]) != (plain, 1, "differs row "):
        raise AssertionError(f"{plain}, with origins {text}")
    return [it.removeprefix("origin ") for it in rest]


def of_words(*words, **setting):
    return origins(image_of(RAM.start, words), runs(words), **setting)


class Registers(unittest.TestCase):
    def test_the_text(self):
        image = image_of(RAM.start, (FIVE, ONE_MORE))
        rows = f"insn,pc_rdata,rd_wdata\n{FIVE},0x80000000,5\n{ONE_MORE},0x80000004,7".encode()
        line = "differs row 2: rd_wdata expected 0x0000000000000006 found 0x0000000000000007"
        self.assertEqual(foretell(image, rows, Setting()), (line, 1))
        due = f"{line}\norigin x1 row 1", 1
        self.assertEqual(foretell(image, rows, Setting(origin=True)), due)

    def test_the_last_writer_and_not_the_row_itself(self):
        self.assertEqual(of_words(FIVE, ONE_MORE, ONE_MORE), ["x1 row 2"])
        self.assertEqual(of_words(FIVE, FIVE, NOP, SEVEN, ONE_MORE), ["x1 row 2"])

    def test_sources_in_order_and_once(self):
        self.assertEqual(of_words(FIVE, SEVEN, add(3, 1, 2)), ["x1 row 1", "x2 row 2"])
        self.assertEqual(of_words(FIVE, SEVEN, add(3, 2, 1)), ["x2 row 2", "x1 row 1"])
        self.assertEqual(of_words(FIVE, add(3, 1, 1)), ["x1 row 1"])
        self.assertEqual(of_words(FIVE, add(3, 0, 1)), ["x1 row 1"])
        self.assertEqual(of_words(FIVE, add(3, 1, 0)), ["x1 row 1"])
        self.assertEqual(of_words(FIVE, add(3, 0, 0)), [])
        self.assertEqual(of_words(FIVE, UPPER), [])  # whose bits 19:15 are no source

    def test_registers_that_no_row_wrote(self):
        self.assertEqual(of_words(FIVE, add(3, 31, 4)), ["x31 reset", "x4 reset"])

    def test_the_word_that_was_fetched_counts(self):
        image = image_of(RAM.start, (FIVE, ONE_MORE))
        row = f"0,1,{add(3, 2, 4)},0x80000004,0"
        self.assertEqual(origins(image, [*runs([FIVE], last=""), row]), ["x1 row 1"])

    def test_short_instructions(self):
        image = b"@80000000 93 00 50 00 86 90"  # ADDI x1, x0, 5; C.ADD x1, x1
        rows = [*runs([FIVE], last=""), "0,1,0x9086,0x80000004,0"]
        self.assertEqual(origins(image, rows), ["x1 row 1"])

    def test_rows_that_are_not_valid_count(self):
        image = image_of(RAM.start, (FIVE, ONE_MORE))
        first, second = runs((FIVE, ONE_MORE))
        rows = ["0,0,zz,,", first, "7,0,,,5", second]
        self.assertEqual(origins(image, rows), ["x1 row 2"])

    def test_rows_that_trap_write_no_register(self):
        words = (FIVE, 0x0FF03083, ONE_MORE)  # LD x1, 255(x0) traps, and goes to mtvec
        rows = [*runs(words[:2], last=""), f"0,1,{NOP},0,", f"0,1,{ONE_MORE},4,0"]
        image = image_of(RAM.start, words) + b" " + image_of(0, (NOP, ONE_MORE))
        setting = {"ram": range(0, 0x100000000), "pc": RAM.start}
        self.assertEqual(origins(image, rows, **setting), ["x1 row 1"])

    def test_other_harts_have_their_own(self):
        image = image_of(RAM.start, (FIVE, ONE_MORE))
        rows = [f"{hart},1,{FIVE},0x80000000," for hart in (1, 0)]
        rows.append(f"1,1,{ONE_MORE},0x80000004,9")
        self.assertEqual(origins(image, rows, harts=2), ["x1 row 1"])
        rows[2:] = f"1,1,{ONE_MORE},0x80000004,", f"0,1,{ONE_MORE},0x80000004,9"
        self.assertEqual(origins(image, rows, harts=2), ["x1 row 2"])
        image = image_of(RAM.start, (ONE_MORE, ONE_MORE))
        rows = f"1,1,{ONE_MORE},0x80000000,", f"0,1,{ONE_MORE},0x80000000,9"
        self.assertEqual(origins(image, rows, harts=2), ["x1 reset"])


class Differences(unittest.TestCase):
    """Which differences have lines."""

    IMAGE = image_of(RAM.start, (FIVE, ONE_MORE))

    def origins(self, header, *rows, **setting):
        return origins(self.IMAGE, rows, f"insn,pc_rdata,{header}", **setting)

    def test_each_signal(self):
        first, second = f"{FIVE},0x80000000,", f"{ONE_MORE},0x80000004,"
        for header, right, wrong in (
            ("order", "7", "9"), ("intr", "0", "1"), ("mode", "3", "1"), ("trap", "0", "1"),
            ("rs1_rdata", "0", "6"), ("pc_wdata", "", "0"), ("mem_wmask", "0", "1"),
            ("csr_mscratch_wdata", "0", "1"),
        ):
            found = self.origins(header, first + right, second + wrong)
            self.assertEqual(found, ["x1 row 1"], header)
        found = self.origins("order", first, f"{ONE_MORE},0x80000008,")
        self.assertEqual(found, ["x1 row 1"])

    def test_a_trap_of_the_hart_has_none(self):
        word = load(8, rs1=1)  # from 5
        image = image_of(RAM.start, (FIVE, word))
        for row in (f"{word},0x80000004,0", f"{word},0x80000008,1"):
            rows = f"{FIVE},0x80000000,0", row
            self.assertEqual(origins(image, rows, "insn,pc_rdata,trap"), [])

    def test_a_hart_that_was_halted_has_none(self):
        rows = f"{FIVE},0x80000000,1", f"{ONE_MORE},0x80000004,0"
        self.assertEqual(self.origins("halt", *rows), [])

    def test_nothing_is_added_to_other_answers(self):
        for rows, due in (
            ([f"{FIVE},0x80000000,5"], "agrees 1"),
            (["zz,0,0"], "refused trace: row 1: insn not a number"),
        ):
            trace = "\n".join(("insn,pc_rdata,rd_wdata", *rows)).encode()
            self.assertEqual(foretell(self.IMAGE, trace, Setting(origin=True))[0], due)


class Bytes(unittest.TestCase):
    """Runs whose x2 is 0x80000000 by their first row, x3 what is stored, and x1 0."""

    def test_bytes_of_the_image(self):
        image = b"@80000000 17 01 00 00 83 01 31 10 @80000103 80"  # LB x3, 0x103(x2)
        rows = "0x00000117,0x80000000,0x80000000", "0x10310183,0x80000004,0"
        found = origins(image, rows, "insn,pc_rdata,rd_wdata")
        self.assertEqual(found, ["x2 row 1", "byte 0x0000000080000103 image"])

    def test_the_last_writer_of_each_byte(self):
        # SD x1, 0x100(x2); SB x1, 0x102(x2); SH x1, 0x106(x2); LD x3, 0x100(x2)
        words = HERE, 0x10113023, 0x10110123, 0x10111323, 0x10013183
        at = 0x80000100
        due = [f"byte 0x{at + n:016x} row {row}" for n, row in enumerate((2, 2, 3, 2, 2, 2, 4, 4))]
        self.assertEqual(of_words(*words), ["x2 row 1", *due])
        due = [f"byte 0x{at + n:016x} row 2" for n in range(4)]
        found = of_words(HERE, 0x10113023, 0x10112423, 0x10012183)  # SW x1, 0x108(x2); LW x3
        self.assertEqual(found, ["x2 row 1", *due])
        found = of_words(HERE, 0x10113023, 0x10812183)  # LW x3, 0x108(x2)
        due = [f"byte 0x{at + 8 + n:016x} image" for n in range(4)]
        self.assertEqual(found, ["x2 row 1", *due])

    def test_stores_have_no_bytes(self):
        self.assertEqual(of_words(HERE, 0x10113023, 0x10113023), ["x2 row 1", "x1 reset"])

    def test_atomics(self):
        at = [f"byte 0x{RAM.start + n:016x}" for n in range(8)]
        image = [f"{byte} image" for byte in at]
        self.assertEqual(of_words(HERE, atomic("LR")), ["x2 row 1", *image])
        self.assertEqual(of_words(HERE, atomic("ADD")), ["x2 row 1", "x1 reset", *image])
        self.assertEqual(of_words(HERE, atomic("SC")), ["x2 row 1", "x1 reset"])
        self.assertEqual(of_words(HERE, atomic("LR"), atomic("SC")), ["x2 row 1", "x1 reset"])

    def test_what_atomics_write(self):
        # AUIPC x2, 0; then from 0x100(x2), by ADDI x2, x2, 0x100
        there, words = 0x10010113, [atomic("LR"), atomic("SC"), atomic("ADD"), load(8)]
        at = [f"byte 0x{RAM.start + 256 + n:016x}" for n in range(8)]
        for count, row in ((2, "image"), (3, "row 4"), (4, "row 5")):
            found = of_words(HERE, there, *words[: count - 1], load(8))
            self.assertEqual(found, ["x2 row 2", *(f"{byte} {row}" for byte in at)], count)
        found = of_words(HERE, there, atomic("SC"), load(8))  # which fails, and stores nothing
        self.assertEqual(found, ["x2 row 2", *(f"{byte} image" for byte in at)])

    def test_devices_have_none(self):
        words = 0x10000137, 0x00112023, 0x00012183  # LUI x2, 0x10000; SW x1, 0(x2); LW x3, 0(x2)
        rows = [f"{row},{at}" for row, at in zip(runs(words), (RAM.start + 4, RAM.start + 8, 0))]
        devices = range(0x10000000, 0x10001000)
        found = origins(image_of(RAM.start, words), rows, f"{HEADER},pc_wdata", devices=devices)
        self.assertEqual(found, ["x2 row 1"])

    def test_rows_of_any_hart(self):
        words = HERE, 0x10113023, 0x10010183  # SD x1, 0x100(x2); LB x3, 0x100(x2)
        first, second, third = runs(words)
        other = [f"1{row[1:]}" for row in (first, second)]
        rows = first, second, *other, third
        found = origins(image_of(RAM.start, words), rows, harts=2)
        self.assertEqual(found, ["x2 row 1", "byte 0x0000000080000100 row 4"])

    def test_saved_states(self):
        words = HERE, 0x10113023, 0x10010183
        image, rows = image_of(RAM.start, words), runs(words)
        for count, due in (
            (0, ["x2 row 1", "byte 0x0000000080000100 row 2"]),
            (1, ["x2 reset", "byte 0x0000000080000100 row 1"]),
            (2, ["x2 reset", "byte 0x0000000080000100 image"]),
        ):
            trace = "\n".join((HEADER, *rows[:count])).encode()
            state = foretell(image, trace, Setting(), "state")[0] + "\n"
            self.assertEqual(origins(state.encode(), rows[count:]), due)

    def test_a_state_has_no_origins(self):
        words = FIVE, ONE_MORE
        trace = "\n".join((HEADER, *runs(words))).encode()
        found = foretell(image_of(RAM.start, words), trace, Setting(origin=True), "state")[0]
        self.assertEqual(found.count("\n"), 0)


class Translated(unittest.TestCase):
    """A hart in S with Sv39, which sets A and D: pages of CODE, LOW and HIGH follow each other."""

    def judge(self, words, address, low=MARKED, high=MARKED):
        setting = Setting(choices=Choices(misaligned="done", marks="set"))
        harts = judge_at_start(b"", setting)
        hart = harts.judges[0].hart
        for at, word in enumerate(words):
            hart.memory.write(CODE + 4 * at, 4, word)
        hart.memory.write(ROOT, 8, MIDDLE >> 2 | PTE_V)
        hart.memory.write(MIDDLE + 8 * 2, 8, TABLE >> 2 | PTE_V)
        for at, (place, bits) in enumerate(((CODE, MARKED & ~0x10), (LOW, low), (HIGH, high))):
            hart.memory.write(TABLE + 8 * at, 8, place >> 2 | bits)
        registers = hart.csrs
        for name, value in (
            ("pmpaddr0", (1 << 54) - 1), ("pmpcfg0", 0x1F), ("mtvec", 0x80000100),
            ("satp", SV39 << SATP_MODE_AT | ROOT // PAGE), ("mstatus", 1 << 18),
        ):
            registers.write(name, value)
        hart.mode, hart.pc, hart.registers[2] = S, PAGES, address
        return harts

    def origins(self, harts, *rows):
        line, *rest = answer(harts, rows, last=Last()).split("\n")
        self.assertEqual(line[:12], "differs row ")
        return [it.removeprefix("origin ") for it in rest]

    @staticmethod
    def row(word, at, **more):
        return {"insn": word, "pc_rdata": PAGES + 4 * at} | more

    def test_the_addresses_are_physical_ones_and_rise(self):
        # HIGH stands below LOW, so that the second part comes first
        words = store(1), load(8)
        harts = self.judge(words, PAGES + 2 * PAGE - 3)
        found = self.origins(harts, self.row(words[0], 0), self.row(words[1], 1, rd_wdata=1))
        high = [f"byte 0x{HIGH + n:016x} image" for n in range(5)]
        low = [f"byte 0x{LOW + PAGE - 3 + n:016x}" for n in range(3)]
        due = [f"{low[0]} row 1", f"{low[1]} image", f"{low[2]} image"]
        self.assertEqual(found, ["x2 reset", *high, *due])

    def test_both_parts_of_a_store(self):
        words = store(8), load(8)
        harts = self.judge(words, PAGES + 2 * PAGE - 3)
        found = self.origins(harts, self.row(words[0], 0), self.row(words[1], 1, rd_wdata=1))
        places = [HIGH + n for n in range(5)] + [LOW + PAGE - 3 + n for n in range(3)]
        self.assertEqual(found, ["x2 reset", *(f"byte 0x{place:016x} row 1" for place in places)])

    def test_entries_that_are_read_have_none(self):
        words = (load(1),)
        harts = self.judge(words, PAGES + PAGE, low=MARKED & ~PTE_A)
        found = self.origins(harts, self.row(words[0], 0, rd_wdata=1))
        self.assertEqual(found, ["x2 reset", f"byte 0x{LOW:016x} image"])

    def marks(self, first, trapped, **pages):
        """What is said of a load of the leaf of LOW after this row, which M carries out."""
        harts = self.judge((first,), PAGES + 2 * PAGE - 3, **pages)
        hart, last = harts.judges[0].hart, Last()
        row = self.row(first, 0) | ({"trap": 1} if trapped else {})
        self.assertEqual(answer(harts, [row], last=last), "agrees 1")
        hart.mode, hart.pc, hart.registers[2] = 3, RAM.start, TABLE + 8
        hart.memory.write(RAM.start, 4, load(8))
        text = answer(harts, [{"insn": load(8), "pc_rdata": RAM.start, "rd_wdata": 1}], 1, 1, last)
        return text.split("\n")[1:]

    def test_marks_that_a_row_set(self):
        at = [f"origin byte 0x{TABLE + 8 + n:016x}" for n in range(8)]
        for word, trapped, pages, due in (
            (load(8), False, {}, "image"), (load(8), False, {"low": MARKED & ~PTE_A}, "row 1"),
            (load(8), True, {"low": MARKED & ~PTE_A, "high": 0}, "row 1"),
            (load(8), True, {"low": 0, "high": 0}, "image"),
        ):
            found = self.marks(word, trapped, **pages)
            self.assertEqual(found, ["origin x2 reset", *(f"{byte} {due}" for byte in at)], pages)


if __name__ == "__main__":
    unittest.main()
