#!/usr/bin/env python3
"""Tests several harts over one memory, by small runs whose outcome is known: harts_test.py."""
import subprocess
import sys
import tempfile
import unittest
from pathlib import Path

from choices_test import CODE, MARKED, MIDDLE, PAGES, ROOT, TABLE, atomic, load, store
from hart_choices import Choices
from hart_memory import PAGE, PTE_A, PTE_D, PTE_V
from hart_registers import SATP_MODE_AT, SV39, U
from judge import Setting, foretell, judge_at_start

HERE = Path(__file__).parent
COUNT = b"@80000000 93 00 50 00 93 80 10 00"  # ADDI x1, x0, 5; ADDI x1, x1, 1
FIRST, SECOND = "0x00500093,0x80000000", "0x00108093,0x80000004"
# AUIPC x2, 1; LR.D x3, (x2); SC.D x4, x1, (x2); SC.D x5, x1, (x2)
RESERVE = b"@80000000 17 11 00 00 af 31 01 10 2f 32 11 18 af 32 11 18"
PLACE, LR = "0x00001117,0x80000000", "0x100131af,0x80000004"
SC, AGAIN = "0x1811322f,0x80000008", "0x181132af,0x8000000c"
BLOCK = 0x80001000


def said(image, *lines, harts=2, command="judge", **setting):
    trace = "\n".join(lines).encode()
    return foretell(image, trace, Setting(harts=harts, **setting), command)[0]


class Rows(unittest.TestCase):
    HEADER = "hart,order,insn,pc_rdata,rd_wdata"

    def test_each_hart_is_reset_and_counts_its_rows(self):
        rows = [f"0,0,{FIRST},5", f"1,0,{FIRST},5", f"0,1,{SECOND},6", f"1,1,{SECOND},6"]
        self.assertEqual(said(COUNT, self.HEADER, *rows), "agrees 4")
        rows[3] = f"1,2,{SECOND},6"
        self.assertEqual(said(COUNT, self.HEADER, *rows),
            "differs row 4: order expected 0x0000000000000001 found 0x0000000000000002")
        rows[3] = f"1,1,{SECOND},7"
        self.assertEqual(said(COUNT, self.HEADER, *rows),
            "differs row 4: rd_wdata expected 0x0000000000000006 found 0x0000000000000007")

    def test_hart_0_is_meant_where_none_is_shown(self):
        for first, second, due in (
            ("0", "", "agrees 2"), ("", "0x0", "agrees 2"), ("", "", "agrees 2"),
            ("1", "1", "agrees 2"),
            ("1", "",
             "differs row 2: pc_rdata expected 0x0000000080000000 found 0x0000000080000004"),
        ):
            rows = f"{first},,{FIRST},5", f"{second},,{SECOND},6"
            self.assertEqual(said(COUNT, self.HEADER, *rows), due)
        self.assertEqual(said(COUNT, "insn,pc_rdata", FIRST, SECOND, harts=8), "agrees 2")

    def test_harts_that_are_not_there(self):
        for harts, number, due in (
            (1, "0", "agrees 1"), (1, "1", "refused"), (2, "1", "agrees 1"), (2, "2", "refused"),
            (8, "7", "agrees 1"), (8, "8", "refused"), (8, "0x100000000", "refused"),
            (8, "0xffffffffffffffff", "refused"),
        ):
            due = due.replace("refused", "refused trace: row 1: hart not there")
            self.assertEqual(said(COUNT, self.HEADER, f"{number},0,{FIRST},5", harts=harts), due)

    def test_it_is_the_last_fault_of_its_row(self):
        refused = "refused trace: row 1: "
        for row, due in (
            (f"2,0,{FIRST},5", "hart not there"), (f"2,zz,{FIRST},5", "order not a number"),
            (f"2,0,{FIRST},0x10000000000000000", "rd_wdata too wide"),
            ("2,0,0x00500093,,5", "pc_rdata empty"),
            (f"2,0,{FIRST},5,", "wrong number of fields"), (f"zz,0,{FIRST},5", "hart not a number"),
            (f"0x10000000000000000,0,{FIRST},5", "hart too wide"),
        ):
            self.assertEqual(said(COUNT, self.HEADER, row), refused + due, row)

    def test_rows_before_it_and_after_it(self):
        absent, broken = f"2,0,{FIRST},5", f"0,zz,{FIRST},5"
        refused = "refused trace: row 1: "
        found = said(COUNT, self.HEADER, absent, broken)
        self.assertEqual(found, f"{refused}hart not there")
        found = said(COUNT, self.HEADER, broken, absent)
        self.assertEqual(found, f"{refused}order not a number")
        self.assertEqual(said(COUNT, self.HEADER, f"0,0,{FIRST},6", absent),
            "differs row 1: rd_wdata expected 0x0000000000000005 found 0x0000000000000006")

    def test_rows_that_are_not_valid(self):
        header = "hart,valid,insn,pc_rdata"
        self.assertEqual(said(COUNT, header, "9,0,,", "zz,0,,", f"1,1,{FIRST}"), "agrees 1")
        self.assertEqual(said(COUNT, header, f"9,,{FIRST}"), "refused trace: row 1: hart not there")

    def test_ports(self):
        header = "insn,pc_rdata,hart,insn_1,pc_rdata_1,rvfi_hart_1"
        for first, second, due in (
            ("0", "1", "agrees 2"), ("0", "2", "refused trace: row 2: hart not there"),
            ("2", "zz", "refused trace: row 1: hart not there"),
            ("0", "zz", "refused trace: row 2: hart_1 not a number"),
            ("0", "0x10000000000000000", "refused trace: row 2: hart_1 too wide"),
        ):
            self.assertEqual(said(COUNT, header, f"{FIRST},{first},{FIRST},{second}"), due)
        self.assertEqual(said(COUNT, "insn,pc_rdata,hart_3"), "refused trace: no column insn_1")
        found = said(COUNT, "insn,hart,pc_rdata,hart_0")
        self.assertEqual(found, "refused trace: column hart twice")

    def test_halts_are_those_of_one_hart(self):
        header = "hart,insn,pc_rdata,halt"
        rows = f"0,{FIRST},1", f"1,{FIRST},0", f"1,{SECOND},0"
        self.assertEqual(said(COUNT, header, *rows), "agrees 3")
        self.assertEqual(said(COUNT, header, *rows, f"0,{SECOND},0"),
            "differs row 4: valid expected 0x0000000000000000 found 0x0000000000000001")

    def test_traps_are_those_of_one_hart(self):
        image = b"@80000000 00 00 @0 13 00 00 00"  # an illegal word; NOP, where handlers are
        header, trap, handler = "hart,insn,pc_rdata,intr", "0,0,0x80000000,0", "0,0x13,0,1"
        ram = {"ram": range(0, 0x100000000), "pc": 0x80000000}
        self.assertEqual(said(image, header, trap, handler, **ram), "agrees 2")
        self.assertEqual(said(image, header, trap, "1,0,0x80000000,1", **ram),
            "differs row 2: intr expected 0x0000000000000000 found 0x0000000000000001")

    def test_each_tells_its_own_number(self):
        image = b"@80000000 f3 22 40 f1"  # CSRRS x5, mhartid, x0
        row = "0xf14022f3,0x80000000"
        found = said(image, "hart,insn,pc_rdata,rd_wdata", f"0,{row},0", f"1,{row},1")
        self.assertEqual(found, "agrees 2")


class Traces(unittest.TestCase):
    """LR and SC of two harts to one place."""

    HEADER = "hart,insn,pc_rdata,rd_wdata"
    BOTH = (f"0,{PLACE},0x80001000", f"0,{LR},0", f"1,{PLACE},0x80001000", f"1,{LR},0")

    def test_an_sc_takes_the_other_reservation(self):
        found = said(RESERVE, self.HEADER, *self.BOTH, f"1,{SC},0", f"0,{SC},1")
        self.assertEqual(found, "agrees 6")
        self.assertEqual(said(RESERVE, self.HEADER, *self.BOTH, f"1,{SC},0", f"0,{SC},0"),
            "differs row 6: rd_wdata expected 0x0000000000000001 found 0x0000000000000000")

    def test_one_that_fails_takes_its_own_alone(self):
        found = said(RESERVE, self.HEADER, *self.BOTH, f"1,{SC},1", f"0,{SC},0")
        self.assertEqual(found, "agrees 6")
        self.assertEqual(said(RESERVE, self.HEADER, *self.BOTH, f"1,{SC},1", f"1,{AGAIN},0"),
            "differs row 6: rd_wdata expected 0x0000000000000001 found 0x0000000000000000")


class OneMemory(unittest.TestCase):
    """Harts of which hart 0 has reserved a block."""

    def harts(self, word, address, count=2, reserved=BLOCK, **choices):
        """Harts that stand before this word, and whose x2 has this address."""
        harts = judge_at_start(b"", Setting(choices=Choices(**choices), harts=count))
        harts.go_to(CODE)
        for judge in harts.judges:
            judge.hart.registers[2] = address
        harts.judges[0].hart.memory.write(CODE, 4, word)
        harts.judges[0].hart.reserved = reserved // harts.judges[0].hart.choices.block
        return harts

    def step(self, harts, number, word, pc=CODE):
        """What the step of a hart did, whose row shows this word at this pc."""
        self.assertIsNone(harts.judge({"hart": number, "insn": word, "pc_rdata": pc}))
        return harts.stepped[1]


class Reservations(OneMemory):
    """What hart 1 does to the reservation of hart 0, and to its own."""

    def keeps(self, word, address, by=1, **setting):
        """Whether hart 0 has its reservation after hart 1, or another, carried this word out."""
        harts = self.harts(word, address, **setting)
        number = harts.judges[0].hart.reserved
        retired = self.step(harts, by, word)
        self.assertIsNone(retired.trap)
        self.assertIn(harts.judges[0].hart.reserved, (None, number))
        return harts.judges[0].hart.reserved is not None

    def test_stores_take_it_where_a_byte_lies_in_the_block(self):
        for length, address, keeps in (
            (1, BLOCK - 1, True), (1, BLOCK, False), (1, BLOCK + 63, False), (1, BLOCK + 64, True),
            (8, BLOCK - 8, True), (8, BLOCK + 56, False), (4, BLOCK + 64, True),
            (2, BLOCK + 30, False),
        ):
            self.assertEqual(self.keeps(store(length), address), keeps, (length, address))

    def test_misaligned_stores(self):
        for length, address, keeps in (
            (8, BLOCK - 7, False), (8, BLOCK - 1, False), (2, BLOCK + 63, False),
            (8, BLOCK + 65, True), (4, BLOCK - 5, True),
        ):
            # In front of the first block a page ends, so that the store has two parts.
            for reserved in (BLOCK, BLOCK + 64):
                place = address - BLOCK + reserved
                found = self.keeps(store(length), place, reserved=reserved, misaligned="done")
                self.assertEqual(found, keeps, (length, place))

    def test_each_size_of_block(self):
        for block, distance, keeps in (
            (8, 7, False), (8, 8, True), (64, 63, False), (4096, 4095, False), (4096, 4096, True),
            (4096, -1, True),
        ):
            found = self.keeps(store(1), BLOCK + distance, block=block)
            self.assertEqual(found, keeps, (block, distance))

    def test_a_hart_does_not_lose_its_own(self):
        for word in (store(8), atomic("ADD"), load(8)):
            self.assertTrue(self.keeps(word, BLOCK, by=0))

    def test_atomics(self):
        self.assertFalse(self.keeps(atomic("ADD"), BLOCK + 8))
        self.assertTrue(self.keeps(atomic("ADD"), BLOCK + 64))
        self.assertTrue(self.keeps(atomic("LR"), BLOCK))
        self.assertTrue(self.keeps(atomic("SC"), BLOCK))  # it fails: nothing was reserved
        harts = self.harts(atomic("SC"), BLOCK)
        harts.judges[1].hart.reserved = BLOCK // 64
        self.step(harts, 1, atomic("SC"))
        self.assertEqual([judge.hart.reserved for judge in harts.judges], [None, None])

    def test_the_value_does_not_matter(self):
        harts = self.harts(store(1), BLOCK)
        harts.judges[0].hart.memory.write(BLOCK, 1, 0)
        self.step(harts, 1, store(1))  # 0 again
        self.assertIsNone(harts.judges[0].hart.reserved)

    def test_all_others_lose_it(self):
        harts = self.harts(store(8), BLOCK, count=8)
        for judge in harts.judges:
            judge.hart.reserved = BLOCK // 64
        harts.judges[5].hart.reserved = BLOCK // 64 + 1
        self.step(harts, 6, store(8))
        kept = [judge.hart.reserved is not None for judge in harts.judges]
        self.assertEqual(kept, [False, False, False, False, False, True, True, False])

    def test_stores_that_trap_take_nothing(self):
        harts = self.harts(store(8), BLOCK + 1)
        self.assertEqual(self.step(harts, 1, store(8)).trap.cause, 6)
        self.assertEqual(harts.judges[0].hart.reserved, BLOCK // 64)

    def test_devices(self):
        setting = Setting(devices=range(0x10000000, 0x10001000), harts=2)
        harts = judge_at_start(b"", setting)
        harts.go_to(CODE)
        first, second = (judge.hart for judge in harts.judges)
        first.memory.write(CODE, 4, store(8))
        second.registers[2] = 0x10000000
        first.reserved = 0x10000000 // 64  # which no LR leaves
        self.step(harts, 1, store(8))
        self.assertEqual((first.reserved, second.memory.written), (0x10000000 // 64, []))


class Marks(OneMemory):
    """What A and D do to it that hart 1 sets in the leaves, at TABLE, of its code and its data."""

    def translated(self, word, leaf, marks="set", address=PAGES + PAGE):
        harts = self.harts(word, address, marks=marks)
        second, memory = harts.judges[1].hart, harts.judges[1].hart.memory
        memory.write(ROOT, 8, MIDDLE >> 2 | PTE_V)
        memory.write(MIDDLE + 8 * 2, 8, TABLE >> 2 | PTE_V)
        memory.write(TABLE, 8, CODE >> 2 | MARKED)
        memory.write(TABLE + 8, 8, CODE + PAGE >> 2 | leaf)
        second.csrs.write("pmpaddr0", (1 << 54) - 1)
        second.csrs.write("pmpcfg0", 0x1F)
        second.csrs.write("satp", SV39 << SATP_MODE_AT | ROOT // PAGE)
        second.mode, second.pc = U, PAGES
        harts.judges[0].hart.reserved = TABLE // 64
        return harts

    def after(self, word, leaf, **setting):
        """Whether hart 0 keeps the block of the leaves, the marks of that of data, and the trap."""
        harts = self.translated(word, leaf, **setting)
        retired = self.step(harts, 1, word, PAGES)
        marks = harts.judges[1].hart.memory.read(TABLE + 8, 8) & (PTE_A | PTE_D)
        keeps = harts.judges[0].hart.reserved is not None
        return keeps, marks, retired.trap.cause if retired.trap else None

    def test_marks_that_are_set_take_it(self):
        self.assertEqual(self.after(load(8), MARKED), (True, PTE_A | PTE_D, None))
        self.assertEqual(self.after(load(8), MARKED & ~PTE_A), (False, PTE_A | PTE_D, None))
        self.assertEqual(self.after(store(8), MARKED & ~PTE_D), (False, PTE_A | PTE_D, None))
        self.assertEqual(self.after(load(8), MARKED & ~PTE_D), (True, PTE_A, None))

    def test_marks_that_are_not_set(self):
        for word, cause in ((load(8), 13), (store(8), 15)):
            self.assertEqual(self.after(word, MARKED & ~PTE_A, marks="fault"), (True, PTE_D, cause))

    def test_a_trap_after_it(self):
        # The page lies outside of RAM, which is found out once A is set.
        outside = MARKED & ~PTE_A | 1 << 53
        self.assertEqual(self.after(load(8), outside), (False, PTE_A | PTE_D, 5))

    def test_an_sc_that_fails(self):
        self.assertEqual(self.after(atomic("SC"), MARKED & ~PTE_D), (False, PTE_A | PTE_D, None))


class States(unittest.TestCase):
    """The text of the state of several harts."""

    HEADER = "hart,order,insn,pc_rdata"
    ROWS = f"1,7,{FIRST}", f"0,,{FIRST}", f"1,8,{SECOND}"

    def text(self, *rows, harts=2, **setting):
        return said(COUNT, self.HEADER, *rows, harts=harts, command="state", **setting) + "\n"

    def test_what_it_says(self):
        lines = self.text(*self.ROWS).split("\n")
        self.assertEqual(lines[:8], [
            "rvstate 1", "harts 2", "pc 0000000080000004", "mode 3", "order none", "flags 00",
            "reserved none", "x1 0000000000000005",
        ])
        second = 2 + 5 + 31 + 39
        self.assertEqual(lines[second - 1], "csr_pmpaddr15 0000000000000000")
        self.assertEqual(lines[second : second + 6], [
            "pc 0000000080000008", "mode 3", "order 0000000000000009", "flags 00", "reserved none",
            "x1 0000000000000006",
        ])
        block = "@0000000080000000 93005000938010000000000000000000"
        self.assertEqual(lines[2 + 2 * 75 :], [block, "end", ""])

    def test_reservations_and_flags_are_those_of_each(self):
        rows = f"1,{PLACE},0", f"1,{LR},0", f"0,{PLACE},1"
        text = said(RESERVE, "hart,insn,pc_rdata,halt", *rows, harts=3, command="state")
        lines = text.split("\n")
        parts = [lines[2 + 75 * at :][3:5] for at in range(3)]
        self.assertEqual(parts, [
            ["flags 01", "reserved none"], ["flags 00", "reserved 0000000080001000"],
            ["flags 00", "reserved none"],
        ])

    def test_one_hart_has_no_such_line(self):
        lines = self.text(f"0,0,{FIRST}", harts=1).split("\n")
        self.assertEqual((lines[1], len(lines)), ("pc 0000000080000004", 1 + 75 + 3))

    def test_it_goes_on(self):
        for count in range(len(self.ROWS) + 1):
            image = self.text(*self.ROWS[:count]).encode()
            self.assertEqual(said(image, self.HEADER, *self.ROWS[count:]), f"agrees {3 - count}")
            again = said(image, self.HEADER, *self.ROWS[count:], command="state") + "\n"
            self.assertEqual(again, self.text(*self.ROWS))
        self.assertEqual(said(self.text(*self.ROWS).encode(), self.HEADER, f"1,7,{FIRST}"),
            "differs row 1: order expected 0x0000000000000009 found 0x0000000000000007")

    def test_a_pc_is_that_of_every_hart(self):
        image = self.text(*self.ROWS).encode()
        rows = f"1,9,{SECOND}", f"0,0,{SECOND}"
        self.assertEqual(said(image, self.HEADER, *rows, pc=0x80000004), "agrees 2")
        self.assertEqual(said(COUNT, self.HEADER, *rows, pc=0x80000004), "agrees 2")

    def test_the_memory_is_one(self):
        # SD x1, 0(x2) by hart 1; hart 0 loads it: LD x3, 0(x2)
        image = b"@80000000 17 11 00 00 93 00 50 00 23 30 11 00 83 31 01 00"
        header = "hart,insn,pc_rdata,rd_wdata"
        rows = (
            f"1,{PLACE},", "1,0x00500093,0x80000004,", "1,0x00113023,0x80000008,", f"0,{PLACE},"
        )
        state = said(image, header, *rows, command="state") + "\n"
        self.assertIn("\n@0000000080001000 05000000000000000000000000000000\nend\n", state)
        self.assertEqual(said(state.encode(), header, "0,0x00500093,0x80000004,",
            "0,0x00113023,0x80000008,", "0,0x00013183,0x8000000c,5"), "agrees 3")

    def test_the_number_must_be_that_of_the_run(self):
        wrong, second = "wrong number of harts", "line 2: bad line"
        one, two = self.text(harts=1), self.text()
        for text, harts, due in (
            (one, 1, None), (one, 2, wrong), (one, 8, wrong), (two, 1, wrong), (two, 2, None),
            (two, 3, wrong),
        ):
            found = said(text.encode(), self.HEADER, harts=harts)
            self.assertEqual(found, f"refused image: {due}" if due else "agrees 0")
        for line, alone, both in (
            ("harts 0", wrong, wrong), ("harts 1", second, wrong), ("harts 2", wrong, None),
            ("harts 9", wrong, wrong), ("harts 22", wrong, wrong), ("harts 02", second, wrong),
            ("harts x", second, wrong), ("harts 2 ", second, wrong), ("harts  2", second, wrong),
            ("Harts 2", second, wrong), ("harts 2\r", second, wrong), ("harts 0x2", second, wrong),
            ("harts -2", second, wrong), ("harts", second, wrong), ("", second, wrong),
            ("harts 2" + "0" * 5000, wrong, wrong),
        ):
            image = two.replace("harts 2", line).encode()
            for harts, due in ((1, alone), (2, both)):
                found = said(image, self.HEADER, harts=harts)
                due = f"refused image: {due}" if due else "agrees 0"
                self.assertEqual(found, due, (line[:9], harts))

    def test_a_second_line_that_is_not_ended(self):
        for text, harts, due in (
            (b"rvstate 1\nharts 2", 1, "wrong number of harts"),
            (b"rvstate 1\nharts 2", 2, "line 2: bad line"),
            (b"rvstate 1\n", 1, "line 2: bad line"), (b"rvstate 1\n", 2, "wrong number of harts"),
            (b"rvstate 1\nharts 2\n", 2, "line 3: bad line"),
        ):
            self.assertEqual(said(text, self.HEADER, harts=harts), f"refused image: {due}")

    def test_lines_of_the_second_hart(self):
        text = self.text(*self.ROWS)
        front, back = text[: text.rindex("\npc ")], text[text.rindex("\npc ") :]
        for old, new, due in (
            ("mode 3", "mode 2", "line 79: bad line"),
            ("pc 0000000080000008", "pc 0000000080000009", "line 78: bad value"),
            ("reserved none", "reserved 0000000080000008", "line 82: bad value"),
            ("reserved none", "reserved 0000000088000000", "line 82: outside RAM"),
            ("\npc ", "\nharts 2\npc ", "line 78: bad line"),
        ):
            found = said((front + back.replace(old, new)).encode(), self.HEADER)
            self.assertEqual(found, f"refused image: {due}", new)

    def test_the_limit_goes_before(self):
        self.assertEqual(said(self.text().encode(), self.HEADER, harts=1, most_image=99),
            "refused image: more than 99 bytes")


class Words(unittest.TestCase):
    """The words of judge.py."""

    def run_judge(self, *words):
        with tempfile.TemporaryDirectory() as folder:
            image, trace = Path(folder, "image"), Path(folder, "trace")
            image.write_bytes(COUNT)
            trace.write_text(f"hart,insn,pc_rdata\n1,{FIRST}\n", encoding="ascii")
            command = [sys.executable, HERE / "judge.py", *words[:1], image, trace, *words[1:]]
            run = subprocess.run(command, capture_output=True, text=True, check=False)
            return run.stdout.split("\n")[0], run.returncode

    def test_numbers_that_are_taken(self):
        for words in ("--harts 2", "--harts=0x8", "--harts 002", "--origin --harts 3"):
            self.assertEqual(self.run_judge("judge", *words.split()), ("agrees 1", 0), words)
        self.assertEqual(self.run_judge("state", "--harts", "2"), ("rvstate 1", 0))
        for words in ((), ("--harts", "1")):
            due = "refused trace: row 1: hart not there", 4
            self.assertEqual(self.run_judge("judge", *words), due, words)

    def test_words_that_are_refused(self):
        for words in (
            ("judge", "--harts", "0"), ("judge", "--harts", "9"), ("judge", "--harts", "x"),
            ("judge", "--harts="), ("judge", "--harts"), ("judge", "--harts", "2", "--harts", "2"),
            ("judge", "--harts", "2", "--origin", "--origin"),
            ("judge", "--harts", "2", "--origin=on"),
            ("state", "--harts", "2", "--origin"),
        ):
            self.assertEqual(self.run_judge(*words), ("refused words", 2), words)


if __name__ == "__main__":
    unittest.main()
