#!/usr/bin/env python3
"""Tests executables and saved states as images, and what a saved state says: images_test.py."""
import struct
import unittest

from hart_choices import Choices
from hart_memory import PAGE, RAM
from judge import Setting, foretell

TEXT = b"@80000000 93 00 50 00 93 80 10 00"  # ADDI x1, x0, 5; ADDI x1, x1, 1
HEADER = "order,insn,pc_rdata,rd_addr,rd_wdata,pc_wdata"
FIRST = "0,0x00500093,0x80000000,1,5,0x80000004"
SECOND = "1,0x00108093,0x80000004,1,6,0x80000008"
CODE = bytes.fromhex("93005000")


def trace(*rows, header=HEADER):
    return "\n".join((header, *rows)).encode()


def said(image, *rows, command="judge", **setting):
    return foretell(image, trace(*rows), Setting(**setting), command)[0]


def state_after(*rows, image=TEXT, **setting):
    return (said(image, *rows, command="state", **setting) + "\n").encode()


def elf(*segments, entry=RAM.start, size=56, machine=243, kind=2, count=None, table=64):
    """An executable: each segment a type, offset, physical address, bytes in the file and in memory."""
    count = len(segments) if count is None else count
    head = b"\x7fELF\2\1\1" + bytes(9) + struct.pack(
        "<HHIQQQIHHHHHH", kind, machine, 1, entry, table, 0, 0, 64, size, count, 0, 0, 0)
    parts = (struct.pack("<IIQQQQQQ", it[0], 5, it[1], 0x1000, *it[2:], 0x1000) for it in segments)
    return head + b"".join(parts) + CODE


ONE = (1, 120, RAM.start, 4, 8)  # the code, after the table of one segment


class Executables(unittest.TestCase):
    def test_one_segment(self):
        self.assertEqual(len(elf(ONE)), 124)
        self.assertEqual(said(elf(ONE), FIRST), "agrees 1")
        self.assertEqual(said(elf(ONE, entry=0x80000002), FIRST),
            "differs row 1: pc_rdata expected 0x0000000080000002 found 0x0000000080000000")
        self.assertEqual(said(elf(ONE, entry=0x80000002), FIRST, pc=RAM.start), "agrees 1")
        self.assertEqual(said(elf(), "0,0,0x80000000,0,0,0"), "agrees 1")  # no byte: an illegal word

    def test_faults(self):
        end, second = RAM.stop, (1, 176, RAM.start + PAGE, 4, 4)
        for image, due in (
            (elf(ONE)[:63], "cut short"), (elf(ONE, machine=62)[:64], "of another kind"),
            (elf(ONE, kind=3), "of another kind"), (elf(ONE, size=55), "table size"),
            (elf(count=0xFFFF), "table size"), (elf(ONE)[:119], "cut short"), (elf(ONE, table=69), "cut short"),
            (elf(ONE, table=2**64 - 56), "cut short"), (elf(ONE, entry=0x80000001), "entry odd"),
            (elf((1, 120, RAM.start, 9, 8)), "segment 0: bad size"),
            (elf((1, 121, RAM.start, 4, 8)), "segment 0: bad size"),
            (elf((1, 2**64 - 1, RAM.start, 4, 8)), "segment 0: bad size"),
            (elf((1, 120, end - 7, 4, 8)), "segment 0: outside RAM"),
            (elf((1, 120, RAM.start - 1, 4, 8)), "segment 0: outside RAM"),
            (elf((1, 120, RAM.start, 4, 2**64 - 1)), "segment 0: outside RAM"),
            (elf((0, 0, 0, 9, 8), ONE, (1, 120, RAM.start + 7, 0, 1)), "segment 2: overlap"),
            (elf((1, 176, RAM.start, 4, 8), (*second[:3], 9, 8)), "segment 1: bad size"),
        ):
            self.assertEqual(said(image, FIRST), f"refused image: elf {due}")

    def test_what_is_no_fault(self):
        for image in (
            elf((1, 120, RAM.start, 4, 4), count=1, size=56), elf((4, 2**63, 0, 9, 8), (1, 176, RAM.start, 4, 4)),
            elf((1, 120, RAM.start, 4, len(RAM))),  # with all of RAM
            elf((1, 176, RAM.start, 4, 4), (1, 2**63, RAM.start + 4, 0, 8)),  # no byte of the file
            elf((1, 176, RAM.start, 4, 4), (1, 2**63, 1, 9, 0)),  # no byte at all
        ):
            self.assertEqual(said(image, FIRST), "agrees 1")

    def test_the_limit_goes_before(self):
        self.assertEqual(said(elf(ONE)[:63], FIRST, most_image=62), "refused image: more than 62 bytes")


class Texts(unittest.TestCase):
    """What the text of a state says."""

    def test_after_one_row(self):
        lines = state_after(FIRST).decode().split("\n")
        self.assertEqual(lines[:7], [
            "rvstate 1", "pc 0000000080000004", "mode 3", "order 0000000000000001", "flags 00", "reserved none",
            "x1 0000000000000005",
        ])
        self.assertIn("csr_mstatus 0000000a00000000", lines)
        self.assertEqual(lines[-3:], ["@0000000080000000 93005000938010000000000000000000", "end", ""])
        self.assertEqual(len(lines), 6 + 31 + 39 + 3)

    def test_at_reset(self):
        lines = state_after(image=b"").decode().split("\n")
        self.assertEqual(lines[:6], [
            "rvstate 1", "pc 0000000080000000", "mode 3", "order none", "flags 00", "reserved none",
        ])
        self.assertEqual(lines[-3:], ["csr_pmpaddr15 0000000000000000", "end", ""])

    def test_flags_and_reservation(self):
        words = "73 00 00 00", "13 00 00 00", "97 02 00 00 2f a3 02 10"
        row = "insn,pc_rdata,halt\n0x73,0x80000000,1".encode()
        text, status = foretell(f"@80000000 {words[0]}".encode(), row, Setting(), "state")
        lines = text.split("\n")[1:5]
        self.assertEqual((lines, status), (["pc 0000000000000000", "mode 3", "order none", "flags 11"], 0))
        rows = "insn,pc_rdata\n0x297,0x80000000\n0x1002a32f,0x80000004".encode()
        for block in (8, 4096):
            text, _ = foretell(
                f"@80000000 {words[2]}".encode(), rows, Setting(choices=Choices(block=block)), "state")
            self.assertEqual(text.split("\n")[4:6], ["flags 00", "reserved 0000000080000000"])

    def test_what_is_no_agreement(self):
        for command in ("judge", "state"):
            self.assertEqual(said(TEXT, FIRST, FIRST, command=command),
                "differs row 2: order expected 0x0000000000000001 found 0x0000000000000000")


class States(unittest.TestCase):
    """A run that begins from a state."""

    def test_it_goes_on(self):
        state = state_after(FIRST)
        self.assertEqual(said(state, SECOND), "agrees 1")
        self.assertEqual(said(state, SECOND.replace("1,", "2,", 1)),
            "differs row 1: order expected 0x0000000000000001 found 0x0000000000000002")
        self.assertEqual(said(state, FIRST.replace("0,", "1,", 1), pc=RAM.start), "agrees 1")
        self.assertEqual(state_after(SECOND, image=state), state_after(FIRST, SECOND))
        self.assertEqual(state_after(image=state), state)

    def refusal(self, old, new, count=1, **setting):
        state = state_after(FIRST).decode()
        self.assertIn(old, state)
        found = said(state.replace(old, new, count).encode(), SECOND, **setting)
        return found.removeprefix("refused image: ")

    def test_bad_lines(self):
        last = len(state_after(FIRST).split(b"\n")) - 1  # the number of the line `end`
        block = "@0000000080000000 93005000938010000000000000000000"
        for old, new, line in (
            ("mode 3", "mode 2", 3), ("pc 0", "PC 0", 2), ("pc 0", "pc  0", 2), ("pc 00", "pc 0", 2),
            ("flags 00", "flags 02", 5), ("order 0", "order 0x", 4), ("order", "none", 4), ("none", "None", 6),
            ("5\n", "5\r\n", 7), ("a00000000", "A00000000", 38), ("x31", "x32", 37), ("end\n", "", last),
            ("end\n", "end", last), ("end\n", "end\n\n", last + 1), ("end\n", "end\n ", last + 1),
            ("end\n", "END\n", last), (block, block.replace("9380", "9A80"), last - 1),
            (block, block.replace(" ", "  "), last - 1),
            (block, block.replace("80000000", "80000008"), last - 1), (block, block[:-2], last - 1),
            (block, "@0000000080000000 " + "0" * 32, last - 1), (block, f"{block}\n{block}", last),
            (block, f"{block}\n{block.replace('80000000', '7ffffff0')}", last), ("\nx1 ", "\n\nx1 ", 7),
        ):
            self.assertEqual(self.refusal(old, new), f"line {line}: bad line", (old, new))
        self.assertEqual(said(b"rvstate 1\n", SECOND), "refused image: line 2: bad line")
        self.assertEqual(said(b"rvstate 1\r\n", SECOND), "refused image: line 1: bad byte")
        self.assertEqual(said(b"rvstate 1", SECOND), "refused image: line 1: bad byte")

    def test_bad_values(self):
        for name, line, bad, good in (
            ("pc", 2, 0x80000005, 0x80000004), ("csr_mstatus", 38, 0xA00001000, 0xA007E11AA | 3 << 11),
            ("csr_mstatus", 38, 0xA00000001, 0xA00000800), ("csr_mstatus", 38, 0x200000000, 0xA00000000),
            ("csr_medeleg", 39, 1 << 10, 0xB3FF), ("csr_mideleg", 40, 8, 0x222), ("csr_mie", 41, 1, 0xAAA),
            ("csr_mtvec", 42, 2, 2**64 - 3), ("csr_stvec", 43, 2, 2**64 - 3), ("csr_mcounteren", 44, 8, 7),
            ("csr_scounteren", 45, 8, 7), ("csr_menvcfg", 46, 2, 1), ("csr_senvcfg", 47, 2, 1),
            ("csr_mcountinhibit", 48, 2, 5), ("csr_mepc", 51, 1, 2**64 - 2), ("csr_sepc", 52, 1, 2**64 - 2),
            ("csr_mip", 57, 8, 0x222), ("csr_satp", 58, 1 << 60, 2**63 | 2**60 - 1),
            ("csr_pmpcfg0", 59, 0x20, 0x9F9D9C9B99988F00), ("csr_pmpcfg2", 60, 2 << 56, 0x1F),
            ("csr_pmpcfg0", 59, 0x40 << 24, 0), ("csr_pmpaddr15", 76, 1 << 54, (1 << 54) - 1),
        ):
            old = next(it for it in state_after(FIRST).decode().split("\n") if it.startswith(f"{name} "))
            self.assertEqual(self.refusal(old, f"{name} {bad:016x}"), f"line {line}: bad value", name)
            self.assertNotIn("line", self.refusal(old, f"{name} {good:016x}"), name)
        for name in ("mscratch", "sscratch", "mcause", "scause", "mtval", "stval"):
            self.assertEqual(self.refusal(f"csr_{name} 0000000000000000", f"csr_{name} {'f' * 16}"), "agrees 1")

    def test_reservations_and_places(self):
        for address, block, due in (
            (RAM.start + 8, 64, "line 6: bad value"), (RAM.start + 8, 8, "agrees 1"),
            (RAM.stop, 64, "line 6: outside RAM"), (RAM.stop - 64, 64, "agrees 1"),
            (RAM.stop + 8, 64, "line 6: bad value"), (2**64 - 64, 64, "line 6: outside RAM"),
            (RAM.start - 4096, 4096, "line 6: outside RAM"),
        ):
            found = self.refusal("reserved none", f"reserved {address:016x}", choices=Choices(block=block))
            self.assertEqual(found, due)
        old = "@0000000080000000 93005000938010000000000000000000"
        last = len(state_after(FIRST).split(b"\n")) - 1
        for address in (RAM.start - 16, RAM.stop, 2**64 - 16, 0):
            new = old.replace("0000000080000000", f"{address:016x}")
            self.assertEqual(self.refusal(old, new), f"line {last - 1}: outside RAM")
        new = old.replace("0000000080000000", "0000000000000008")
        self.assertEqual(self.refusal(old, new), f"line {last - 1}: bad line")
        highest = old.replace("80000000", f"{RAM.stop - 16:08x}")
        self.assertEqual(self.refusal(f"{old}\nend", f"{old}\n{highest}\nend"), "agrees 1")

    def test_the_first_line_that_breaks_a_rule(self):
        self.assertEqual(self.refusal("80000004\nmode 3", "80000005\nmode 2"), "line 2: bad value")
        self.assertEqual(said(state_after(FIRST), SECOND, most_image=9), "refused image: more than 9 bytes")


if __name__ == "__main__":
    unittest.main()
