#!/usr/bin/env python3
"""Tests traces of several ports a line, by small ones whose verdict is known: ports_test.py."""
import unittest

from judge import Setting, foretell
from port_lines import as_due, in_lines

IMAGE = b"@80000000 93 00 50 00 93 80 10 00 93 80 10 00"  # ADDI x1, x0, 5; twice ADDI x1, x1, 1
FIRST, SECOND, THIRD = "0x00500093,0x80000000", "0x00108093,0x80000004", "0x00108093,0x80000008"
TWO = "insn,pc_rdata,insn_1,pc_rdata_1,valid_1"


def said(*lines, image=IMAGE):
    return foretell(image, "\n".join(lines).encode(), Setting())[0]


class Headers(unittest.TestCase):
    def test_what_a_header_lacks(self):
        for header, due in (
            ("insn,pc_rdata,insn_1", "no column pc_rdata_1"),
            ("insn,pc_rdata,pc_rdata_1", "no column insn_1"),
            ("insn,pc_rdata,trap_3", "no column insn_1"),
            ("insn,pc_rdata,rvfi_trap_2,insn_1,pc_rdata_1", "no column insn_2"),
            ("insn_1,pc_rdata_1", "no column insn"),
            ("insn_4,pc_rdata", "no column insn"),
            ("insn_0_1,rvfi_rvfi_insn_0,pc_rdata", "no column insn"),
        ):
            self.assertEqual(said(header), f"refused trace: {due}", header)

    def test_names_that_stand_twice(self):
        for header, due in (
            ("insn,insn_0,pc_rdata", "column insn twice"),
            ("rvfi_insn_0,insn,pc_rdata", "column insn twice"),
            ("insn,pc_rdata,insn_1,rvfi_insn_1", "column insn_1 twice"),
            ("trap_3,rvfi_trap_3", "column trap_3 twice"),
        ):
            self.assertEqual(said(header), f"refused trace: {due}", header)

    def test_names_that_are_not_known_are_no_ports(self):
        for header in ("insn,pc_rdata,cycle_3", "rvfi_insn_0,pc_rdata,insn_4,_1", '"insn_0" , pc_rdata'):
            self.assertEqual(said(header), "agrees 0", header)


class Rows(unittest.TestCase):
    def test_two_ports(self):
        for second, due in (
            ("0x80000004,1", "agrees 2"),
            ("0x80000004,", "agrees 2"),
            ("0x80000004,0", "agrees 1"),
            ("0x80000008,1", "differs row 2: pc_rdata expected 0x0000000080000004 found 0x0000000080000008"),
            ("0x10000000000000000,1", "refused trace: row 2: pc_rdata_1 too wide"),
            (",1", "refused trace: row 2: pc_rdata_1 empty"),
            ("zz,1", "refused trace: row 2: pc_rdata_1 not a number"),
            ("zz,2", "refused trace: row 2: valid_1 too wide"),
        ):
            self.assertEqual(said(TWO, f"{FIRST},0x00108093,{second}"), due, second)

    def test_the_first_port_goes_before(self):
        due = "differs row 1: pc_rdata expected 0x0000000080000000 found 0x0000000080000002"
        line = "0x00500093,0x80000002,0x00108093,0x10000000000000000,1"
        self.assertEqual(said(TWO, line), due)

    def test_rows_are_numbered_through_the_ports(self):
        header = "insn_0,pc_rdata_0,insn_2,pc_rdata_2,insn_1,pc_rdata_1,trap_2"
        line = f"{FIRST},{THIRD},{SECOND}"
        self.assertEqual(said(header, f"{line},0"), "agrees 3")
        self.assertEqual(
            said(header, f"{line},1"),
            "differs row 3: trap expected 0x0000000000000000 found 0x0000000000000001",
        )
        self.assertEqual(said(header, f"{line},0", f"{line},0"),
            "differs row 4: pc_rdata expected 0x000000008000000c found 0x0000000080000000")

    def test_faults_of_a_line_are_its_first_row(self):
        header = "insn,pc_rdata,valid,insn_1,pc_rdata_1"
        first = f"{FIRST},1,{SECOND}"
        for line, due in (
            (f"{THIRD},1", "wrong number of fields"), ("0", "wrong number of fields"),
            (f"{THIRD},0,{SECOND},0", "wrong number of fields"),
            (f"{THIRD},1,0x00108093,0x800\r0000c", "stray return"),
        ):
            self.assertEqual(said(header, first, line), f"refused trace: row 3: {due}", line)
        self.assertEqual(said(header, f"{FIRST},1,0x00108093,"), "refused trace: row 2: pc_rdata_1 empty")
        self.assertEqual(said(header, f"zz,zz,0,{FIRST}"), "agrees 1")

    def test_the_order_goes_on_through_the_ports(self):
        header = "insn,pc_rdata,order,insn_1,pc_rdata_1,order_1"
        self.assertEqual(said(header, f"{FIRST},7,{SECOND},8"), "agrees 2")
        self.assertEqual(
            said(header, f"{FIRST},7,{SECOND},7"),
            "differs row 2: order expected 0x0000000000000008 found 0x0000000000000007",
        )


class Rewritten(unittest.TestCase):
    """Traces of one port, and the same with several a line."""

    HEADER = "rvfi_insn,pc_rdata,note"

    def test_the_text(self):
        trace = f"{self.HEADER}\r\n{FIRST},a\n\n{SECOND},b\r\n{THIRD},".encode()
        self.assertEqual(in_lines(trace, 2), (
            "rvfi_insn,pc_rdata,note,valid,rvfi_insn_1,pc_rdata_1,note_1,valid_1\n"
            f"{FIRST},a,1,{SECOND},b,1\n{THIRD},,1,,,,0\n").encode())

    def test_the_verdict(self):
        for lines in (
            (FIRST + ",", SECOND + ",", THIRD + ","), (FIRST + ",", SECOND + ",,"),
            (FIRST + ",", SECOND + ",", "0x00108093,zz,"), (FIRST + ",", SECOND + ",", ",0x80000008,"),
            (FIRST + ",", SECOND + ",", SECOND + ","), (FIRST + ",", SECOND + ",\r\r"), (FIRST + ",",), (),
        ):
            one = "\n".join((self.HEADER, *lines))
            for ports in range(1, 5):
                rewritten = in_lines(one.encode(), ports).decode()
                self.assertEqual(said(rewritten), as_due(said(one), ports), (lines, ports))

    def test_what_is_due(self):
        refused = "refused trace: row 7: "
        for said_of_one, ports, due in (
            ("agrees 7", 4, "agrees 7"), ("refused trace: no column insn", 2, "refused trace: no column insn"),
            ("differs row 7: trap expected 1 found 0", 4, "differs row 7: trap expected 1 found 0"),
            (f"{refused}insn empty", 4, f"{refused}insn_2 empty"), (f"{refused}insn empty", 3, f"{refused}insn empty"),
            (f"{refused}trap not a number", 2, f"{refused}trap not a number"),
            (f"{refused}stray return", 4, "refused trace: row 5: stray return"),
            (f"{refused}wrong number of fields", 2, f"{refused}wrong number of fields"),
            (f"{refused}hart not there", 4, f"{refused}hart not there"),
        ):
            self.assertEqual(as_due(said_of_one, ports), due)


if __name__ == "__main__":
    unittest.main()
