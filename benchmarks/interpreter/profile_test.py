#!/usr/bin/env python3
"""Tests what each word of a core's own profile does, and what is refused of them: profile_test.py.

A vector is a command's words, a few rows from reset on, and the answer that is due with the words and
without them. Values are worked out by hand from the Privileged Architecture (chapters "Machine-Level ISA"
and "Supervisor-Level ISA") and from docs/REFERENCE.md.
"""
import subprocess
import sys
import tempfile
import unittest
from pathlib import Path

from hart_instructions import ATOMIC_NAMES, MASK
from hart_memory import RAM
from hart_profile import LAWFUL, Bits, Profile
from hart_registers import ADDRESSES, MPRV, S, U
from judge import CSRS, Setting, answer, foretell, judge_at_start, parse
from saved_state import SAVED_CSRS, text_of

HERE = Path(__file__).parent
NUMBERS = {name: address for address, name in ADDRESSES.items()}
DEVICE, SECOND = 0x10000000, 0x20000000
IO = f"--io {DEVICE:#x}:0x1000"
EVERYTHING = (1 << 53) - 1  # the address of an entry of protection that covers all, as NAPOT
ATOMICS = {name: funct5 for funct5, name in ATOMIC_NAMES.items()}
ILLEGAL = (1, 2)  # trap, and the cause


def swap(name, rd=3, rs1=1):
    """CSRRW rd, name, rs1."""
    return 0x1073 | rd << 7 | rs1 << 15 | NUMBERS[name] << 20


def put(name, rs1=1):
    return swap(name, 0, rs1)


def get(name, rd=3):
    """CSRRS rd, name, x0."""
    return 0x2073 | rd << 7 | NUMBERS[name] << 20


def set_bits(name, rd=3, rs1=1):
    return get(name, rd) | rs1 << 15


def clear_bits(name, rd=3, rs1=1):
    return set_bits(name, rd, rs1) | 1 << 12


def load(length, rd=3, rs1=2):
    return 0x03 | rd << 7 | {1: 0, 2: 1, 4: 2, 8: 3}[length] << 12 | rs1 << 15


def store(length, rs2=1, rs1=2):
    return 0x23 | {1: 0, 2: 1, 4: 2, 8: 3}[length] << 12 | rs1 << 15 | rs2 << 20


def atomic(name, length=8, rd=3, rs1=2):
    rs2 = 0 if name == "LR" else 1
    return 0x2F | rd << 7 | {4: 2, 8: 3}[length] << 12 | rs1 << 15 | rs2 << 20 | ATOMICS[name] << 27


def differs(row, signal, expected, found):
    return f"differs row {row}: {signal} expected 0x{expected:016x} found 0x{found:016x}"


def setting_of(words):
    return parse(["IMAGE", "TRACE", *words.split()])[2]


class Run:
    """A judge of one hart under these words, and the rows that it is asked about, each at the next address."""

    def __init__(self, words="", x1=0, x2=0, mode=3, **csrs):
        self.harts = judge_at_start(b"", setting_of(words))
        self.judge, self.rows = self.harts.judges[0], []
        self.hart = self.judge.hart
        self.hart.registers[1], self.hart.registers[2], self.hart.mode = x1, x2, mode
        for name, value in csrs.items():
            self.hart.csrs.write(name, value)

    def said(self, *rows):
        """The answer to rows: each the bits of an instruction and what else is shown."""
        shown = []
        for at, (bits, signals) in enumerate(rows):
            address = RAM.start + 4 * at
            self.hart.memory.write(address, 4, bits)
            shown.append({"insn": bits, "pc_rdata": address, **signals})
        return answer(self.harts, shown)


def reads(name, value):
    """A row in which a read of a register gives a value."""
    return get(name), {"rd_wdata": value}


def traps(bits, cause=None, **signals):
    return bits, {"trap": 1} | ({"csr_mcause_wdata": cause} if cause else {}) | signals


def passes(bits, **signals):
    return bits, {"trap": 0, **signals}


class Vectors(unittest.TestCase):
    def both(self, words, rows, instead, **start):
        """With the words all rows agree; without them the answer is another one."""
        self.assertEqual(Run(words, **start).said(*rows), f"agrees {len(rows)}", words)
        self.assertEqual(Run(**start).said(*rows), instead, words)


class Masks(Vectors):
    """--csr NAME=MASK and NAME=MASK:FIXED. x1 is all ones where a register is written."""

    def test_what_a_write_leaves(self):
        for name, bits, value, usual in (
            ("mstatus", "0x7e7faa", 1 << 63 | 0xA007E7FAA, 0xA007E19AA),
            ("mstatus", "0x19aa", 0xA000019AA, 0xA007E19AA),
            ("mstatus", "0x7e39aa", 0xA007E39AA, 0xA007E19AA),
            ("mstatus", "0x7e39aa:0x4000", 1 << 63 | 0xA007E79AA, 0xA007E19AA),
            ("medeleg", "0xf0b509", 0xF0B509, 0xB3FF),
            ("medeleg", "0xb100:0x2ff", 0xB3FF, 0xB3FF),
            ("mideleg", "0x3222", 0x3222, 0x222),
            ("mideleg", "0:0x1002", 0x1002, 0x222),
            ("mie", "0x1888", 0x1888, 0xAAA),
            ("mtvec", "0xfffffffffffffffc", MASK - 3, MASK - 2),
            ("mtvec", "0xfffffffffffff001", MASK - 0xFFE, MASK - 2),
            ("stvec", "0xfffffffffffff000", MASK - 0xFFF, MASK - 2),
            ("mcounteren", "0xffffffff", 0xFFFFFFFF, 7),
            ("scounteren", "0x2:0x5", 7, 7),
            ("scounteren", "0", 0, 7),
            ("mcountinhibit", "0xfffffffd", 0xFFFFFFFD, 5),
            ("menvcfg", "0x80000000000000f1", 0x80000000000000F1, 1),
            ("senvcfg", "0xf0:1", 0xF1, 1),
        ):
            rows = [(put(name), {}), reads(name, value)]
            instead = "agrees 2" if value == usual else differs(2, "rd_wdata", usual, value)
            self.both(f"--csr {name}={bits}", rows, instead, x1=MASK)
            if name in CSRS:
                signal = f"csr_{name}_wdata"
                instead = "agrees 1" if value == usual else differs(1, signal, usual, value)
                self.both(f"--csr {name}={bits}", [(put(name), {signal: value})], instead, x1=MASK)

    def test_what_clear_and_set_forms_leave(self):
        words = "--csr medeleg=0xf00:0x0f"
        rows = [
            (set_bits("medeleg"), {"rd_wdata": 0x0F}), reads("medeleg", 0xF0F),
            (clear_bits("medeleg"), {"rd_wdata": 0xF0F}), reads("medeleg", 0x0F),
        ]
        self.both(words, rows, differs(1, "rd_wdata", 0, 0x0F), x1=0xFFF)

    def test_fixed_bits_are_there_at_reset(self):
        for name, bits, value in (
            ("mstatus", "0x7e19aa:0x6000", 1 << 63 | 0xA00006000),
            ("mstatus", "0x7e19aa:0x600", 1 << 63 | 0xA00000600),
            ("mstatus", "0x7e19aa:0x2400", 0xA00002400), ("medeleg", "0:9", 9), ("mideleg", "0x20:0x202", 0x202),
            ("mcounteren", "0:0x80000007", 0x80000007), ("mcountinhibit", "1:0xfffffffc", 0xFFFFFFFC),
            ("menvcfg", "0:1", 1),
        ):
            usual = 0xA00000000 if name == "mstatus" else 0
            self.both(f"--csr {name}={bits}", [reads(name, value)], differs(1, "rd_wdata", usual, value))
        self.both(
            "--csr mstatus=0x7e19aa:0x6000", [(0x13, {"csr_mstatus_rdata": 1 << 63 | 0xA00006000})],
            differs(1, "csr_mstatus_rdata", 0xA00000000, 1 << 63 | 0xA00006000))

    def test_the_same_in_sstatus(self):
        # UXL is 2 there; all that sstatus and the mask have is written.
        for bits, value in (
            ("0x7e7faa", 1 << 63 | 0x2000C6722), ("0x7e1faa:0x4000", 0x2000C0122 | 0x4600 | 1 << 63),
            ("0x19aa", 0x200000122), ("0x7e19aa:0x6000", 1 << 63 | 0x2000C6122), ("0x7e39aa", 0x2000C2122),
        ):
            rows = [(put("sstatus"), {"csr_sstatus_wdata": value}), reads("sstatus", value)]
            instead = differs(1, "csr_sstatus_wdata", 0x2000C0122, value)
            self.both(f"--csr mstatus={bits}", rows, instead, x1=MASK)

    def test_sstatus_leaves_what_it_has_not(self):
        words = "--csr mstatus=0x7e7faa"
        rows = [(put("sstatus"), {}), reads("mstatus", 1 << 63 | 0xA000C6722)]
        self.both(words, rows, differs(2, "rd_wdata", 0xA000C0122, 1 << 63 | 0xA000C6722), x1=MASK)

    def test_dirty_is_not_written(self):
        rows = [(put("mstatus"), {}), reads("mstatus", 0xA00002200)]
        self.both(
            "--csr mstatus=0x7e7faa", rows, differs(2, "rd_wdata", 0xA00000000, 0xA00002200),
            x1=1 << 63 | 0x2200)

    def test_a_mode_that_is_not_there(self):
        run = Run("--csr mstatus=0x7e7faa", x1=0x6000 | 2 << 11, mstatus=1 << 11)
        self.assertEqual(run.said((put("mstatus"), {}), reads("mstatus", 1 << 63 | 0xA00006800)), "agrees 2")

    def test_sie_has_what_mie_and_mideleg_have(self):
        for words, value in (
            ("--csr mie=0x222", 0x222), ("--csr mie=0x888", 0), ("--csr mideleg=0x1222,mie=0x1aaa", 0x1222),
            ("--csr mideleg=0x1222", 0x222), ("--csr mideleg=0:0x20", 0x20),
        ):
            rows = [(put("mideleg"), {}), (put("sie"), {}), reads("sie", value)]
            instead = "agrees 3" if value == 0x222 else differs(3, "rd_wdata", 0x222, value)
            self.both(words, rows, instead, x1=MASK)

    def test_satp(self):
        value = 8 << 60 | 0xABCD << 44 | 0x80123
        for bits, left in (
            ("0xf0000fffffffffff", 8 << 60 | 0x80123), ("0xf0ffffffffff0000", 8 << 60 | 0xBCD << 44 | 0x80000),
            ("0xf000000000000000", 8 << 60),
        ):
            rows = [(put("satp"), {}), reads("satp", left)]
            self.both(f"--csr satp={bits}", rows, differs(2, "rd_wdata", value, left), x1=value)
        rows = [(put("satp", 2), {}), (put("satp"), {}), reads("satp", 8 << 60 | 5)]  # MODE 9 leaves it
        self.both(
            "--csr satp=0xf00000000000000f", rows, differs(3, "rd_wdata", 8 << 60 | 0x15, 8 << 60 | 5),
            x1=9 << 60 | 7, x2=8 << 60 | 0x15)

    def test_delegation_that_is_fixed(self):
        rows = [(0x73, {"csr_scause_wdata": 8, "csr_mcause_wdata": 0}), ]
        self.both("--csr medeleg=0:0x100", rows, differs(1, "csr_mcause_wdata", 8, 0), mode=U, **OPEN)

    def test_the_vector_of_a_trap(self):
        rows = [traps(0xFFFFFFFF, csr_mtvec_wdata=0x80000000)]
        self.both(
            "--csr mtvec=0xfffffffffffff000", rows, differs(1, "csr_mtvec_wdata", 0x80000ABC, 0x80000000),
            mtvec=0x80000ABC)

    def test_counters_of_the_lower_modes(self):
        words = "--csr mcounteren=0xffffffff,scounteren=0xffffffff"
        for at in (3, 17, 31):
            bits = get(f"hpmcounter{at}")
            start = OPEN | {"mcounteren": 1 << at, "scounteren": 0}
            self.both(words, [passes(bits, rd_wdata=77)], differs(1, "trap", 1, 0), mode=S, **start)
            self.assertEqual(Run(words, mode=U, **start).said(traps(bits, 2)), "agrees 1")
            start["scounteren"] = 1 << at
            self.both(words, [passes(bits, rd_wdata=77)], differs(1, "trap", 1, 0), mode=U, **start)
            self.assertEqual(Run(words, mode=S, **OPEN).said(traps(bits, 2)), "agrees 1")
            self.assertEqual(Run(mode=3).said(passes(bits, rd_wdata=77)), "agrees 1")


# an entry of protection that lets all modes do everything
OPEN = {"pmpaddr0": EVERYTHING, "pmpcfg0": 0x1F}


class Words(Vectors):
    """--csr NAME=row, NAME=none and NAME=maybe."""

    def test_left_to_the_core(self):
        for name, csr, usual in (
            ("misa", "misa", 0x8000000000141105), ("mhpmevent", "mhpmevent3", 0), ("mhpmevent", "mhpmevent31", 0),
            ("mcountinhibit", "mcountinhibit", 0), ("menvcfg", "menvcfg", 0), ("senvcfg", "senvcfg", 0),
        ):
            rows = [(swap(csr), {"rd_wdata": 123}), reads(csr, 456), (set_bits(csr, 0), {})]
            self.both(f"--csr {name}=row", rows, differs(1, "rd_wdata", usual, 123), x1=MASK)
            said = Run(f"--csr {name}=row").said((get(csr), {}), (0x18093, {"rs1_rdata": 0}))
            self.assertEqual(said, "agrees 2")

    def test_columns_of_misa(self):
        rows = [(0x13, {"csr_misa_rdata": 5, "csr_misa_wdata": 6})]
        self.both("--csr misa=row", rows, differs(1, "csr_misa_rdata", 0x8000000000141105, 5))

    def test_what_a_dropped_write_leaves(self):
        state = state_after("--csr menvcfg=row", put("menvcfg"), x1=1)
        self.assertIn("csr_menvcfg 0000000000000000", state)
        self.assertIn("csr_menvcfg 0000000000000001", state_after("", put("menvcfg"), x1=1))

    def test_missing(self):
        for name, csr in MISSING:
            bits = get(csr)
            self.both(f"--csr {name}=none", [traps(bits, 2, csr_mtval_wdata=bits)],
                "agrees 1" if csr == "time" else differs(1, "trap", 0, 1))
            if NUMBERS[csr] >> 10 != 3:
                rows = [traps(put(csr), 2)]
                self.both(f"--csr {name}=none", rows, differs(1, "trap", 0, 1))
            self.assertEqual(Run(f"--csr {name}=none").said(passes(bits)), differs(1, "trap", 1, 0))

    def test_missing_enables_count_nothing(self):
        words = "--csr mcounteren=none"
        self.assertEqual(Run(words, mode=S, **OPEN).said(traps(get("cycle"), 2)), "agrees 1")

    def test_perhaps_missing(self):
        for name, csr in MISSING:
            words, bits = f"--csr {name}=maybe", get(csr)
            rows = [traps(bits, 2)]
            self.both(words, rows, "agrees 1" if csr == "time" else differs(1, "trap", 0, 1))
            self.assertEqual(Run(words).said(passes(bits)), "agrees 1")
            self.assertEqual(Run(words).said((bits, {})), "agrees 1")
            if NUMBERS[csr] >> 10 != 3:
                for form in (put(csr), swap(csr), set_bits(csr), clear_bits(csr, 0)):
                    self.both(words, [traps(form, 2)], differs(1, "trap", 0, 1), x1=1)
                    self.assertEqual(Run(words, x1=1).said(passes(form)), "agrees 1")
            else:  # which is illegal whatever the row shows
                self.assertEqual(Run(words).said(passes(put(csr))), differs(1, "trap", 1, 0))
        state = state_after("--csr menvcfg=maybe", put("menvcfg"), x1=MASK)
        self.assertIn("csr_menvcfg 0000000000000001", state)

    def test_a_register_that_may_be_missing_keeps_its_bits(self):
        rows = [passes(put("mcounteren")), reads("mcounteren", 7)]
        self.assertEqual(Run("--csr mcounteren=maybe", x1=MASK).said(*rows), "agrees 2")

    def test_time_that_is_there_or_not(self):
        for words in ("", "--csr time=maybe"):
            self.assertEqual(Run(words).said(passes(get("time"), rd_wdata=9)), "agrees 1")
            self.assertEqual(Run(words).said(traps(get("time"), 2)), "agrees 1")
        self.assertEqual(Run("--csr time=none").said(passes(get("time"))), differs(1, "trap", 1, 0))


MISSING = (
    *((name, name) for name in (
        "mcounteren", "mcountinhibit", "menvcfg", "senvcfg", "mconfigptr", "cycle", "time", "instret",
    )),
    *((name, f"{name}{at}") for name in ("mhpmevent", "mhpmcounter", "hpmcounter") for at in (3, 31)),
)


def state_after(words, bits, **start):
    """The text of the state after one instruction."""
    run = Run(words, **start)
    run.said((bits, {}))
    return text_of(run.harts)


class Protection(Vectors):
    """--pmp and --pmp-bits."""

    def test_no_entries(self):
        for name in ("pmpcfg0", "pmpcfg2", "pmpaddr0", "pmpaddr8", "pmpaddr15"):
            for bits in (get(name), put(name)):
                self.both("--pmp 0", [traps(bits, 2)], differs(1, "trap", 0, 1))
        for mode in (S, U):
            self.both("--pmp 0", [passes(0x13)], differs(1, "trap", 1, 0), mode=mode)
        self.both("--pmp 0", [passes(load(8))], differs(1, "trap", 1, 0), x2=RAM.start, mstatus=MPRV)
        self.assertEqual(Run("--pmp 0").said((0x13, {"csr_pmpcfg0_rdata": 0, "csr_pmpcfg2_wdata": 0})), "agrees 1")

    def test_no_entries_refuse_no_table(self):
        run = Run("--pmp 0", x2=0x5000, mode=S, satp=8 << 60 | (RAM.start + 0x1000) >> 12)
        run.hart.memory.write(RAM.start + 0x1000 + 8 * 2, 8, RAM.start >> 2 | 0xCF)  # a gigapage, for the code
        run.hart.memory.write(RAM.start + 0x1000, 8, RAM.start >> 2 | 0xC3)  # and one for data
        self.assertEqual(run.said(passes(load(8), mem_paddr=RAM.start + 0x5000)), "agrees 1")

    def test_eight_entries(self):
        for name, value in (("pmpcfg2", 0x1F), ("pmpaddr8", 5), ("pmpaddr15", 5)):
            rows = [passes(put(name)), reads(name, 0)]
            self.both("--pmp 8", rows, differs(2, "rd_wdata", value, 0), x1=value)
        for name, value in (("pmpcfg0", 0x1F), ("pmpaddr0", 5), ("pmpaddr7", 5)):
            self.assertEqual(Run("--pmp 8", x1=value).said((put(name), {}), reads(name, value)), "agrees 2")

    def test_an_entry_past_the_last_matches_nothing(self):
        start = {"pmpaddr8": EVERYTHING, "pmpcfg2": 0x1F, "mode": S}
        self.both("--pmp 8", [traps(0x13, 1)], differs(1, "trap", 0, 1), **start)
        self.assertEqual(Run("--pmp 8", mode=S, **OPEN).said(passes(0x13)), "agrees 1")

    def test_an_entry_past_the_last_locks_nothing(self):
        rows = [(put("pmpcfg2"), {}), (put("pmpaddr7"), {}), reads("pmpaddr7", 0x88)]
        self.both("--pmp 8", rows, differs(3, "rd_wdata", 0, 0x88), x1=0x88)  # TOR and locked, in entry 8

    def test_bits_of_addresses(self):
        for count, value in ((10, 0x3FF), (32, 0xFFFFFFFF), (53, (1 << 53) - 1)):
            for name in ("pmpaddr0", "pmpaddr15"):
                rows = [(put(name), {}), reads(name, value)]
                self.both(f"--pmp-bits {count}", rows, differs(2, "rd_wdata", (1 << 54) - 1, value), x1=MASK)
        rows = [(put("pmpaddr3"), {}), reads("pmpaddr3", (1 << 54) - 1)]
        self.assertEqual(Run("--pmp-bits 54", x1=MASK).said(*rows), "agrees 2")

    def test_an_entry_ends_where_its_bits_do(self):
        start = {"pmpaddr0": MASK, "pmpcfg0": 0x1F, "mode": S}  # NAPOT of all bits: 2^(bits + 3) bytes
        self.both("--pmp-bits 20", [traps(0x13, 1)], differs(1, "trap", 0, 1), **start)
        self.assertEqual(Run("--pmp-bits 29", **start).said(passes(0x13)), "agrees 1")

    def test_the_other_words_stand_beside(self):
        rows = [(put("pmpaddr7"), {}), reads("pmpaddr7", 0x3FF), (put("pmpaddr8"), {}), reads("pmpaddr8", 0)]
        self.both("--pmp 8 --pmp-bits 10", rows, differs(2, "rd_wdata", 0xFFF, 0x3FF), x1=0xFFF)


class Devices(Vectors):
    """--io with several ranges, and --io-faults."""

    def test_each_range_is_one_of_devices(self):
        words = f"--io {DEVICE:#x}:0x1000,{SECOND:#x}:0x2000"
        for address in (DEVICE, DEVICE + 0xFF8, SECOND, SECOND + 0x1FF8):
            self.both(
                words, [passes(load(8), rd_wdata=9), passes(store(8))], differs(1, "trap", 1, 0), x2=address)
        for address in (DEVICE - 8, DEVICE + 0x1000, SECOND - 8, SECOND + 0x2000):
            self.assertEqual(Run(words, x2=address).said(traps(load(8), 5)), "agrees 1")
        self.assertEqual(Run(IO, x2=SECOND).said(traps(load(8), 5)), "agrees 1")

    def test_faults_that_a_row_shows(self):
        words = f"{IO} --io-faults row"
        for bits, cause in (
            (load(1), 5), (load(8), 5), (store(2), 7), (store(8), 7), (atomic("AMOADD"), 7),
            (atomic("AMOSWAP", 4), 7),
        ):
            rows = [traps(bits, cause, csr_mtval_wdata=DEVICE + 8)]
            self.assertEqual(Run(words, x2=DEVICE + 8).said(*rows), "agrees 1")
            is_atomic = bits & 0x7F == 0x2F
            instead = "agrees 1" if is_atomic else differs(1, "trap", 0, 1)
            self.assertEqual(Run(IO, x2=DEVICE + 8).said(*rows), instead)
            for signals in ({}, {"trap": 0}):
                said = Run(words, x2=DEVICE + 8).said((bits, signals))
                self.assertEqual(said, "agrees 1")
        self.assertEqual(Run(f"{IO} --io-faults none", x2=DEVICE).said(traps(load(8))), differs(1, "trap", 0, 1))

    def test_ram_refuses_nothing(self):
        for bits in (load(8), store(8), atomic("AMOADD")):
            said = Run(f"{IO} --io-faults row", x2=RAM.start + 0x1000).said(traps(bits))
            self.assertEqual(said, differs(1, "trap", 0, 1))

    def test_lr_and_sc_fault_always(self):
        for name, cause in (("LR", 5), ("SC", 7)):
            for words in (IO, f"{IO} --io-faults row"):
                self.assertEqual(Run(words, x2=DEVICE).said(traps(atomic(name), cause)), "agrees 1")
                self.assertEqual(Run(words, x2=DEVICE).said(passes(atomic(name))), differs(1, "trap", 1, 0))

    def test_what_an_amo_takes_and_stores(self):
        words = f"{IO} --io-faults row"
        for bits, old, shown in (
            # the bytes of mem_rdata go before rd_wdata, and that before 0
            (atomic("AMOADD"), 40, {"mem_addr": DEVICE, "mem_rdata": 40, "mem_wdata": 42, "mem_wmask": 0xFF}),
            (atomic("AMOADD"), 40, {"rd_wdata": 40, "mem_addr": DEVICE, "mem_wdata": 42, "mem_wmask": 0xFF}),
            (atomic("AMOADD"), 0, {"mem_addr": DEVICE, "mem_wdata": 2, "mem_wmask": 0xFF}),
            (atomic("AMOADD", 4), 1 << 31, {
                "rd_wdata": MASK - (1 << 31) + 1, "mem_addr": DEVICE, "mem_wmask": 0xF,
                "mem_wdata": (1 << 31) + 2}),
            (atomic("AMOOR", 4), 8, {
                "rd_wdata": 8, "mem_addr": DEVICE - 4, "mem_rdata": 8 << 32, "mem_rmask": 0xF0,
                "mem_wdata": 10 << 32, "mem_wmask": 0xF0}),
        ):
            run = Run(words, x1=2, x2=DEVICE)
            self.assertEqual(run.said((bits, shown)), "agrees 1")
            self.assertEqual(run.judge.retired.access.read, old)
            self.assertEqual((run.judge.retired.written, run.judge.retired.loaded), ([], []))
        said = Run(words, x1=2, x2=DEVICE).said((atomic("AMOADD"), {
            "rd_wdata": 41, "mem_addr": DEVICE, "mem_rdata": 40}))
        self.assertEqual(said, differs(1, "rd_wdata", 40, 41))
        said = Run(words, x1=2, x2=DEVICE).said((atomic("AMOADD"), {
            "mem_addr": DEVICE, "mem_rdata": 40, "mem_wdata": 40}))
        self.assertEqual(said, differs(1, "mem_wdata", 42, 40))

    def test_other_faults_come_first(self):
        words = f"{IO} --io-faults row"
        self.assertEqual(Run(words, x2=DEVICE + 1).said(traps(load(2), 4)), "agrees 1")
        self.assertEqual(Run(words, x2=DEVICE + 1).said(traps(atomic("AMOADD"), 6)), "agrees 1")
        done = f"{words} --misaligned done"
        self.assertEqual(Run(done, x2=DEVICE + 1).said(traps(load(2), 5)), "agrees 1")
        self.assertEqual(Run(done, x2=DEVICE + 1).said(passes(load(2))), differs(1, "trap", 1, 0))
        refused = {"mstatus": MPRV, **{"pmpaddr0": DEVICE >> 2 | 0x1FF, "pmpcfg0": 0x18}}
        self.assertEqual(Run(words, x2=DEVICE, **refused).said(passes(load(8))), differs(1, "trap", 1, 0))


class Lines(Vectors):
    """--lines: bits 1 and 5 of mip, which may be lines alone."""

    def test_a_line_is_not_stored(self):
        for mask, left in ((0xA8A, 0x220), (0xAA8, 0x202), (0xAAA, 0x200)):
            rows = [(put("mip"), {"csr_mip_rdata": 0}), (get("mip"), {"rd_wdata": left, "csr_mip_rdata": left})]
            self.both(f"--lines {mask:#x}", rows, differs(2, "rd_wdata", 0x222, left), x1=MASK)
        self.assertIn("csr_mip 0000000000000220", state_after("--lines 0xa8a", put("mip"), x1=MASK))

    def test_a_line_is_taken_from_the_row(self):
        for mask, bit in ((0xA8A, 1), (0xAA8, 5)):
            line = 1 << bit
            self.both(
                f"--lines {mask:#x}", [(get("mip"), {"rd_wdata": line})], differs(1, "rd_wdata", 0, line))
            rows = [(get("mip"), {"rd_wdata": line, "csr_mip_rdata": line})]
            self.both(f"--lines {mask:#x}", rows, differs(1, "rd_wdata", 0, line))
            said = Run(f"--lines {mask:#x}").said((get("mip"), {"rd_wdata": line, "csr_mip_rdata": 0}))
            self.assertEqual(said, differs(1, "rd_wdata", 0, line))
            other = 1 << (6 - bit)  # the other one of the two is stored still
            said = Run(f"--lines {mask:#x}").said((get("mip"), {"rd_wdata": other}))
            self.assertEqual(said, differs(1, "rd_wdata", 0, other))

    def test_columns(self):
        rows = [(0x13, {"csr_mip_rdata": 0x22, "csr_mip_wdata": 0x02})]
        self.both("--lines 0xaaa", rows, differs(1, "csr_mip_rdata", 0, 0x22))
        rows = [(0x13, {"csr_mip_wdata": 0x22})]
        self.both("--lines 0xaaa", rows, differs(1, "csr_mip_wdata", 0, 0x22))
        said = Run("--lines 0xa8a").said(*rows)
        self.assertEqual(said, differs(1, "csr_mip_wdata", 0, 0x20))
        delegated = {"mideleg": 0x222}
        for signal in ("csr_sip_rdata", "csr_sip_wdata"):
            rows = [(0x13, {signal: 2})]
            self.both("--lines 0xa8a", rows, differs(1, signal, 0, 2), **delegated)
        said = Run("--lines 0xa8a", **delegated).said((0x13, {"csr_mip_rdata": 0, "csr_sip_rdata": 2}))
        self.assertEqual(said, differs(1, "csr_sip_rdata", 0, 2))
        said = Run("--lines 0xa8a", **delegated).said((0x13, {"csr_mip_rdata": 2, "csr_sip_rdata": 2}))
        self.assertEqual(said, "agrees 1")

    def test_sip(self):
        self.both(
            "--lines 0xa8a", [(get("sip"), {"rd_wdata": 2})], differs(1, "rd_wdata", 0, 2), mideleg=0x222)
        said = Run("--lines 0xa8a").said((get("sip"), {"rd_wdata": 2}))  # mideleg lacks it
        self.assertEqual(said, differs(1, "rd_wdata", 0, 2))
        rows = [(put("sip"), {}), (get("sip"), {"rd_wdata": 0})]
        self.both("--lines 0xa8a", rows, differs(2, "rd_wdata", 2, 0), x1=2, mideleg=0x222)

    def test_interrupts(self):
        for mask, bit in ((0xA8A, 1), (0xAA8, 5)):
            line, entered = 1 << bit, 1 << 63 | bit
            row = (0x13, {"intr": 1, "csr_mip_rdata": line, "csr_mcause_rdata": entered})
            start = {"mtvec": RAM.start, "mie": 0xAAA, "mstatus": 1 << 3}
            self.both(f"--lines {mask:#x}", [row], differs(1, "intr", 0, 1), **start)
            said = Run(f"--lines {mask:#x}", **start).said((0x13, {"intr": 1, "csr_mip_rdata": 0}))
            self.assertEqual(said, differs(1, "intr", 0, 1))

    def test_set_forms_start_from_what_is_stored(self):
        rows = [
            (set_bits("mip", 3, 1), {"csr_mip_rdata": 2, "rd_wdata": 2}),
            (get("mip"), {"csr_mip_rdata": 0x20, "rd_wdata": 0x20}),
        ]
        self.both("--lines 0xa8a", rows, differs(1, "rd_wdata", 0, 2), x1=0x20)


class TrapValues(Vectors):
    """--mtval zero:C,.."""

    def test_the_listed_causes_alone(self):
        for cause, bits, value, start in (
            (2, 0xFFFFFFFF, 0xFFFFFFFF, {}), (3, 0x00100073, RAM.start, {}), (4, load(4), 0x80000001, {}),
            (5, load(4), 0x4000, {}), (6, store(4), 0x80000002, {}), (7, store(4), 0x4000, {}),
        ):
            start = {"x2": value if 4 <= cause <= 7 else 0, **start}
            zeroed = [traps(bits, csr_mtval_wdata=0, csr_mcause_wdata=cause)]
            self.both(f"--mtval zero:{cause}", zeroed, differs(1, "csr_mtval_wdata", value, 0), **start)
            told = [traps(bits, csr_mtval_wdata=value, csr_mcause_wdata=cause)]
            others = ",".join(str(other) for other in (1, 2, 3, 4, 5, 6, 7, 12, 13, 15) if other != cause)
            self.assertEqual(Run(f"--mtval zero:{others}", **start).said(*told), "agrees 1")
            for words in ("--mtval zero", f"--mtval zero:{cause}"):
                said = Run(words, **start).said(*told)
                self.assertEqual(said, differs(1, "csr_mtval_wdata", 0, value))

    def test_fetches_and_page_faults(self):
        satp = {"satp": 8 << 60 | RAM.start >> 12}
        for cause, bits, more in (
            (1, 0x13, {"mode": S}), (12, 0x13, {"mode": S, **satp, **OPEN}),
            (13, load(8), {"mstatus": MPRV, "x2": 0x4000, **satp, **OPEN}),
            (15, store(8), {"mstatus": MPRV, "x2": 0x4000, **satp, **OPEN}),
        ):
            value = RAM.start if cause in (1, 12) else 0x4000
            rows = [traps(bits, csr_mtval_wdata=0, csr_mcause_wdata=cause)]
            self.both(f"--mtval zero:{cause}", rows, differs(1, "csr_mtval_wdata", value, 0), **more)

    def test_stval(self):
        rows = [traps(0xFFFFFFFF, csr_scause_wdata=2, csr_stval_wdata=0)]
        self.both(
            "--mtval zero:13,2", rows, differs(1, "csr_stval_wdata", 0xFFFFFFFF, 0), mode=S, medeleg=4, **OPEN)


class ShownBits(Vectors):
    """--insn: what counts of a 16-bit instruction's bits."""

    def test_16_bits(self):
        rows = [(0x12340001, {})]  # C.NOP
        self.both("--insn length", rows, differs(1, "insn", 0x0001, 0x12340001))
        run = Run("--insn length")
        run.hart.memory.write(RAM.start, 4, 0x00010001)
        said = answer(run.harts, [{"insn": 0x12340005, "pc_rdata": RAM.start}])
        self.assertEqual(said, differs(1, "insn", 1, 5))

    def test_illegal_ones(self):
        rows = [traps(0xFFFF0000, csr_mtval_wdata=0)]
        self.both("--insn length", rows, differs(1, "insn", 0, 0xFFFF0000))

    def test_32_bits(self):
        run = Run("--insn length")
        run.hart.memory.write(RAM.start, 4, 0x13)
        said = answer(run.harts, [{"insn": 0x80000013, "pc_rdata": RAM.start}])
        self.assertEqual(said, differs(1, "insn", 0x13, 0x80000013))


# what a saved state may say of a register with the words, and whether it may without them
LAWFUL_VALUES = (
    ("--csr mstatus=0x7e7faa", "mstatus", 0xA00006600, False),
    ("--csr mstatus=0x7e19aa:0x6000", "mstatus", 0xA00006000, False),
    ("--csr medeleg=0xffff", "medeleg", 0x400, False), ("--csr mideleg=0x222:0x1000", "mideleg", 0x1000, False),
    ("--csr mie=0x1aaa", "mie", 0x1000, False), ("--csr menvcfg=0xf1", "menvcfg", 0xF0, False),
    ("--csr mcounteren=0xff", "mcounteren", 0xFF, False),
    ("--csr satp=0xf00000000000000f", "satp", 8 << 60 | 15, True), ("--pmp 8", "pmpaddr7", 5, True),
    ("--pmp-bits 10", "pmpaddr0", 0x3FF, True), ("--lines 0xa8a", "mip", 0x220, True),
)
UNLAWFUL_VALUES = (
    ("--csr mstatus=0x7e7faa", "mstatus", 1 << 63 | 0xA00006000),  # SD is not stored
    ("--csr mstatus=0x7e7faa", "mstatus", 0xA00001000), ("--csr mstatus=0x19aa", "mstatus", 0xA000C0000),
    ("--csr mstatus=0x7e19aa:0x6000", "mstatus", 0xA00000000), ("--csr medeleg=0:1", "medeleg", 0),
    ("--csr medeleg=0", "medeleg", 1), ("--csr menvcfg=row", "menvcfg", 1), ("--csr senvcfg=none", "senvcfg", 1),
    ("--csr mtvec=0xfffffffffffff000", "mtvec", 4), ("--csr satp=0xf00000000000000f", "satp", 16),
    ("--csr satp=0xf00000000000000f", "satp", 9 << 60), ("--pmp 0", "pmpcfg0", 1), ("--pmp 0", "pmpaddr0", 1),
    ("--pmp 8", "pmpcfg2", 1), ("--pmp 8", "pmpaddr8", 1), ("--pmp-bits 10", "pmpaddr0", 0x400),
    ("--lines 0xa8a", "mip", 2), ("--lines 0xaa8", "mip", 0x20),
)


class Saved(unittest.TestCase):
    """What a saved state may say of a core's registers."""

    def said(self, words, name, value):
        """The answer to a state with this value under these words, and the one where it is a bad value."""
        lines = state_after("", 0x13).split("\n")
        at = next(at for at, line in enumerate(lines) if line.startswith(f"csr_{name} "))
        lines[at] = f"csr_{name} {value:016x}"
        said, _ = foretell("\n".join(lines).encode(), b"insn,pc_rdata", setting_of(words))
        return said, f"refused image: line {at + 1}: bad value"

    def test_lawful_values(self):
        for words, name, value, is_usual in LAWFUL_VALUES:
            self.assertEqual(self.said(words, name, value)[0], "agrees 0", words)
            said, bad = self.said("", name, value)
            self.assertEqual(said, "agrees 0" if is_usual else bad, words)

    def test_unlawful_values(self):
        for words, name, value in UNLAWFUL_VALUES:
            said, bad = self.said(words, name, value)
            self.assertEqual(said, bad, words)

    def test_all_lines_are_there(self):
        for words in ("", "--pmp 0 --csr menvcfg=none,senvcfg=row --lines 0xaaa"):
            lines = state_after(words, 0x13).split("\n")
            found = [line.split()[0].removeprefix("csr_") for line in lines if line.startswith("csr_")]
            self.assertEqual(found, list(SAVED_CSRS))

    def test_a_state_goes_on(self):
        words = "--csr mstatus=0x7e7faa,medeleg=0xf:0xf0 --lines 0xaa8 --pmp 8"
        text = state_after(words, put("mstatus"), x1=MASK)
        self.assertIn("csr_mstatus 0000000a007e7faa", text)
        harts = judge_at_start(text.encode(), setting_of(words))
        hart = harts.judges[0].hart
        self.assertEqual(hart.csrs.read("mstatus"), 1 << 63 | 0xA007E7FAA)
        self.assertEqual(hart.csrs.read("medeleg"), 0xF0)
        hart.csrs.write("mip", MASK)
        self.assertEqual(hart.csrs.values["mip"], 0x202)


ACCEPTED = (
    "--csr mstatus=0x19aa", "--csr mstatus=0x7e7faa", "--csr mstatus=8280490", "--csr mstatus=0x7e19aa:0x6600",
    "--csr mstatus=0x7e19aa:0", "--csr medeleg=0", "--csr medeleg=0xffffffffffffffff",
    "--csr medeleg=0:0xffffffffffffffff", "--csr mideleg=0xfffffffffffff222", "--csr mideleg=0:0xfffffffffffff222",
    "--csr mie=0xfffffffffffffaaa", "--csr mie=0:0", "--csr mtvec=0xfffffffffffffffd",
    "--csr stvec=0xfffffffffffff000", "--csr mcounteren=0xffffffff", "--csr scounteren=0:0xffffffff",
    "--csr mcountinhibit=0xfffffffd", "--csr menvcfg=0xffffffffffffffff,senvcfg=1:2",
    "--csr satp=0xf000000000000000", "--csr satp=0xffffffffffffffff", "--csr=misa=row,time=none",
    "--csr mhpmevent=row,mcountinhibit=row,menvcfg=row,senvcfg=row", "--csr time=maybe",
    "--csr mhpmevent=none,mhpmcounter=maybe,hpmcounter=none,mconfigptr=maybe,cycle=none,instret=maybe",
    "--csr mcounteren=none", "--csr mcounteren=maybe", "--csr medeleg=0X1,mideleg=002,mie=0x0000000000000000008",
    "--pmp 0", "--pmp 8", "--pmp 0x10", "--pmp 016", "--pmp-bits 10", "--pmp-bits 0x36", "--pmp 0 --pmp-bits 10",
    "--io 0x10000000:0x1000", "--io 0:0x80000000,0x88000000:0x1000", "--io-faults row", "--io-faults none",
    "--io 0:0x1000,0x1000:4096,0x2000:0x1000,0x3000:0x1000,0x4000:0x1000,0x5000:0x1000,0x6000:0x1000,0x7000:4096",
    "--lines 0xa88", "--lines 0xa8a", "--lines 0xaa8", "--lines 0xaaa", "--lines 2696", "--mtval zero:3",
    "--mtval zero:1,2,3,4,5,6,7,12,13,15", "--mtval zero:15,0x2", "--mtval zero", "--mtval value",
    "--insn full", "--insn length",
)
REFUSED = (
    "--csr", "--csr=", "--csr ,", "--csr mstatus", "--csr mstatus=", "--csr =1", "--csr mstatus=0x19aa,",
    "--csr ,mstatus=0x19aa", "--csr mstatus=0x19aa,,mie=0", "--csr mie=0,mie=0", "--csr mie=0 --csr mideleg=0",
    "--csr mcounteren=none,mcounteren=maybe", "--csr MIE=0", "--csr mie=8:", "--csr mie=:8", "--csr mie=8:0:0",
    "--csr mie=8:8", "--csr mie=-1", "--csr mie=0xg", "--csr mie=1", "--csr mie=0:0x80", "--csr mie=row",
    "--csr mstatus=0x19a8", "--csr mstatus=0", "--csr mstatus=0x7fffaa", "--csr mstatus=0x7e7faa:0x6000",
    "--csr mstatus=0x7e19aa:0x8000", "--csr mstatus=0x19aa:0x40000", "--csr mstatus=0x8000000000007faa",
    "--csr medeleg=0x10000000000000000", "--csr medeleg=1:1", "--csr mideleg=0x888", "--csr mideleg=0x222:0x400",
    "--csr mideleg=2:2", "--csr mtvec=0xffffffffffffffff", "--csr mtvec=0xffffffffffffe000",
    "--csr stvec=0xfffffffffffffffd:2", "--csr mtvec=0xfffffffffffff000:1", "--csr mcounteren=0x100000000",
    "--csr scounteren=0:0x100000000", "--csr mcountinhibit=2", "--csr mcountinhibit=0:2", "--csr satp=0",
    "--csr satp=0x7fffffffffffffff", "--csr satp=0xf000000000000000:1", "--csr mscratch=1", "--csr mip=0x222",
    "--csr mepc=none", "--csr misa=none", "--csr misa=maybe", "--csr misa=0", "--csr mcounteren=row",
    "--csr scounteren=none", "--csr mhpmevent3=row", "--csr mhpmcounter=row", "--csr mhpmcounter3=none",
    "--csr mcycle=none", "--csr minstret=maybe", "--csr time=row", "--csr cycle=0", "--csr mhartid=none",
    "--csr mie=ROW", "--csr time=None", "--csr menvcfg=row:1", "--csr pmpaddr0=none",
    "--pmp", "--pmp 1", "--pmp 4", "--pmp 17", "--pmp 64", "--pmp x", "--pmp 8 --pmp 8", "--pmp-bits 9",
    "--pmp-bits 55", "--pmp-bits 0", "--pmp-bits", "--pmp-bits 1_0",
    "--io 0x10000000:0x1000,", "--io ,0x10000000:0x1000", "--io 0x10000000:0x1000,0x10000000:0x1000",
    "--io 0x10000000:0x2000,0x10001000:0x1000", "--io 0x10000000:0x1000,0x80000000:0x1000", "--io 0:0",
    "--io 0x10000800:0x1000", "--io 0x10000000:0x800", "--io 0x10000000", "--io 0:0x1000:1",
    "--io 0xfffffffffff000:0x2000", "--io 0x10000000:0x1000,0x20000000",
    "--io 0:0x1000,0x1000:4096,0x2000:0x1000,0x3000:0x1000,0x4000:0x1000,0x5000:0x1000,0x6000:0x1000,0x7000:4096,"
    "0x8000:4096",
    "--io-faults", "--io-faults ROW", "--io-faults yes", "--io-faults row --io-faults row",
    "--lines 0", "--lines 0xa89", "--lines 0xa80", "--lines 0x22", "--lines 0xfff", "--lines a88", "--lines",
    "--mtval zero:", "--mtval zero:3,", "--mtval zero:,3", "--mtval zero:3,3", "--mtval zero:3,03",
    "--mtval zero:0",
    "--mtval zero:8", "--mtval zero:11", "--mtval zero:14", "--mtval zero:16", "--mtval zero:x", "--mtval value:3",
    "--mtval zero:1-3", "--mtval Zero:3", "--mtval zero;3", "--mtval",
    "--insn", "--insn half", "--insn FULL", "--insn length --insn length", "--profile qemu",
)


class CommandWords(unittest.TestCase):
    def test_all_that_are_taken(self):
        for words in ACCEPTED:
            self.assertIsInstance(setting_of(words), Setting, words)

    def test_all_that_are_refused(self):
        with open("/dev/null", "w", encoding="ascii") as nowhere:
            kept, sys.stdout, sys.stderr = (sys.stdout, sys.stderr), nowhere, nowhere
            try:
                for words in REFUSED:
                    with self.assertRaises(SystemExit, msg=words) as ended:
                        setting_of(words)
                    self.assertEqual(ended.exception.code, 2, words)
            finally:
                sys.stdout, sys.stderr = kept

    def test_as_a_program(self):
        with tempfile.TemporaryDirectory() as name:
            image, trace = Path(name, "image"), Path(name, "trace")
            image.write_bytes(b"@80000000 73 25 00 30")  # CSRRS x10, mstatus, x0
            trace.write_bytes(b"insn,pc_rdata,rd_wdata\n0x30002573,0x80000000,0x8000000a00006000\n")
            command = [sys.executable, HERE / "judge.py", image, trace]
            for words, due in (
                ("--csr mstatus=0x7e19aa:0x6000", (b"agrees 1\n", 0)),
                ("", (differs(1, "rd_wdata", 0xA00000000, 0x8000000A00006000).encode() + b"\n", 1)),
                ("--csr mstatus=0x7e19aa:0x6000,", (b"refused words\n", 2)),
            ):
                run = subprocess.run([*command, *words.split()], capture_output=True, check=False)
                self.assertEqual((run.stdout, run.returncode), due, words)

    def test_words_that_stand_before(self):
        before = "--ad set --misaligned done --mtval zero:3 --csr misa=row,mie=0x888 --pmp 8".split()
        _, _, setting = parse(["IMAGE", "TRACE"], before)
        self.assertEqual((setting.choices.marks, setting.choices.trap_values), ("set", frozenset({3})))
        self.assertEqual(setting.choices.profile, Profile({"misa": "row", "mie": Bits(0x888)}, pmp_entries=8))
        _, _, setting = parse(["IMAGE", "TRACE", "--csr", "time=none", "--ad", "fault", "--pmp=16"], before)
        self.assertEqual((setting.choices.marks, setting.choices.misaligned), ("fault", "done"))
        self.assertEqual(setting.choices.profile, Profile({"time": "none"}))

    def test_what_no_profile_can_be(self):
        for wrong in (
            {"csrs": {"mie": Bits(1)}}, {"csrs": {"mie": "row"}}, {"csrs": {"mip": Bits(0)}},
            {"csrs": {"time": "x"}},
            {"pmp_entries": 4}, {"pmp_bits": 9}, {"lines": 0xA8C}, {"io_faults": "x"}, {"insn": "x"},
        ):
            self.assertRaises(ValueError, Profile, **wrong)

    def test_the_defaults_are_lawful(self):
        usual = Profile()
        for name, lawful in LAWFUL.items():
            self.assertTrue(lawful.takes(Bits(usual.writable[name])), name)


if __name__ == "__main__":
    unittest.main()
