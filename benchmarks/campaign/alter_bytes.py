#!/usr/bin/env python3
"""Alters each byte of a small executable and of a small saved state, and holds a program to the answers due.

    alter_bytes.py [PROGRAM] [--states] [--jobs J]

Each altered image is judged with a trace of a few rows that agrees with the image as it is; with --states
its state at reset is asked for too, which names every byte that is loaded. The executable is altered bit by
bit, and cut off at each byte. With --states alone, which takes ten times as long, each byte of the state becomes
another digit, another case, a blank and a line feed, is left out, and stands twice. What is due is foretold by
judge.py. Without PROGRAM the answers are only foretold. The status is 1 where an answer is not the one due, where
what is not altered does not agree, or where a kind of answer did not come.
"""
import argparse
import os
import struct
import sys
import tempfile
from collections import Counter
from concurrent.futures import ThreadPoolExecutor
from pathlib import Path

sys.path.insert(0, str(Path(__file__).resolve().parents[1] / "interpreter"))

from campaign import answer_of, kind_of
from hart_memory import PAGE, PTE_A, PTE_D, PTE_R, PTE_V, PTE_W, PTE_X, RAM
from hart_registers import SATP_MODE_AT, SV39, S
from judge import CSRS, Setting, foretell, judge_at_start, number
from saved_state import text_of

ROOT, DATA = RAM.start + PAGE, RAM.start + 2 * PAGE
WORDS = (0x00813283, 0x1851332F, 0x140023F3)  # LD x5, 8(x2); SC.D x6, x5, (x2); CSRRS x7, sscratch, x0
LEAF = RAM.start >> 2 | PTE_V | PTE_R | PTE_W | PTE_X | PTE_A | PTE_D  # of 1 GiB
ANSWERS = {
    "elf": (
        ("verdict", "agrees"), ("differs", "pc_rdata"), ("differs", "insn"), ("refused image", "elf cut short"),
        ("refused image", "elf of another kind"), ("refused image", "elf table size"),
        ("refused image", "elf entry odd"), ("refused image", "elf segment 0: bad size"),
        ("refused image", "elf segment 1: outside RAM"), ("refused image", "elf segment 1: overlap"),
    ),
    "state": (
        ("verdict", "agrees"), ("differs", "order"), ("differs", "rs1_rdata"), ("differs", "csr_sepc_rdata"),
        ("differs", "trap"), ("differs", "rd_wdata"), ("refused image", "bad line"), ("refused image", "bad value"),
        ("refused image", "outside RAM"), ("refused image", "bad byte"),
    ),
}


def small_elf():
    """An executable of two segments, the second with bytes that are 0 for want of one in the file, and a trace."""
    place = 64 + 2 * 56
    head = b"\x7fELF\2\1\1" + bytes(9) + struct.pack(
        "<HHIQQQIHHHHHH", 2, 243, 1, RAM.start, 64, 0, 0, 64, 56, 2, 0, 0, 0)
    for offset, address, in_file, in_memory in ((place, RAM.start, 4, 4), (place + 4, RAM.start + 8, 4, 12)):
        head += struct.pack("<IIQQQQQQ", 1, 5, offset, address, address, in_file, in_memory, 4)
    code = (0x00803103).to_bytes(4, "little") + bytes.fromhex("6f000000")  # LD x2, 8(x0), which traps
    return head + code, b"insn,pc_rdata,trap\n0x00803103,0x80000000,1\n"


def small_state():
    """The text of a state in S under translation, with a reservation, and a trace of three rows from there."""
    harts = judge_at_start(b"", Setting())
    judge = harts.judges[0]
    hart, registers = judge.hart, judge.hart.csrs
    for name, value in (
        ("pmpaddr0", (1 << 54) - 1), ("pmpcfg0", 0x1F), ("satp", SV39 << SATP_MODE_AT | ROOT // PAGE),
        ("mstatus", 0x6000C1800), ("medeleg", 0xB109), ("mideleg", 0x222), ("mie", 0x220), ("mtvec", 0x80000100),
        ("stvec", 0x80000201), ("sscratch", 0x123456789ABCDEF0), ("sepc", 0x80000FEC), ("pmpaddr3", 0x20000400),
        ("mip", 0x20), ("pmpcfg2", 0x8800000000000000),
    ):
        registers.write(name, value)
    hart.registers = [0, *(0x0101010101010101 * at for at in range(1, 32))]
    hart.registers[2], hart.mode, hart.reserved = DATA, S, DATA // hart.choices.block
    judge.next_order, judge.trapped_last = 0xFEDCBA9876543210, True
    for at, word in enumerate(WORDS):
        hart.memory.write(hart.pc + 4 * at, 4, word)
    hart.memory.write(ROOT + 8 * 2, 8, LEAF)
    hart.memory.write(DATA + 8, 8, 0x0BADCAFE)
    return text_of(harts).encode(), small_trace(judge)


def small_trace(judge):
    """The rows of the three instructions of a state, which show what they can of it."""
    shown = [f"csr_{name}_rdata" for name in CSRS if name != "misa"]
    lines, hart = ["order,pc_rdata,mode,trap,insn,rs1_addr,rs1_rdata,rd_addr,rd_wdata," + ",".join(shown)], judge.hart
    for at in range(len(WORDS)):
        values = [hart.csrs.read(name) for name in CSRS if name != "misa"]
        registers, order = list(hart.registers), judge.next_order + at
        retired = hart.step()
        source = retired.instruction.rs1 or 31 - at  # any register, where none is read
        fields = [
            order, retired.pc, S, 0, retired.bits, source, registers[source], retired.instruction.rd, retired.value,
        ]
        lines.append(",".join(f"0x{value:x}" for value in fields + values))
    return ("\n".join(lines) + "\n").encode()


def altered_elf(data):
    for at, byte in enumerate(data):
        yield data[:at]
        for bit in range(8):
            yield data[:at] + bytes([byte ^ 1 << bit]) + data[at + 1 :]


def altered_state(text):
    for at, byte in enumerate(text):
        for other in {byte ^ 1, byte ^ 0x20, *b" \n0a8"} - {byte}:
            yield text[:at] + bytes([other]) + text[at + 1 :]
        yield text[:at] + text[at + 1 :]
        yield text[: at + 1] + text[at:]


class Holder:
    """Holds a program to the answers due, and counts them."""

    def __init__(self, options, folder):
        self.options, self.folder = options, folder
        self.reached, self.wrong = Counter(), []

    def hold(self, task):
        """One image, with a trace, and alone: what came of it."""
        at, kind, image, trace = task
        found = []
        alone = (("state", trace.split(b"\n")[0]),) if self.options.states else ()
        for command, shown in (("judge", trace), *alone):
            text, status = foretell(image, shown, Setting(), command)
            due = f"{text}\n", status
            said = self.said(at, command, image, shown, due)
            found.append((kind, kind_of(text) if command == "judge" else None, due, said))
        return found

    def said(self, at, command, image, trace, due):
        if not self.options.program:
            return due
        paths = f"{self.folder}/image{at}", f"{self.folder}/trace{at}"
        for path, data in zip(paths, (image, trace)):
            Path(path).write_bytes(data)
        said = answer_of(self.options.program, [command, *paths, "--workers", "1"])
        for path in paths:
            os.unlink(path)
        return said

    def run(self, kind, images, trace):
        tasks = ((at, kind, image, trace) for at, image in enumerate(images))
        with ThreadPoolExecutor(self.options.jobs) as pool:
            for found in pool.map(self.hold, tasks):
                for kind, answer, due, said in found:
                    self.reached[kind] += 1
                    self.reached[kind, answer] += 1
                    if said != due:
                        self.wrong.append(f"{kind}:\n  due:  {due}\n  said: {said}")


def parse():
    parser = argparse.ArgumentParser(description=__doc__, formatter_class=argparse.RawDescriptionHelpFormatter)
    parser.add_argument("program", nargs="?", help="without it the answers are only foretold")
    parser.add_argument("--states", action="store_true", help="alter the state too, and ask for states")
    parser.add_argument("--jobs", type=number, default=os.cpu_count())
    return parser.parse_args()


def main():
    options = parse()
    kinds = {"elf": (*small_elf(), altered_elf)}
    if options.states:
        kinds["state"] = (*small_state(), altered_state)
    missed = []
    with tempfile.TemporaryDirectory() as folder:
        holder = Holder(options, folder)
        for kind, (image, trace, altered) in kinds.items():
            if not foretell(image, trace, Setting())[0].startswith("agrees"):
                sys.exit(f"alter_bytes: {kind}: what is not altered does not agree")
            holder.run(kind, altered(image), trace)
            print(f"{kind}: {holder.reached[kind]} answers to images of {len(image)} bytes")
            missed += [(kind, it) for it in ANSWERS[kind] if not holder.reached[kind, it]]
    for text in holder.wrong[:20]:
        print(text)
    for kind, (what, name) in missed:
        print(f"not reached: {kind}: {what}: {name}")
    print(f"wrong answers: {len(holder.wrong)}")
    return 1 if holder.wrong or missed else 0


if __name__ == "__main__":
    sys.exit(main())
