#!/usr/bin/env python3
"""Holds the rows of several harts to one memory, in the order in which they stand.

Each row of a hart is at the address to which its row before led, or begins a handler. Each read
has the bytes that the rows before it wrote last. An SC stores where no other hart wrote into its
block since the LR, and nowhere else. Tells how many rows, harts and turns there are, and what SCs.

    memory_order.py TRACE
"""
import csv
import sys
from pathlib import Path

sys.path.insert(0, str(Path(__file__).resolve().parents[1]))
from instructions import decoded, name_of

BLOCK, RAM = 64, 0x80000000


class Wrong(Exception):
    """A row that the rows before it do not allow."""


class Harts:
    def __init__(self):
        self.memory = {}  # bytes; one that is not known is not there
        self.next, self.reserved = {}, {}  # by hart
        self.turns = self.stored = self.failed = 0
        self.last = None

    def take(self, row):
        hart = int(row["hart"], 0)
        self.turns += hart != self.last
        self.last = hart
        pc = int(row["pc_rdata"], 0)
        if self.next.get(hart, pc) != pc and row["intr"] != "0x1":
            raise Wrong(f"at 0x{pc:x}, and the hart's row before led to 0x{self.next[hart]:x}")
        if row["pc_wdata"] and row["trap"] != "0x1":
            self.next[hart] = int(row["pc_wdata"], 0)
        else:
            self.next.pop(hart, None)
        bits = int(row["insn"], 0)
        if decoded(bits).size and row["trap"] != "0x1":
            self.access(hart, name_of(bits), decoded(bits).size, row)

    def access(self, hart, name, size, row):
        if name.startswith("sc."):
            self.conditional(hart, row)
        if not row["mem_addr"] or (address := int(row["mem_addr"], 0)) < RAM:
            return
        bytes_of = range(address, address + size)
        if int(row["mem_rmask"], 0) and row["mem_rdata"]:
            read = int(row["mem_rdata"], 0)
            for at in bytes_of:
                if self.memory.setdefault(at, read & 0xFF) != read & 0xFF:
                    raise Wrong(f"reads another byte at 0x{at:x} than was written last")
                read >>= 8
        if name.startswith("lr."):
            self.reserved[hart] = address // BLOCK
        if int(row["mem_wmask"], 0):
            self.write(hart, bytes_of, row["mem_wdata"])

    def conditional(self, hart, row):
        is_done = row["rd_wdata"] == "0x0"
        self.stored, self.failed = self.stored + is_done, self.failed + (not is_done)
        if is_done != (self.reserved.pop(hart, None) is not None):
            wanted, found = ("fail", "stores") if is_done else ("store", "fails")
            raise Wrong(f"an SC that was to {wanted} {found}")

    def write(self, hart, bytes_of, text):
        for place, at in enumerate(bytes_of):
            self.memory.pop(at, None)
            if text:
                self.memory[at] = int(text, 0) >> 8 * place & 0xFF
        for other in [it for it, block in self.reserved.items()
                      if it != hart and block in {at // BLOCK for at in bytes_of}]:
            del self.reserved[other]


def main():
    harts, number = Harts(), 0
    with open(sys.argv[1], encoding="ascii") as text:
        for number, row in enumerate(csv.DictReader(text), 1):
            try:
                harts.take(row)
            except Wrong as fault:
                print(f"row {number}: {fault}", file=sys.stderr)
                return 1
    count = len({*harts.next, *harts.reserved, harts.last})
    print(f"{number} rows of {count} harts in {harts.turns} turns: "
          f"{harts.stored} SC stored, {harts.failed} failed")
    return 0


if __name__ == "__main__":
    sys.exit(main())
