#!/usr/bin/env python3
"""Holds the columns of memory of a trace by qemu_log.py, row by row: only what is not known is empty.

An access at any address, also over the end of a page, is shown from its first byte on.

    memory_columns.py TRACE
"""
import csv
import sys
from pathlib import Path

sys.path.insert(0, str(Path(__file__).resolve().parents[1]))
from instructions import decoded, name_of


def wanted(row, name, size):
    """The columns that are to be filled, the others are to be empty."""
    rd = row["rd_addr"]
    if row["trap"] == "0x1" or not rd:  # a trap, or the last row
        return set()
    if not size or name.startswith("sc.") and row["rd_wdata"] == "0x1":
        return {"mem_rmask", "mem_wmask"}
    if name.startswith("sc.") and rd == "0x0":
        return set()
    filled = {"mem_addr", "mem_rmask", "mem_wmask"}
    is_store = name.removeprefix("c.")[:2] in ("sb", "sh", "sw", "sd", "sc")
    is_read_known = not is_store and rd != "0x0"
    filled |= {"mem_rdata"} if is_read_known else set()
    return filled | ({"mem_wdata"} if is_store or name.startswith("amo") and is_read_known else set())


def are_masks_right(row, size):
    """Whether the masks that are shown have the access's bytes, or none."""
    return all(int(row[it], 16) in (0, (1 << size) - 1) for it in ("mem_rmask", "mem_wmask") if row[it])


def main():
    count = 0
    with open(sys.argv[1], encoding="ascii") as text:
        for number, row in enumerate(csv.DictReader(text), 1):
            bits = int(row["insn"], 16)
            name, size = name_of(bits), decoded(bits).size
            filled = {it for it in row if it.startswith("mem_") and row[it]}
            due = wanted(row, name, size)
            if filled != due:
                print(f"row {number}, {name}: {sorted(filled)} are filled, wanted {sorted(due)}",
                      file=sys.stderr)
                return 1
            if not are_masks_right(row, size):
                print(f"row {number}, {name}: another mask", file=sys.stderr)
                return 1
            count += bool(size)
    return 0 if count > 5 else 1


if __name__ == "__main__":
    sys.exit(main())
