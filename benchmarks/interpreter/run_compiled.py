#!/usr/bin/env python3
"""Runs an image of RV64IMAC code and writes the trace of its run: run_compiled.py IMAGE TRACE ROWS.

The hart is that of reference_hart.py: it starts at 0x80000000 in M-mode with all registers 0, and has
128 MiB of RAM there. An instruction that would trap ends the run with an error.
"""
import sys

from hart_memory import Memory, read_image
from reference_hart import Hart

COLUMNS = (
    "order,insn,trap,pc_rdata,pc_wdata,rs1_addr,rs1_rdata,rs2_addr,rs2_rdata,rd_addr,rd_wdata,"
    "mem_addr,mem_rmask,mem_wmask,mem_rdata,mem_wdata,mem_paddr"
)


def source_fields(register, value):
    """The fields of a source's number and value; empty where none is read."""
    return "," if register is None else f"{register},0x{value:x}"


def access_fields(access):
    """The fields from mem_addr to mem_paddr; empty where there is nothing to show, but for the mask of a write."""
    if access is None:
        return ",,0,,,"
    address, mask = f"0x{access.address:x}", f"0x{(1 << access.length) - 1:x}"
    read_mask, read = ("", "") if access.read is None else (mask, f"0x{access.read:x}")
    write_mask, written = ("0", "") if access.written is None else (mask, f"0x{access.written:x}")
    return f"{address},{read_mask},{write_mask},{read},{written},0x{access.place:x}"


def trace_line(order, row):
    """The line of one retired instruction."""
    instruction = row.instruction
    return (
        f"{order},0x{row.bits:x},0,0x{row.pc:x},0x{row.next_pc:x},"
        f"{source_fields(instruction.rs1, row.source1)},{source_fields(instruction.rs2, row.source2)},"
        f"{instruction.rd},0x{row.value:x},{access_fields(row.access)}\n"
    )


def main():
    image, trace, count = sys.argv[1:]
    hart = Hart(Memory(read_image(image)))
    with open(trace, "w", encoding="ascii") as rows:
        rows.write(COLUMNS + "\n")
        for order in range(int(count)):
            row = hart.step()
            if row.trap:
                sys.exit(f"row {order + 1}, pc 0x{row.pc:x}: {row.trap}")
            rows.write(trace_line(order, row))


if __name__ == "__main__":
    main()
