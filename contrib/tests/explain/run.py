#!/usr/bin/env python3
"""Prints the trace of an image's run by the interpreter of benchmarks/, up to an EBREAK."""
import sys
from pathlib import Path

sys.path.insert(0, str(Path(__file__).resolve().parents[3] / "benchmarks/interpreter"))
from hart_memory import Memory, read_image
from reference_hart import BREAKPOINT, Core, Hart

COLUMNS = (
    "order,insn,pc_rdata,mode,trap,rs1_addr,rs1_rdata,rs2_addr,rs2_rdata,rd_addr,rd_wdata,pc_wdata,"
    "mem_addr,mem_rmask,mem_wmask,mem_rdata,mem_wdata,mem_paddr,cycle"
)


def fields(order, mode, row):
    yield from (order, row.bits, row.pc, mode, int(row.trap is not None))
    if row.trap:
        yield from [None] * 13
    else:
        instruction, access = row.instruction, row.access
        for register, value in ((instruction.rs1, row.source1), (instruction.rs2, row.source2)):
            yield from (register, value if register is not None else None)
        yield from (instruction.rd, row.value, row.next_pc)
        if access is None:
            yield from (None, None, 0, None, None, None)
        else:
            mask = (1 << access.length) - 1
            yield from (access.address, mask if access.read is not None else 0,
                        mask if access.written is not None else 0, access.read, access.written,
                        access.place)
    yield 100 + 3 * order


def main():
    hart = Hart(Memory(read_image(sys.argv[1])), Core(), range(0x10000000, 0x10001000))
    print(COLUMNS)
    for order in range(1000):
        mode, row = hart.mode, hart.step()
        print(",".join("" if it is None else f"0x{it:x}" for it in fields(order, mode, row)))
        if row.trap and row.trap.cause == BREAKPOINT:
            break


if __name__ == "__main__":
    main()
