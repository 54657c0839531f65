#!/usr/bin/env python3
"""Writes the image of a loop and the trace of its run: make_rows.py IMAGE TRACE ROWS [--quoted] [--all].

The loop counts in x1, builds addresses in x2 and x3, shifts and adds, and jumps back.
The rows are those of a hart that runs it from 0x80000000, worked out here.
With --quoted each field stands in quotes. With --all there are all 111 columns that the judge knows, and each field
has a value: registers of control and status keep those of reset.
"""
import argparse

BASE = 0x80000000
COLUMNS = "order", "insn", "pc_rdata", "rd_addr", "rd_wdata", "pc_wdata"
MASK = (1 << 64) - 1

# all columns that the judge knows: those of the instruction, and four for each of these registers
ALL_COLUMNS = (
    "valid", "order", "intr", "pc_rdata", "mode", "ixl", "trap", "insn", "rs1_addr", "rs1_rdata", "rs2_addr",
    "rs2_rdata", "rd_addr", "rd_wdata", "pc_wdata", "mem_addr", "mem_rmask", "mem_rdata", "mem_wmask", "mem_wdata",
    "mem_paddr", "halt", "hart",
)
REGISTERS = (
    "mstatus", "misa", "medeleg", "mideleg", "mie", "mtvec", "mscratch", "mepc", "mcause", "mtval", "mip", "satp",
    "sstatus", "sie", "sip", "stvec", "sscratch", "sepc", "scause", "stval", "pmpcfg0", "pmpcfg2",
)
RESET = {"mstatus": 0xA00000000, "misa": 0x8000000000141105, "sstatus": 0x200000000}


def signed(value, bits):
    """The number that these bits stand for in two's complement, in 64 bits."""
    sign = 1 << (bits - 1)
    return ((value & (sign - 1)) - (value & sign)) & MASK


def i_type(opcode, funct3, rd, rs1, imm):
    return (imm & 0xFFF) << 20 | rs1 << 15 | funct3 << 12 | rd << 7 | opcode


def u_type(opcode, rd, upper):
    return (upper & 0xFFFFF) << 12 | rd << 7 | opcode


def jal(rd, offset):
    bits = offset & 0x1FFFFF
    return (
        (bits >> 20 & 1) << 31
        | (bits >> 1 & 0x3FF) << 21
        | (bits >> 11 & 1) << 20
        | (bits >> 12 & 0xFF) << 12
        | rd << 7
        | 0x6F
    )


# each: the word, the register written, and its value from the pc and the registers
LOOP = [
    (i_type(0x13, 0, 1, 1, 1), 1, lambda pc, x: x[1] + 1),  # ADDI x1, x1, 1
    (u_type(0x37, 2, 0x80001), 2, lambda pc, x: signed(0x80001000, 32)),  # LUI x2, 0x80001
    (u_type(0x17, 3, 1), 3, lambda pc, x: pc + 0x1000),  # AUIPC x3, 1
    (i_type(0x13, 1, 4, 1, 3), 4, lambda pc, x: x[1] << 3),  # SLLI x4, x1, 3
    (i_type(0x13, 5, 5, 4, 2), 5, lambda pc, x: x[4] >> 2),  # SRLI x5, x4, 2
    (i_type(0x13, 4, 6, 5, -1), 6, lambda pc, x: x[5] ^ MASK),  # XORI x6, x5, -1
    (i_type(0x13, 6, 7, 6, 0x55), 7, lambda pc, x: x[6] | 0x55),  # ORI x7, x6, 85
    (i_type(0x13, 7, 8, 7, 0x7F), 8, lambda pc, x: x[7] & 0x7F),  # ANDI x8, x7, 127
    (i_type(0x13, 3, 9, 8, 64), 9, lambda pc, x: int(x[8] < 64)),  # SLTIU x9, x8, 64
    (jal(10, -36), 10, lambda pc, x: pc + 4),  # JAL x10, to the loop's first word
]


def write_image(path, words):
    """Writes the words as an image that begins at BASE."""
    with open(path, "w", encoding="ascii") as image:
        image.write(f"@{BASE:x}\n")
        for word in words:
            image.write(" ".join(f"{byte:02x}" for byte in word.to_bytes(4, "little")) + "\n")


def line_of(fields, quoted):
    """A line of these fields, each in quotes or none."""
    return ",".join(f'"{field}"' if quoted else field for field in fields) + "\n"


def registers_of_control():
    """The names and values of their columns: masks of nothing, and the value of reset before and after."""
    names = [f"csr_{name}_{side}" for name in REGISTERS for side in ("rmask", "wmask", "rdata", "wdata")]
    values = [value for name in REGISTERS for value in (0, 0, RESET.get(name, 0), RESET.get(name, 0))]
    return names, values


def write_all(path, count):
    """Writes the trace with all columns."""
    names, values = registers_of_control()
    control = ",".join(f"0x{value:x}" for value in values)
    registers = [0] * 32
    place = 0
    with open(path, "w", encoding="ascii") as trace:
        trace.write(",".join([*ALL_COLUMNS, *names]) + "\n")
        for order in range(count):
            word, rd, value_of = LOOP[place]
            pc = BASE + 4 * place
            rs1 = word >> 15 & 31 if word & 0x7F == 0x13 else 0
            before = registers[rs1]
            registers[rd] = value_of(pc, registers) & MASK
            place = (place + 1) % len(LOOP)
            trace.write(
                f"1,{order},0,0x{pc:x},3,2,0,0x{word:08x},{rs1},0x{before:x},0,0x0,{rd},0x{registers[rd]:x},"
                f"0x{BASE + 4 * place:x},0x0,0x0,0x0,0x0,0x0,0x0,0,0,{control}\n"
            )


def write_trace(path, count, quoted):
    registers = [0] * 32
    place = 0
    with open(path, "w", encoding="ascii") as trace:
        trace.write(line_of(COLUMNS, quoted))
        for order in range(count):
            word, rd, value_of = LOOP[place]
            pc = BASE + 4 * place
            value = value_of(pc, registers) & MASK
            registers[rd] = value
            place = (place + 1) % len(LOOP)
            fields = f"{order}", f"0x{word:08x}", f"0x{pc:x}", f"{rd}", f"0x{value:x}", f"0x{BASE + 4 * place:x}"
            trace.write(line_of(fields, quoted))


def main():
    parser = argparse.ArgumentParser(description="Writes the image of a loop and the trace of its run.")
    parser.add_argument("image")
    parser.add_argument("trace")
    parser.add_argument("rows", type=int)
    form = parser.add_mutually_exclusive_group()
    form.add_argument("--quoted", action="store_true", help="put each field in quotes")
    form.add_argument("--all", action="store_true", help="write all 111 columns")
    options = parser.parse_args()
    write_image(options.image, [word for word, _, _ in LOOP])
    if options.all:
        write_all(options.trace, options.rows)
    else:
        write_trace(options.trace, options.rows, options.quoted)


if __name__ == "__main__":
    main()
