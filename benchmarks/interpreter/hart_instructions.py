"""The instructions of RV64IMAC with Zicsr and Zifencei: what words mean, and what the integer ones compute.

After the RISC-V Unprivileged ISA; a part of reference_hart.py.
"""
from typing import NamedTuple

MASK = (1 << 64) - 1


class Instruction(NamedTuple):
    """One instruction, or what a 16-bit one expands to; a source is None where none is read."""

    name: str
    rd: int = 0
    rs1: int | None = None
    rs2: int | None = None
    imm: int = 0
    csr: int = 0


# Numbers: registers hold numbers from 0 to 2^64 - 1.


def signed(value, bits=64):
    """The number that the low bits stand for in two's complement."""
    sign = 1 << (bits - 1)
    return (value & (sign - 1)) - (value & sign)


def word(value):
    """The low 32 bits."""
    return value & 0xFFFFFFFF


def quotient(dividend, divisor):
    """The quotient rounded toward zero; -1 where the divisor is 0."""
    if divisor == 0:
        return -1
    size = abs(dividend) // abs(divisor)
    return size if (dividend < 0) == (divisor < 0) else -size


def remainder(dividend, divisor):
    """The remainder with the sign of the dividend; the dividend where the divisor is 0."""
    return dividend if divisor == 0 else dividend - divisor * quotient(dividend, divisor)


# Results that are signed or longer than 64 bits are cut to 64 where they are written.
INTEGER = {
    "ADD": lambda a, b: a + b,
    "SUB": lambda a, b: a - b,
    "SLL": lambda a, b: a << (b & 63),
    "SLT": lambda a, b: int(signed(a) < signed(b)),
    "SLTU": lambda a, b: int(a < b),
    "XOR": lambda a, b: a ^ b,
    "SRL": lambda a, b: a >> (b & 63),
    "SRA": lambda a, b: signed(a) >> (b & 63),
    "OR": lambda a, b: a | b,
    "AND": lambda a, b: a & b,
    "MUL": lambda a, b: a * b,
    "MULH": lambda a, b: signed(a) * signed(b) >> 64,
    "MULHSU": lambda a, b: signed(a) * b >> 64,
    "MULHU": lambda a, b: a * b >> 64,
    "DIV": lambda a, b: quotient(signed(a), signed(b)),
    "DIVU": quotient,
    "REM": lambda a, b: remainder(signed(a), signed(b)),
    "REMU": remainder,
    "ADDW": lambda a, b: signed(a + b, 32),
    "SUBW": lambda a, b: signed(a - b, 32),
    "SLLW": lambda a, b: signed(a << (b & 31), 32),
    "SRLW": lambda a, b: signed(word(a) >> (b & 31), 32),
    "SRAW": lambda a, b: signed(a, 32) >> (b & 31),
    "MULW": lambda a, b: signed(a * b, 32),
    "DIVW": lambda a, b: signed(quotient(signed(a, 32), signed(b, 32)), 32),
    "DIVUW": lambda a, b: signed(quotient(word(a), word(b)), 32),
    "REMW": lambda a, b: signed(remainder(signed(a, 32), signed(b, 32)), 32),
    "REMUW": lambda a, b: signed(remainder(word(a), word(b)), 32),
}

BRANCHES = {
    "BEQ": lambda a, b: a == b,
    "BNE": lambda a, b: a != b,
    "BLT": lambda a, b: signed(a) < signed(b),
    "BGE": lambda a, b: signed(a) >= signed(b),
    "BLTU": lambda a, b: a < b,
    "BGEU": lambda a, b: a >= b,
}

# the bytes read, and whether the value is extended by its sign
LOADS = {
    "LB": (1, True),
    "LH": (2, True),
    "LW": (4, True),
    "LD": (8, True),
    "LBU": (1, False),
    "LHU": (2, False),
    "LWU": (4, False),
}

STORES = {"SB": 1, "SH": 2, "SW": 4, "SD": 8}

# each: the value to write, from the old one, the register's and their width in bits
ATOMIC = {
    "AMOSWAP": lambda old, b, bits: b,
    "AMOADD": lambda old, b, bits: old + b,
    "AMOXOR": lambda old, b, bits: old ^ b,
    "AMOAND": lambda old, b, bits: old & b,
    "AMOOR": lambda old, b, bits: old | b,
    "AMOMIN": lambda old, b, bits: min(old, b, key=lambda value: signed(value, bits)),
    "AMOMAX": lambda old, b, bits: max(old, b, key=lambda value: signed(value, bits)),
    "AMOMINU": lambda old, b, bits: min(old, b),
    "AMOMAXU": lambda old, b, bits: max(old, b),
}


# Decoding, in the notation of the manual's tables.


def bits_of(bits, high, low):
    """The bits from high down to low."""
    return bits >> low & ((1 << (high - low + 1)) - 1)


def immediate(bits, *pieces):
    """The immediate of the pieces (high, places): from bit high down, the places that a table names.

    (12, "5:3") takes bits 12, 11 and 10 to the places 5, 4 and 3; (6, "2|6") takes bits 6 and 5 to 2 and 6.
    """
    value = 0
    for bit, places in pieces:
        for place in places.split("|"):
            first, _, last = place.partition(":")
            for to in range(int(first), int(last or first) - 1, -1):
                value |= (bits >> bit & 1) << to
                bit -= 1
    return value


REGISTER_NAMES = {
    (0x00, 0): "ADD", (0x00, 1): "SLL", (0x00, 2): "SLT", (0x00, 3): "SLTU",
    (0x00, 4): "XOR", (0x00, 5): "SRL", (0x00, 6): "OR", (0x00, 7): "AND",
    (0x20, 0): "SUB", (0x20, 5): "SRA",
    (0x01, 0): "MUL", (0x01, 1): "MULH", (0x01, 2): "MULHSU", (0x01, 3): "MULHU",
    (0x01, 4): "DIV", (0x01, 5): "DIVU", (0x01, 6): "REM", (0x01, 7): "REMU",
}
WORD_NAMES = {
    (0x00, 0): "ADDW", (0x00, 1): "SLLW", (0x00, 5): "SRLW",
    (0x20, 0): "SUBW", (0x20, 5): "SRAW",
    (0x01, 0): "MULW", (0x01, 4): "DIVW", (0x01, 5): "DIVUW", (0x01, 6): "REMW", (0x01, 7): "REMUW",
}
IMMEDIATE_NAMES = {0: "ADD", 2: "SLT", 3: "SLTU", 4: "XOR", 6: "OR", 7: "AND"}
BRANCH_NAMES = {0: "BEQ", 1: "BNE", 4: "BLT", 5: "BGE", 6: "BLTU", 7: "BGEU"}
LOAD_NAMES = {0: "LB", 1: "LH", 2: "LW", 3: "LD", 4: "LBU", 5: "LHU", 6: "LWU"}
STORE_NAMES = {0: "SB", 1: "SH", 2: "SW", 3: "SD"}
ATOMIC_NAMES = {
    0b00000: "AMOADD", 0b00001: "AMOSWAP", 0b00010: "LR", 0b00011: "SC", 0b00100: "AMOXOR",
    0b01000: "AMOOR", 0b01100: "AMOAND", 0b10000: "AMOMIN", 0b10100: "AMOMAX",
    0b11000: "AMOMINU", 0b11100: "AMOMAXU",
}

CSR_NAMES = {1: "CSRRW", 2: "CSRRS", 3: "CSRRC", 5: "CSRRWI", 6: "CSRRSI", 7: "CSRRCI"}
SYSTEM_WORDS = {
    0x00000073: "ECALL", 0x00100073: "EBREAK", 0x10200073: "SRET", 0x30200073: "MRET", 0x10500073: "WFI",
}


def decode(bits):
    """The instruction of a 32-bit word; None where there is none."""
    rd, rs1, rs2 = bits_of(bits, 11, 7), bits_of(bits, 19, 15), bits_of(bits, 24, 20)
    funct3, funct7 = bits_of(bits, 14, 12), bits_of(bits, 31, 25)
    i_imm = signed(bits_of(bits, 31, 20), 12)
    match bits_of(bits, 6, 0):
        case 0b0110111:
            return Instruction("LUI", rd, imm=signed(bits & 0xFFFFF000, 32))
        case 0b0010111:
            return Instruction("AUIPC", rd, imm=signed(bits & 0xFFFFF000, 32))
        case 0b1101111:
            return Instruction("JAL", rd, imm=signed(immediate(bits, (31, "20|10:1|11|19:12")), 21))
        case 0b1100111 if funct3 == 0:
            return Instruction("JALR", rd, rs1, imm=i_imm)
        case 0b1100011 if funct3 in BRANCH_NAMES:
            offset = signed(immediate(bits, (31, "12|10:5"), (11, "4:1|11")), 13)
            return Instruction(BRANCH_NAMES[funct3], 0, rs1, rs2, offset)
        case 0b0000011 if funct3 in LOAD_NAMES:
            return Instruction(LOAD_NAMES[funct3], rd, rs1, imm=i_imm)
        case 0b0100011 if funct3 in STORE_NAMES:
            offset = signed(immediate(bits, (31, "11:5"), (11, "4:0")), 12)
            return Instruction(STORE_NAMES[funct3], 0, rs1, rs2, offset)
        case 0b0010011 if funct3 in IMMEDIATE_NAMES:
            return Instruction(IMMEDIATE_NAMES[funct3], rd, rs1, imm=i_imm)
        case 0b0010011 if (funct7 >> 1, funct3) in ((0x00, 1), (0x00, 5), (0x10, 5)):
            return Instruction(REGISTER_NAMES[funct7 & 0x7E, funct3], rd, rs1, imm=bits_of(bits, 25, 20))
        case 0b0011011 if funct3 == 0:
            return Instruction("ADDW", rd, rs1, imm=i_imm)
        case 0b0011011 if (funct7, funct3) in ((0x00, 1), (0x00, 5), (0x20, 5)):
            return Instruction(WORD_NAMES[funct7, funct3], rd, rs1, imm=rs2)
        case 0b0110011 if (funct7, funct3) in REGISTER_NAMES:
            return Instruction(REGISTER_NAMES[funct7, funct3], rd, rs1, rs2)
        case 0b0111011 if (funct7, funct3) in WORD_NAMES:
            return Instruction(WORD_NAMES[funct7, funct3], rd, rs1, rs2)
        case 0b0001111 if funct3 in (0, 1):
            return Instruction("FENCE")
        case 0b1110011 if bits in SYSTEM_WORDS:
            return Instruction(SYSTEM_WORDS[bits])
        case 0b1110011 if (funct7, funct3, rd) == (0b0001001, 0, 0):
            return Instruction("SFENCE_VMA", 0, rs1, rs2)
        case 0b1110011 if funct3 in CSR_NAMES:
            name, csr = CSR_NAMES[funct3], bits_of(bits, 31, 20)
            if name.endswith("I"):
                return Instruction(name, rd, imm=rs1, csr=csr)
            return Instruction(name, rd, rs1, csr=csr)
        case 0b0101111 if funct3 in (2, 3) and funct7 >> 2 in ATOMIC_NAMES:
            name = ATOMIC_NAMES[funct7 >> 2]
            suffix = ".W" if funct3 == 2 else ".D"
            if name == "LR":
                return Instruction("LR" + suffix, rd, rs1) if rs2 == 0 else None
            return Instruction(name + suffix, rd, rs1, rs2)
    return None


def expand(half):
    """The expansion of a 16-bit instruction; None where there is none."""
    match half & 3:
        case 0:
            return expand_quadrant_0(half)
        case 1:
            return expand_quadrant_1(half)
        case 2:
            return expand_quadrant_2(half)
    return None


def expand_quadrant_0(half):
    rs1, other = 8 + bits_of(half, 9, 7), 8 + bits_of(half, 4, 2)
    word_offset = immediate(half, (12, "5:3"), (6, "2|6"))
    double_offset = immediate(half, (12, "5:3"), (6, "7:6"))
    match bits_of(half, 15, 13):
        case 0b000:  # C.ADDI4SPN
            imm = immediate(half, (12, "5:4|9:6|2|3"))
            return Instruction("ADD", other, 2, imm=imm) if imm else None
        case 0b010:  # C.LW
            return Instruction("LW", other, rs1, imm=word_offset)
        case 0b011:  # C.LD
            return Instruction("LD", other, rs1, imm=double_offset)
        case 0b110:  # C.SW
            return Instruction("SW", 0, rs1, other, word_offset)
        case 0b111:  # C.SD
            return Instruction("SD", 0, rs1, other, double_offset)
    return None


def expand_quadrant_1(half):
    rd = bits_of(half, 11, 7)
    imm = signed(immediate(half, (12, "5"), (6, "4:0")), 6)
    match bits_of(half, 15, 13):
        case 0b000:  # C.ADDI, C.NOP
            return Instruction("ADD", rd, rd, imm=imm)
        case 0b001:  # C.ADDIW
            return Instruction("ADDW", rd, rd, imm=imm) if rd else None
        case 0b010:  # C.LI
            return Instruction("ADD", rd, 0, imm=imm)
        case 0b011 if rd == 2:  # C.ADDI16SP
            imm = signed(immediate(half, (12, "9"), (6, "4|6|8:7|5")), 10)
            return Instruction("ADD", 2, 2, imm=imm) if imm else None
        case 0b011:  # C.LUI
            return Instruction("LUI", rd, imm=imm << 12) if imm else None
        case 0b100:
            return expand_arithmetic(half)
        case 0b101:  # C.J
            return Instruction("JAL", 0, imm=signed(immediate(half, (12, "11|4|9:8|10|6|7|3:1|5")), 12))
    # C.BEQZ, C.BNEZ
    name = "BNE" if bits_of(half, 13, 13) else "BEQ"
    offset = signed(immediate(half, (12, "8|4:3"), (6, "7:6|2:1|5")), 9)
    return Instruction(name, 0, 8 + bits_of(half, 9, 7), 0, offset)


def expand_arithmetic(half):
    rd, rs2 = 8 + bits_of(half, 9, 7), 8 + bits_of(half, 4, 2)
    amount = immediate(half, (12, "5"), (6, "4:0"))
    match bits_of(half, 11, 10):
        case 0b00:  # C.SRLI
            return Instruction("SRL", rd, rd, imm=amount)
        case 0b01:  # C.SRAI
            return Instruction("SRA", rd, rd, imm=amount)
        case 0b10:  # C.ANDI
            return Instruction("AND", rd, rd, imm=signed(amount, 6))
    names = {0b000: "SUB", 0b001: "XOR", 0b010: "OR", 0b011: "AND", 0b100: "SUBW", 0b101: "ADDW"}
    name = names.get(bits_of(half, 12, 12) << 2 | bits_of(half, 6, 5))
    return Instruction(name, rd, rd, rs2) if name else None


def expand_quadrant_2(half):
    rd, rs2 = bits_of(half, 11, 7), bits_of(half, 6, 2)
    match bits_of(half, 15, 13):
        case 0b000:  # C.SLLI
            return Instruction("SLL", rd, rd, imm=immediate(half, (12, "5"), (6, "4:0")))
        case 0b010 if rd:  # C.LWSP
            return Instruction("LW", rd, 2, imm=immediate(half, (12, "5"), (6, "4:2|7:6")))
        case 0b011 if rd:  # C.LDSP
            return Instruction("LD", rd, 2, imm=immediate(half, (12, "5"), (6, "4:3|8:6")))
        case 0b100 if rs2:  # C.MV, C.ADD
            return Instruction("ADD", rd, rd if bits_of(half, 12, 12) else 0, rs2)
        case 0b100 if bits_of(half, 12, 12) and not rd:  # C.EBREAK
            return Instruction("EBREAK")
        case 0b100 if rd:  # C.JR, C.JALR
            return Instruction("JALR", bits_of(half, 12, 12), rd)
        case 0b110:  # C.SWSP
            return Instruction("SW", 0, 2, rs2, immediate(half, (12, "5:2|7:6")))
        case 0b111:  # C.SDSP
            return Instruction("SD", 0, 2, rs2, immediate(half, (12, "5:3|8:6")))
    return None
