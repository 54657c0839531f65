"""Bit manipulation: what words of Zba, Zbb and Zbs mean, and what they compute.

After the RISC-V Bit-Manipulation ISA-extensions, version 1.0.0, chapters "Zba", "Zbb" and "Zbs" with the
pages of their instructions, for RV64; a part of reference_hart.py. A dot of a name is written as _.
"""
from hart_instructions import MASK, Instruction, bits_of, signed, word

XLEN = 64
WORD = 32


def digits(value, bits):
    """The bits of a number, from the most significant one."""
    return f"{value & (1 << bits) - 1:0{bits}b}"


def zeros_before_one(text):
    """The number of 0's before the first 1; all of them where there is no 1."""
    return len(text) - len(text.lstrip("0"))


def rotated_left(value, amount, bits):
    text, amount = digits(value, bits), amount % bits
    return int(text[amount:] + text[:amount], 2)


def rotated_right(value, amount, bits):
    return rotated_left(value, bits - amount % bits, bits)


def indexed(b):
    """The bit at the index that the low 6 bits of b specify."""
    return 1 << b % XLEN


def bytes_of(value):
    return value.to_bytes(XLEN // 8, "little")


# Each instruction: its result from rs1, and from rs2 or the immediate where it has one. Results that are
# signed or longer than 64 bits are cut to 64 where they are written.
BITS = {
    # Zba: address generation
    "ADD_UW": lambda a, b: b + word(a),
    "SH1ADD": lambda a, b: b + (a << 1),
    "SH1ADD_UW": lambda a, b: b + (word(a) << 1),
    "SH2ADD": lambda a, b: b + (a << 2),
    "SH2ADD_UW": lambda a, b: b + (word(a) << 2),
    "SH3ADD": lambda a, b: b + (a << 3),
    "SH3ADD_UW": lambda a, b: b + (word(a) << 3),
    "SLLI_UW": lambda a, b: word(a) << b,
    # Zbb: basic bit manipulation
    "ANDN": lambda a, b: a & (MASK - b),
    "ORN": lambda a, b: a | (MASK - b),
    "XNOR": lambda a, b: MASK - (a ^ b),
    "CLZ": lambda a, _: zeros_before_one(digits(a, XLEN)),
    "CLZW": lambda a, _: zeros_before_one(digits(a, WORD)),
    "CTZ": lambda a, _: zeros_before_one(digits(a, XLEN)[::-1]),
    "CTZW": lambda a, _: zeros_before_one(digits(a, WORD)[::-1]),
    "CPOP": lambda a, _: digits(a, XLEN).count("1"),
    "CPOPW": lambda a, _: digits(a, WORD).count("1"),
    "MAX": lambda a, b: max(signed(a), signed(b)),
    "MAXU": max,
    "MIN": lambda a, b: min(signed(a), signed(b)),
    "MINU": min,
    "SEXT_B": lambda a, _: signed(a, 8),
    "SEXT_H": lambda a, _: signed(a, 16),
    "ZEXT_H": lambda a, _: a % (1 << 16),
    "ROL": lambda a, b: rotated_left(a, b, XLEN),
    "ROLW": lambda a, b: signed(rotated_left(a, b, WORD), WORD),
    "ROR": lambda a, b: rotated_right(a, b, XLEN),
    "RORI": lambda a, b: rotated_right(a, b, XLEN),
    "RORIW": lambda a, b: signed(rotated_right(a, b, WORD), WORD),
    "RORW": lambda a, b: signed(rotated_right(a, b, WORD), WORD),
    "ORC_B": lambda a, _: int.from_bytes((0xFF if byte else 0 for byte in bytes_of(a)), "little"),
    "REV8": lambda a, _: int.from_bytes(bytes_of(a), "big"),
    # Zbs: single-bit instructions
    "BCLR": lambda a, b: a & (MASK - indexed(b)),
    "BCLRI": lambda a, b: a & (MASK - indexed(b)),
    "BEXT": lambda a, b: int(a & indexed(b) != 0),
    "BEXTI": lambda a, b: int(a & indexed(b) != 0),
    "BINV": lambda a, b: a ^ indexed(b),
    "BINVI": lambda a, b: a ^ indexed(b),
    "BSET": lambda a, b: a | indexed(b),
    "BSETI": lambda a, b: a | indexed(b),
}

# Encodings by opcode: those with two registers by funct7 and funct3,
REGISTER_BITS = {
    0b0110011: {
        (0b0010000, 2): "SH1ADD", (0b0010000, 4): "SH2ADD", (0b0010000, 6): "SH3ADD",
        (0b0100000, 4): "XNOR", (0b0100000, 6): "ORN", (0b0100000, 7): "ANDN",
        (0b0000101, 4): "MIN", (0b0000101, 5): "MINU", (0b0000101, 6): "MAX", (0b0000101, 7): "MAXU",
        (0b0110000, 1): "ROL", (0b0110000, 5): "ROR",
        (0b0100100, 1): "BCLR", (0b0100100, 5): "BEXT", (0b0110100, 1): "BINV", (0b0010100, 1): "BSET",
    },
    0b0111011: {
        (0b0000100, 0): "ADD_UW",
        (0b0010000, 2): "SH1ADD_UW", (0b0010000, 4): "SH2ADD_UW", (0b0010000, 6): "SH3ADD_UW",
        (0b0110000, 1): "ROLW", (0b0110000, 5): "RORW",
    },
}
# those with one register by bits 31:20 and funct3,
UNARY_BITS = {
    0b0010011: {
        (0b0110000_00000, 1): "CLZ", (0b0110000_00001, 1): "CTZ", (0b0110000_00010, 1): "CPOP",
        (0b0110000_00100, 1): "SEXT_B", (0b0110000_00101, 1): "SEXT_H",
        (0b0010100_00111, 5): "ORC_B", (0b0110101_11000, 5): "REV8",
    },
    0b0011011: {
        (0b0110000_00000, 1): "CLZW", (0b0110000_00001, 1): "CTZW", (0b0110000_00010, 1): "CPOPW",
    },
    0b0111011: {(0b0000100_00000, 4): "ZEXT_H"},
}
# and those with an amount or an index of so many bits by the bits above it and funct3.
AMOUNT_BITS = (
    (0b0010011, 6, {
        (0b010010, 1): "BCLRI", (0b010010, 5): "BEXTI", (0b011010, 1): "BINVI", (0b001010, 1): "BSETI",
        (0b011000, 5): "RORI",
    }),
    (0b0011011, 6, {(0b000010, 1): "SLLI_UW"}),
    (0b0011011, 5, {(0b0110000, 5): "RORIW"}),
)


def decode_bits(bits):
    """The instruction of bit manipulation that a 32-bit word is; None where it is none."""
    opcode, funct3, top = bits_of(bits, 6, 0), bits_of(bits, 14, 12), bits_of(bits, 31, 20)
    rd, rs1, rs2 = bits_of(bits, 11, 7), bits_of(bits, 19, 15), bits_of(bits, 24, 20)
    if name := REGISTER_BITS.get(opcode, {}).get((bits_of(bits, 31, 25), funct3)):
        return Instruction(name, rd, rs1, rs2)
    if name := UNARY_BITS.get(opcode, {}).get((top, funct3)):
        return Instruction(name, rd, rs1)
    for of, size, names in AMOUNT_BITS:
        if of == opcode and (name := names.get((top >> size, funct3))):
            return Instruction(name, rd, rs1, imm=top % (1 << size))
    return None
