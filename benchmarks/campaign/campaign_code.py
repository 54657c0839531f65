"""Bits of instructions from their names, and names from bits; a part of campaign.py.

The encodings are those of the instruction listings of the RISC-V Unprivileged ISA and of the
Privileged Architecture. What words mean says hart_instructions.py, and hart_bits.py of those of
bit manipulation.
"""
from hart_bits import AMOUNT_BITS, REGISTER_BITS, UNARY_BITS, decode_bits
from hart_instructions import (
    ATOMIC_NAMES, BRANCH_NAMES, CSR_NAMES, IMMEDIATE_NAMES, INTEGER, LOAD_NAMES, REGISTER_NAMES,
    STORE_NAMES, SYSTEM_WORDS, WORD_NAMES, decode, expand,
)

NOP = 0x13


def with_immediate(name):
    """The name of the instruction that works on an immediate in place of rs2."""
    if name == "SLTU":
        return "SLTIU"
    return f"{name[:-1]}IW" if name.endswith("W") else f"{name}I"


# each name of 32 bits: its form, opcode, funct3 and funct7
FORMS = {name: ("R", 0x33, funct3, funct7) for (funct7, funct3), name in REGISTER_NAMES.items()}
FORMS |= {name: ("R", 0x3B, funct3, funct7) for (funct7, funct3), name in WORD_NAMES.items()}
FORMS |= {with_immediate(name): ("I", 0x13, funct3, 0) for funct3, name in IMMEDIATE_NAMES.items()}
FORMS |= {
    "ADDIW": ("I", 0x1B, 0, 0),
    "SLLI": ("H", 0x13, 1, 0), "SRLI": ("H", 0x13, 5, 0), "SRAI": ("H", 0x13, 5, 0x20),
    "SLLIW": ("H", 0x1B, 1, 0), "SRLIW": ("H", 0x1B, 5, 0), "SRAIW": ("H", 0x1B, 5, 0x20),
    "LUI": ("U", 0x37, 0, 0), "AUIPC": ("U", 0x17, 0, 0), "JAL": ("J", 0x6F, 0, 0),
    "JALR": ("I", 0x67, 0, 0), "FENCE": ("I", 0x0F, 0, 0), "FENCE.I": ("I", 0x0F, 1, 0),
    "SFENCE_VMA": ("R", 0x73, 0, 9),
}
FORMS |= {name: ("B", 0x63, funct3, 0) for funct3, name in BRANCH_NAMES.items()}
FORMS |= {name: ("I", 0x03, funct3, 0) for funct3, name in LOAD_NAMES.items()}
FORMS |= {name: ("S", 0x23, funct3, 0) for funct3, name in STORE_NAMES.items()}
FORMS |= {name: ("I", 0x73, funct3, 0) for funct3, name in CSR_NAMES.items()}
FORMS |= {
    f"{name}.{suffix}": ("R", 0x2F, funct3, funct5 << 2)
    for funct5, name in ATOMIC_NAMES.items() for suffix, funct3 in (("W", 2), ("D", 3))
}
WORDS = {name: bits for bits, name in SYSTEM_WORDS.items()}

# those of bit manipulation; under F bits 31:20 stand in the place of funct7
BITS_FORMS = {
    name: ("R", opcode, funct3, funct7)
    for opcode, names in REGISTER_BITS.items() for (funct7, funct3), name in names.items()
}
BITS_FORMS |= {
    name: ("F", opcode, funct3, top)
    for opcode, names in UNARY_BITS.items() for (top, funct3), name in names.items()
}
BITS_FORMS |= {
    name: ("H", opcode, funct3, above << size - 5)
    for opcode, size, names in AMOUNT_BITS for (above, funct3), name in names.items()
}

IMMEDIATES = {
    "S": ((31, "11:5"), (11, "4:0")), "B": ((31, "12|10:5"), (11, "4:1|11")),
    "J": ((31, "20|10:1|11|19:12"),),
}

SIX = ((12, "5"), (6, "4:0"))
WORD_AT, DOUBLE_AT = ((12, "5:3"), (6, "2|6")), ((12, "5:3"), (6, "7:6"))
JUMP_AT, BRANCH_AT = ((12, "11|4|9:8|10|6|7|3:1|5"),), ((12, "8|4:3"), (6, "7:6|2:1|5"))

# each name of 16 bits: the bits that are the same, the places of its registers, and of its
# immediate; a and b are those of x8 to x15 in bits 9:7 and 4:2, d is bits 11:7, s is bits 6:2
SHORT = {
    "C.ADDI4SPN": (0x0000, "b", ((12, "5:4|9:6|2|3"),)),
    "C.LW": (0x4000, "ab", WORD_AT), "C.LD": (0x6000, "ab", DOUBLE_AT),
    "C.SW": (0xC000, "ab", WORD_AT), "C.SD": (0xE000, "ab", DOUBLE_AT),
    "C.NOP": (0x0001, "", SIX), "C.ADDI": (0x0001, "d", SIX), "C.ADDIW": (0x2001, "d", SIX),
    "C.LI": (0x4001, "d", SIX), "C.LUI": (0x6001, "d", SIX),
    "C.ADDI16SP": (0x6101, "", ((12, "9"), (6, "4|6|8:7|5"))),
    "C.SRLI": (0x8001, "a", SIX), "C.SRAI": (0x8401, "a", SIX), "C.ANDI": (0x8801, "a", SIX),
    "C.SUB": (0x8C01, "ab", ()), "C.XOR": (0x8C21, "ab", ()), "C.OR": (0x8C41, "ab", ()),
    "C.AND": (0x8C61, "ab", ()), "C.SUBW": (0x9C01, "ab", ()), "C.ADDW": (0x9C21, "ab", ()),
    "C.J": (0xA001, "", JUMP_AT),
    "C.BEQZ": (0xC001, "a", BRANCH_AT), "C.BNEZ": (0xE001, "a", BRANCH_AT),
    "C.SLLI": (0x0002, "d", SIX),
    "C.LWSP": (0x4002, "d", ((12, "5"), (6, "4:2|7:6"))),
    "C.LDSP": (0x6002, "d", ((12, "5"), (6, "4:3|8:6"))),
    "C.JR": (0x8002, "d", ()), "C.MV": (0x8002, "ds", ()), "C.EBREAK": (0x9002, "", ()),
    "C.JALR": (0x9002, "d", ()), "C.ADD": (0x9002, "ds", ()),
    "C.SWSP": (0xC002, "s", ((12, "5:2|7:6"),)), "C.SDSP": (0xE002, "s", ((12, "5:3|8:6"),)),
}
REGISTER_AT = {"a": (7, 7), "b": (2, 7), "d": (7, 31), "s": (2, 31)}


def spread(value, pieces):
    """The bits of an immediate at the places of its pieces, in the notation of `immediate`."""
    bits = 0
    for bit, places in pieces:
        for place in places.split("|"):
            first, _, last = place.partition(":")
            for of in range(int(first), int(last or first) - 1, -1):
                bits |= (value >> of & 1) << bit
                bit -= 1
    return bits


def encode(name, rd=0, rs1=0, rs2=0, imm=0):
    """The word of an instruction of 32 bits."""
    if name in WORDS:
        return WORDS[name]
    form, opcode, funct3, funct7 = FORMS.get(name) or BITS_FORMS[name]
    bits = opcode | funct3 << 12
    match form:
        case "R":
            return bits | rd << 7 | rs1 << 15 | rs2 << 20 | funct7 << 25
        case "F":
            return bits | rd << 7 | rs1 << 15 | funct7 << 20
        case "I":
            return bits | rd << 7 | rs1 << 15 | (imm & 0xFFF) << 20
        case "H":
            return bits | rd << 7 | rs1 << 15 | funct7 << 25 | (imm & 63) << 20
        case "U":
            return bits | rd << 7 | (imm & 0xFFFFF) << 12
        case "J":
            return bits | rd << 7 | spread(imm, IMMEDIATES[form])
    return bits | rs1 << 15 | rs2 << 20 | spread(imm, IMMEDIATES[form])


def encode_short(name, imm=0, **registers):
    """The halfword of an instruction of 16 bits, with its registers by their places."""
    bits, places, pieces = SHORT[name]
    for place in places:
        at, mask = REGISTER_AT[place]
        bits |= (registers.get(place, 0) & mask) << at
    return bits | spread(imm, pieces)


def same_bits(name):
    """The mask of the bits that are the same in each instruction of this name of 16 bits."""
    _, places, pieces = SHORT[name]
    moving = spread(-1, pieces)
    for place in places:
        at, mask = REGISTER_AT[place]
        moving |= mask << at
    return 0xFFFF & ~moving


# those with the most bits first, since C.JR is among the bits of C.MV
SHORT_BY_BITS = sorted(
    ((same_bits(name), bits, name) for name, (bits, _, _) in SHORT.items()),
    key=lambda entry: -entry[0].bit_count(),
)


def short_name(half):
    """The name of an instruction of 16 bits."""
    return next(name for mask, bits, name in SHORT_BY_BITS if half & mask == bits)


def name_of(bits, length, has_bits):
    """The name under which the instruction of these bits is counted, with those of hart_bits.py or
    without."""
    if length == 2:
        return short_name(bits) if expand(bits) else "illegal, 16 bits"
    instruction = decode(bits) or (decode_bits(bits) if has_bits else None)
    if instruction is None:
        return "illegal, 32 bits"
    if instruction.name == "FENCE" and bits >> 12 & 7:
        return "FENCE.I"
    if instruction.name in INTEGER and instruction.rs2 is None:
        return with_immediate(instruction.name)
    return instruction.name


ALL_NAMES = sorted({*FORMS, *WORDS, *SHORT})
