"""What an instruction of the judge's table is, by its bits: its name, the registers that it reads and
writes, and the access to memory that it makes."""
import functools
import re
from typing import NamedTuple

# ---- names

BY_FUNCT3 = {
    0x63: {0: "beq", 1: "bne", 4: "blt", 5: "bge", 6: "bltu", 7: "bgeu"},
    0x03: dict(enumerate("lb lh lw ld lbu lhu lwu".split())),
    0x23: dict(enumerate("sb sh sw sd".split())),
    0x13: {0: "addi", 2: "slti", 3: "sltiu", 4: "xori", 6: "ori", 7: "andi"},
    0x1B: {0: "addiw"}, 0x67: {0: "jalr"}, 0x0F: {0: "fence", 1: "fence.i"},
    0x73: {1: "csrrw", 2: "csrrs", 3: "csrrc", 5: "csrrwi", 6: "csrrsi", 7: "csrrci"},
}
# By opcode, funct3 and funct7 (of shifts by an immediate of 6 bits without its lowest bit).
BY_FUNCT7 = {
    **{(0x33, at, 0): it for at, it in enumerate("add sll slt sltu xor srl or and".split())},
    **{(0x33, at, 1): it
       for at, it in enumerate("mul mulh mulhsu mulhu div divu rem remu".split())},
    (0x33, 0, 32): "sub", (0x33, 5, 32): "sra",
    (0x3B, 0, 0): "addw", (0x3B, 1, 0): "sllw", (0x3B, 5, 0): "srlw", (0x3B, 0, 32): "subw",
    (0x3B, 5, 32): "sraw", (0x3B, 0, 1): "mulw", (0x3B, 4, 1): "divw", (0x3B, 5, 1): "divuw",
    (0x3B, 6, 1): "remw", (0x3B, 7, 1): "remuw", (0x1B, 1, 0): "slliw", (0x1B, 5, 0): "srliw",
    (0x1B, 5, 32): "sraiw", (0x13, 1, 0): "slli", (0x13, 5, 0): "srli", (0x13, 5, 32): "srai",
}
# Zba, Zbb and Zbs: the same, and those with one register by bits 31:20 in the place of funct7.
BITS_BY_FUNCT7 = {
    (0x33, 2, 16): "sh1add", (0x33, 4, 16): "sh2add", (0x33, 6, 16): "sh3add",
    (0x33, 4, 32): "xnor", (0x33, 6, 32): "orn", (0x33, 7, 32): "andn",
    (0x33, 4, 5): "min", (0x33, 5, 5): "minu", (0x33, 6, 5): "max", (0x33, 7, 5): "maxu",
    (0x33, 1, 48): "rol", (0x33, 5, 48): "ror", (0x33, 1, 36): "bclr", (0x33, 5, 36): "bext",
    (0x33, 1, 52): "binv", (0x33, 1, 20): "bset",
    (0x3B, 0, 4): "add.uw", (0x3B, 2, 16): "sh1add.uw", (0x3B, 4, 16): "sh2add.uw",
    (0x3B, 6, 16): "sh3add.uw", (0x3B, 1, 48): "rolw", (0x3B, 5, 48): "rorw",
    (0x13, 1, 36): "bclri", (0x13, 5, 36): "bexti", (0x13, 1, 52): "binvi", (0x13, 1, 20): "bseti",
    (0x13, 5, 48): "rori", (0x1B, 5, 48): "roriw",
    (0x1B, 1, 4): "slli.uw", (0x1B, 1, 5): "slli.uw",  # the amount has 6 bits
}
BITS_BY_FUNCT12 = {
    (0x13, 1, 0x600): "clz", (0x13, 1, 0x601): "ctz", (0x13, 1, 0x602): "cpop",
    (0x13, 1, 0x604): "sext.b", (0x13, 1, 0x605): "sext.h", (0x13, 5, 0x287): "orc.b",
    (0x13, 5, 0x6B8): "rev8", (0x3B, 4, 0x080): "zext.h",
    (0x1B, 1, 0x600): "clzw", (0x1B, 1, 0x601): "ctzw", (0x1B, 1, 0x602): "cpopw",
}
BIT_MANIPULATION = [*dict.fromkeys([*BITS_BY_FUNCT7.values(), *BITS_BY_FUNCT12.values()])]
BY_FUNCT5 = {
    0: "amoadd", 1: "amoswap", 2: "lr", 3: "sc", 4: "amoxor", 8: "amoor", 12: "amoand",
    16: "amomin", 20: "amomax", 24: "amominu", 28: "amomaxu",
}
WORDS = {0x73: "ecall", 0x100073: "ebreak", 0x10200073: "sret", 0x30200073: "mret",
         0x10500073: "wfi"}
# Compressed instructions, with the registers that they read as rs1 and rs2, and that they write:
# "whole" and "second" have all five bits, "high" and "low" three, "sp" is x2 and "ra" is x1.
COMPRESSED = {
    "c.addi4spn": ("sp", "", "low"), "c.lw": ("high", "", "low"), "c.ld": ("high", "", "low"),
    "c.sw": ("high", "low", ""), "c.sd": ("high", "low", ""), "c.addi": ("whole", "", "whole"),
    "c.addiw": ("whole", "", "whole"), "c.li": ("", "", "whole"), "c.addi16sp": ("sp", "", "sp"),
    "c.lui": ("", "", "whole"),
    **{f"c.{it}": ("high", "", "high") for it in ("srli", "srai", "andi")},
    **{f"c.{it}": ("high", "low", "high") for it in ("sub", "xor", "or", "and", "subw", "addw")},
    "c.j": ("", "", ""), "c.beqz": ("high", "", ""), "c.bnez": ("high", "", ""),
    "c.slli": ("whole", "", "whole"), "c.lwsp": ("sp", "", "whole"), "c.ldsp": ("sp", "", "whole"),
    "c.jr": ("whole", "", ""), "c.mv": ("", "second", "whole"), "c.ebreak": ("", "", ""),
    "c.jalr": ("whole", "", "ra"), "c.add": ("whole", "second", "whole"),
    "c.swsp": ("sp", "second", ""), "c.sdsp": ("sp", "second", ""),
}
TABLE = [
    "lui", "auipc", "jal", *(it for rows in BY_FUNCT3.values() for it in rows.values()),
    *BY_FUNCT7.values(), *WORDS.values(), "sfence.vma",
    *(f"{it}.{width}" for it in BY_FUNCT5.values() for width in "wd"), *COMPRESSED,
]
ILLEGAL = "illegal"


@functools.lru_cache(1 << 16)
def name_of(bits):
    """The instruction of the judge's table under --bits on that a word is, or ILLEGAL."""
    if bits & 3 != 3:
        return compressed_name(bits) if bits & 0xFFFF else ILLEGAL
    opcode, funct3, funct7 = bits & 0x7F, bits >> 12 & 7, bits >> 25
    if opcode in (0x37, 0x17, 0x6F):
        return {0x37: "lui", 0x17: "auipc", 0x6F: "jal"}[opcode]
    if bits in WORDS:
        return WORDS[bits]
    if opcode == 0x73 and funct7 == 9 and funct3 == 0 and bits >> 7 & 31 == 0:
        return "sfence.vma"
    if opcode == 0x2F:
        name = BY_FUNCT5.get(bits >> 27)
        if name is None or funct3 not in (2, 3) or name == "lr" and bits >> 20 & 31:
            return ILLEGAL
        return f"{name}.{'wd'[funct3 - 2]}"
    if opcode == 0x13:
        funct7 &= ~1
    key = opcode, funct3, funct7
    return BY_FUNCT3.get(opcode, {}).get(funct3) or BY_FUNCT7.get(key) or BITS_BY_FUNCT7.get(key) \
        or BITS_BY_FUNCT12.get((opcode, funct3, bits >> 20), ILLEGAL)


def compressed_name(bits):
    rd, second, funct3 = bits >> 7 & 31, bits >> 2 & 31, bits >> 13 & 7
    immediate = second | bits >> 12 & 1
    match bits & 3, funct3:
        case 0, 0:
            return "c.addi4spn" if bits >> 5 & 0xFF else ILLEGAL
        case 0, 2 | 3 | 6 | 7:
            return {2: "c.lw", 3: "c.ld", 6: "c.sw", 7: "c.sd"}[funct3]
        case 1, 0 | 2 | 5 | 6 | 7:
            return {0: "c.addi", 2: "c.li", 5: "c.j", 6: "c.beqz", 7: "c.bnez"}[funct3]
        case 1, 1:
            return "c.addiw" if rd else ILLEGAL
        case 1, 3:
            return ("c.addi16sp" if rd == 2 else "c.lui") if immediate else ILLEGAL
        case 1, 4 if bits >> 10 & 3 < 3:
            return ("c.srli", "c.srai", "c.andi")[bits >> 10 & 3]
        case 1, 4:
            names = ("c.sub", "c.xor", "c.or", "c.and", "c.subw", "c.addw", ILLEGAL, ILLEGAL)
            return names[bits >> 10 & 4 | bits >> 5 & 3]
        case 2, 0:
            return "c.slli"
        case 2, 2 | 3:
            return ("c.lwsp" if funct3 == 2 else "c.ldsp") if rd else ILLEGAL
        case 2, 6 | 7:
            return "c.swsp" if funct3 == 6 else "c.sdsp"
        case 2, 4 if bits >> 12 & 1:
            return "c.add" if second else "c.jalr" if rd else "c.ebreak"
        case 2, 4:
            return "c.mv" if second else "c.jr" if rd else ILLEGAL
    return ILLEGAL


# ---- registers and accesses

# By opcode: whether rs1, rs2 and rd are registers. Of FENCE and SYSTEM they are so by the name.
REGISTERS = {
    0x37: "d", 0x17: "d", 0x6F: "d", 0x67: "1d", 0x63: "12", 0x03: "1d", 0x23: "12", 0x13: "1d",
    0x1B: "1d", 0x33: "12d", 0x3B: "12d", 0x2F: "12d", 0x73: "", 0x0F: "",
}
REGISTERS_BY_NAME = {
    "zext.h": "1d", "lr.w": "1d", "lr.d": "1d", "sfence.vma": "12",
    **dict.fromkeys(("csrrw", "csrrs", "csrrc"), "1d"),
    **dict.fromkeys(("csrrwi", "csrrsi", "csrrci"), "d"),
}
# Where the offset of a compressed access stands: (high, low, shift) of each part.
OFFSETS = {
    "c.lw": ((12, 10, 3), (6, 6, 2), (5, 5, 6)), "c.ld": ((12, 10, 3), (6, 5, 6)),
    "c.lwsp": ((12, 12, 5), (6, 4, 2), (3, 2, 6)), "c.ldsp": ((12, 12, 5), (6, 5, 3), (4, 2, 6)),
    "c.swsp": ((12, 9, 2), (8, 7, 6)), "c.sdsp": ((12, 10, 3), (9, 7, 6)),
}
OFFSETS |= {"c.sw": OFFSETS["c.lw"], "c.sd": OFFSETS["c.ld"]}
ACCESS = re.compile(r"(?:c\.)?(?:(l)|(s))([bhwd])u?(?:sp)?|(lr|sc|amo\w+)\.([wd])")
KINDS = {"lr": "load-reserved", "sc": "store-conditional"}


class Access(NamedTuple):
    """An access to memory, at the offset from the register base. data is the register that is stored,
    or None."""

    kind: str  # load, store, atomic, load-reserved, store-conditional
    size: int
    base: int
    offset: int
    data: int | None


class Instruction(NamedTuple):
    """The registers that are read as rs1 and rs2, None where none is, rd, 0 where there is none, and
    the access to memory. One that is none of the table has nothing of that."""

    name: str
    rs1: int | None = None
    rs2: int | None = None
    rd: int = 0
    access: Access | None = None

    @property
    def size(self):
        """The bytes of the access, 0 where there is none."""
        return self.access.size if self.access else 0


def signed(value, bits):
    return value - (1 << bits) if value >> bits - 1 & 1 else value


def gathered(bits, *places):
    """Bits of an instruction put together: each place is (high, low, shift)."""
    return sum((bits >> low & (1 << high - low + 1) - 1) << to for high, low, to in places)


@functools.lru_cache(1 << 16)
def decoded(bits):
    """What an instruction reads, writes and accesses."""
    name = name_of(bits)
    if name == ILLEGAL:
        return Instruction(name)
    rs1, rs2, rd = (plain_registers if bits & 3 == 3 else compressed_registers)(bits, name)
    found = ACCESS.fullmatch(name)
    return Instruction(name, rs1, rs2, rd, found and access_of(bits, found, rs1, rs2))


def plain_registers(bits, name):
    which = REGISTERS_BY_NAME.get(name, REGISTERS[bits & 0x7F])
    return (bits >> 15 & 31 if "1" in which else None, bits >> 20 & 31 if "2" in which else None,
            bits >> 7 & 31 if "d" in which else 0)


def compressed_registers(bits, name):
    places = {"whole": bits >> 7 & 31, "second": bits >> 2 & 31, "high": 8 + (bits >> 7 & 7),
              "low": 8 + (bits >> 2 & 7), "sp": 2, "ra": 1}
    rs1, rs2, rd = (places.get(it) for it in COMPRESSED[name])
    return rs1, rs2, rd or 0


def access_of(bits, found, rs1, rs2):
    """The access of an instruction whose name ACCESS has found."""
    load, _, letter, atomic, width = found.groups()
    size = 1 << "bhwd".index(letter or width)
    if atomic:
        return Access(KINDS.get(atomic, "atomic"), size, rs1, 0, rs2)
    if bits & 3 != 3:
        offset = gathered(bits, *OFFSETS[found[0]])
    elif load:
        offset = signed(bits >> 20, 12)
    else:
        offset = signed(gathered(bits, (31, 25, 5), (11, 7, 0)), 12)
    return Access("load" if load else "store", size, rs1, offset, rs2)
