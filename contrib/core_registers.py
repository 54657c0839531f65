"""What the control and status registers of a core can hold, by the judge's words that say it.

--csr, --pmp, --pmp-bits, --lines and --profile mean here what they mean to the judge, as
docs/REFERENCE.md has it ("Registers of a core", "Profiles"). What the judge refuses is refused. The
words, and what each register may have, are those of bin/words.tsv and bin/registers.tsv.
"""
from common import Refused, judge_words

ALL = judge_words.ALL
XLENS, SD = 0xA00000000, 1 << 63  # of mstatus: UXL and SXL, always 2; whether VS or FS is 3
FOR_S, SEIP = 0x222, 0x200  # SSIP, STIP and SEIP of mip can be stored; SEIP is a line besides
MOST_ENTRIES = 16  # of protection
# the registers of which --csr tells the bits
TOLD = {it.name: it for it in judge_words.REGISTERS.values() if it.may is not None}
# the registers of a saved state in its order, each with the bits that it can hold by default
CSRS = {name: bits.default for name, bits in TOLD.items() if name != "satp"} | {
    "mscratch": ALL, "sscratch": ALL, "mepc": ALL - 1, "sepc": ALL - 1, "mcause": ALL,
    "scause": ALL, "mtval": ALL, "stval": ALL, "mip": FOR_S, "satp": ALL,
    "pmpcfg0": 0x9F9F9F9F9F9F9F9F, "pmpcfg2": 0x9F9F9F9F9F9F9F9F,
    **{f"pmpaddr{it}": (1 << 54) - 1 for it in range(MOST_ENTRIES)},
}
NOT_HELD = ("row", "none")  # forms of registers that a state holds as 0
# the judge's words that a profile is short for
PROFILES = {
    "qemu": {
        "ad": "set", "misaligned": "done", "mtval": "zero:3",
        "csr": "mstatus=0x7E7FAA,medeleg=0xF0BFFF,mideleg=0x2222,mie=0x2AAA,mcounteren=0xFFFFFFFF,"
               "mcountinhibit=0xFFFFFFFD,menvcfg=0xC0000000000000F1,senvcfg=0xF1,"
               "scounteren=0xFFFFFFFF",
    },
    "spike": {"pmp": "16"}, "rocket": {"pmp": "8"}, "cva6": {"pmp": "8"},
}
# the words that say what registers hold, without their dashes
WORDS = {it: judge_words.WORDS[f"--{it}"] for it in ("profile", "csr", "pmp", "pmp-bits", "lines")}


def add_words(parser):
    """Gives a parser the judge's words for what registers hold."""
    group = parser.add_argument_group("what the core's registers hold, as the judge's words say it")
    for word in WORDS.values():
        group.add_argument(word.name, metavar=word.value, help=word.help_text())


class Registers:
    """The registers of a core: the bits that each can hold, and those of them that are always 1."""

    def __init__(self, words):
        """The words are a table from the names of WORDS to texts; None: it is not given."""
        said = {name: word.default or None for name, word in WORDS.items() if name != "profile"}
        if (name := words.get("profile")) is not None:
            if name not in PROFILES:
                raise Refused(f"--profile {name}: it is none of {', '.join(PROFILES)}")
            said |= PROFILES[name]
        said |= {name: text for name, text in words.items() if text is not None}
        self.held, self.fixed = dict(CSRS), {name: 0 for name in CSRS}
        self.held["mip"] &= ~chosen("lines", said["lines"]) | SEIP
        self.limit_protection(chosen("pmp", said["pmp"]), chosen("pmp-bits", said["pmp-bits"]))
        for name, mask, fixed in () if said["csr"] is None else told(said["csr"]):
            self.held[name], self.fixed[name] = mask | fixed, fixed
        self.held["mstatus"] |= XLENS
        self.fixed["mstatus"] |= XLENS

    def limit_protection(self, entries, bits):
        """Leaves so many entries of protection, with so many bits of an address."""
        for it in range(MOST_ENTRIES):
            self.held[f"pmpaddr{it}"] = (1 << bits) - 1 if it < entries else 0
        for first, name in ((0, "pmpcfg0"), (8, "pmpcfg2")):
            self.held[name] = self.held[name] if first < entries else 0

    def fault_of(self, name, value):
        """Why a register cannot have a value, or an empty text."""
        if not 0 <= value <= ALL:
            return "it has 64 bits"
        if over := value & ~self.held[name]:
            return f"bits 0x{over:x} are always 0"
        if name == "mstatus" and (value & XLENS != XLENS or value >> 11 & 3 == 2):
            return "UXL and SXL are 2, and MPP is 0, 1 or 3"
        if lacking := self.fixed[name] & ~value:
            return f"bits 0x{lacking:x} are always 1"
        if name == "satp" and value >> 60 not in (0, 8):
            return "its mode is 0 or 8"
        if name.startswith("pmpcfg") and any(it & 3 == 2 for it in value.to_bytes(8, "little")):
            return "an entry has W without R"
        return ""


def chosen(name, text):
    """The number that a word says."""
    try:
        judge_words.check_value(WORDS[name], text)
    except judge_words.Refused:
        raise Refused(f"--{name} {text}: the judge refuses it") from None
    return judge_words.number(text)


def told(text):
    """What a list of registers tells of those that a state has: the bits that a write changes, and
    those that are always 1. Of others it is looked at whether the judge takes it."""
    names = set()
    for item in text.split(","):
        name, _, what = item.partition("=")
        if name in names or judge_words.register_fault(name, what):
            raise Refused(f"--csr {item}: the judge refuses it")
        names.add(name)
        if what in NOT_HELD and name in CSRS:
            yield name, 0, 0
        elif what not in judge_words.FORMS:
            mask, _, fixed = what.partition(":")
            yield name, judge_words.number(mask), judge_words.number(fixed or "0")
