"""What the campaign must reach; a part of campaign.py.

Each is a kind and a name under which it is counted. What is counted and not listed is only printed.
"""
from campaign_code import ALL_NAMES
from campaign_hart import UNARY
from hart_bits import BITS
from hart_choices import VALUES
from hart_registers import ADDRESSES, INTERRUPT_ORDER
from judge import CHOSEN, CSRS, PLAIN, WIDTHS

CAUSES = (1, 2, 3, 4, 5, 6, 7, 8, 9, 11, 12, 13, 15)
SIZES = ("4 KiB", "2 MiB", "1 GiB")
KINDS = ("fetch", "load", "store")


def registers():
    for address, name in ADDRESSES.items():
        yield "register read", name
        if address >> 10 != 3:
            yield "register written", name
        yield "register refused", name
    yield "register refused", "unknown"


def traps():
    for cause in CAUSES:
        yield "trap", f"{cause} to M"
        if cause != 11:
            yield "trap", f"{cause} to S"
    for code in INTERRUPT_ORDER:
        for way in ("direct", "vectored"):
            yield "interrupt", f"{code} to M, {way}"
            if code in (1, 5, 9):
                yield "interrupt", f"{code} to S, {way}"
    for mode in "MSU":
        yield "interrupt", f"from {mode}"
        yield "mode", mode


def pages():
    for kind in KINDS:
        for size in SIZES:
            for mode in "SU":
                yield "page", f"{size}: {kind} in {mode}"
        for why in (
            "not canonical", "V clear", "W without R", "reserved bits", "A, D or U of a table",
            "a table at level 0", "a right is missing", "not for U", "for U alone",
            "2 MiB misaligned", "1 GiB misaligned", "A clear",
        ):
            yield "page fault", f"{why}: {kind}"
        for what in ("table protected", "table outside RAM", "refused after the walk"):
            yield "page", f"{what}: {kind}"
    yield "page fault", "D clear: store"
    yield "page", "U page in S under SUM"
    yield "page", "X page read under MXR"
    yield "page", "load in M under MPRV"
    yield "page", "store in M under MPRV"


def protection():
    for kind in ("TOR", "NA4", "NAPOT"):
        if kind != "NAPOT":  # whose 8 bytes and more no aligned access has in part
            yield "protection", f"{kind}: in part"
        yield "protection", f"{kind}: M, not locked"
        for how in ("granted", "refused"):
            for mode in ("S", "U", "locked, M", "locked, S", "locked, U"):
                yield "protection", f"{kind}: {mode} {how}"
    for what in (
        "OFF, with an address", "none: M", "none: S", "none: U", "lock: address",
        "lock: address below TOR", "lock: configuration", "W without R",
    ):
        yield "protection", what


def memory():
    for what in (
        "LR reserves", "LR traps", "SC stores", "SC stores elsewhere in the block",
        "SC fails by choice", "SC fails in another block", "SC fails, nothing reserved",
        "SC fails, translated", "SC traps",
    ):
        yield "reservation", what
    for kind in ("load", "store"):
        for length in (1, 2, 4, 8):
            yield "devices", f"{kind} of {length}"
    yield "devices", "atomic refused"
    yield "devices", "fetch refused"
    for what in ("load", "store", "load, atomic", "store, atomic"):
        yield "misaligned", what
    for what in (
        "over a page's end", "over a page's end, translated", "stored before FENCE.I",
        "stored, no FENCE.I", "second half refused, cause 1", "second half refused, cause 12",
    ):
        yield "code", what


def forms():
    for what in (
        "with rvfi_", "without rvfi_", "quotes", "blanks", "CR LF", "blank lines",
        "mark of the order of bytes", "unknown columns", "decimal", "hexadecimal", "row not valid",
        "empty fields",
    ):
        yield "form", what
    for name, most in (("workers", 3), ("segment", 7), ("window", 3)):
        for value in range(1, most + 1):
            yield "option", f"{name} {value}"
    yield "option", "window 1024"
    for name in ("ram", "io", "pc", "max-image", "max-trace"):
        yield "option", name
    for column in WIDTHS:
        yield "column", column


def verdicts():
    yield "verdict", "agrees"
    for column in PLAIN:
        if column != "halt":
            yield "differs", column
    for name in CSRS:
        yield "differs", f"csr_{name}_rdata"
        yield "differs", f"csr_{name}_wdata"
    for why in (
        "bad byte", "bad address", "outside RAM", "overlap", "open comment", "more than M bytes",
    ):
        yield "refused image", why
    for why in (
        "no header", "no column C", "column C twice", "stray return in header", "stray return",
        "wrong number of fields", "C empty", "C not a number", "C too wide", "line L too long",
        "more than M bytes",
    ):
        yield "refused trace", why
    for what in (
        "nothing", "altered value", "emptied field", "broken number", "too wide a number",
        "doubled row", "dropped row", "moved row", "altered image", "surplus field",
        "missing field", "stray return", "long line", "broken line",
    ):
        yield "altered", what


def choices():
    """What only cases reach whose cores choose by chance."""
    for name, choice in CHOSEN.items():
        for value in VALUES[choice]:
            yield "choice", f"{name} {value}"
    for kind, causes in (("load", (5, 13)), ("store", (7, 15))):
        for how in ("in one page", "over an edge", "over an edge, apart"):
            yield "misaligned", f"{kind}, done {how}"
        for cause in causes:
            yield "misaligned", f"{kind}, first part refused, cause {cause}"
            yield "misaligned", f"{kind}, second part refused, cause {cause}"
        yield "misaligned", f"{kind}, at a device"
    for what in ("fetch sets A", "load sets A", "store sets A and D", "store sets D"):
        yield "marks", what
    for kind in KINDS:
        yield "marks", f"{kind} may not set them"
    for name in BITS:
        yield "instruction", name
        for value in VALUES["bits"]:
            yield "bits", f"{name} {value}"
    for name in UNARY:
        yield "bits", f"{name} of 0"
    for name in ("CLZW", "CTZW", "CPOPW"):
        yield "bits", f"{name} of a low word of 0"
    for value in VALUES["bits"]:
        yield "altered", f"bits turned {value}"
        yield "bits", f"turned {value}: known to differ"
    yield "altered", "other choices"


def all_to_reach(with_choices):
    if with_choices:
        yield from choices()
    for name in (*ALL_NAMES, "illegal, 16 bits", "illegal, 32 bits"):
        yield "instruction", name
    for part in (registers, traps, pages, protection, memory, forms, verdicts):
        yield from part()
