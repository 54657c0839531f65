"""Cores with registers, protection, lines and devices of their own; a part of campaign.py."""
from dataclasses import replace

import hart_profile
from campaign_text import option, spelled
from hart_choices import CAUSES_WITH_VALUE
from hart_instructions import LOADS, MASK
from hart_memory import PAGE, Ranges
from hart_profile import LAWFUL, LINES, SD, SEVERAL, WORDS, WRITABLE, Bits, Profile
from hart_registers import ADDRESSES, M, S, U
from judge import PROFILE
from profile_words import MOST_RANGES, PHYSICAL_END

TOLD = list(dict.fromkeys((*LAWFUL, *(name for names in WORDS.values() for name in names))))
MODES = {U: "U", S: "S", M: "M"}
FAMILY = {one: name for name, ones in SEVERAL.items() for one in ones}
# what is planted that a profile rules out
PLANTED = OUTSIDE, MISSING, HALF = "value outside of a mask", "missing register that is there", "other 16 bits"


# What cores have.


def pick_bits(chance, name):
    """The bits that a register has."""
    lawful, usual = LAWFUL[name], WRITABLE[name]
    some, few = chance.getrandbits(64), chance.getrandbits(64) & chance.getrandbits(64)
    fixed = lawful.fixed & chance.pick((0, 0, some, few))
    wanted = chance.pick((MASK, usual, usual ^ 1 << chance.below(64), chance.getrandbits(64)))
    return Bits(lawful.mask & (wanted | lawful.needed) & ~fixed, fixed)


def pick_registers(chance):
    """What a profile tells of registers."""
    share, told = chance.pick((0, 0.1, 0.3, 0.6)), {}
    for name in TOLD:
        if chance.random() < share:
            words = [word for word, names in WORDS.items() if name in names]
            is_word = words and (name not in LAWFUL or chance.one_in(2))
            told[name] = chance.pick(words) if is_word else pick_bits(chance, name)
    if chance.one_in(6):  # so that S and U can come to all counters
        told |= {name: Bits(LAWFUL[name].mask) for name in ("mcounteren", "scounteren")}
    return told


def pick_profile(chance, ram):
    """The profile of a core whose entries of protection mostly reach over this RAM."""
    few = max(10, (ram.stop - 1).bit_length() - 2)
    return Profile(
        pick_registers(chance),
        pmp_entries=chance.pick((16, 16, 8, 8, 0)),
        pmp_bits=chance.pick((54, 54, few, min(few + 1, 54), 10 + chance.below(45))),
        **{name: chance.pick(hart_profile.VALUES[name]) for name in ("lines", "io_faults", "insn")},
    )


def pick_ranges(chance, ram):
    """Some ranges of devices, which have no byte in common with RAM or with one another."""
    found = Ranges()
    for _ in range(chance.pick((0, 1, 2, 2, 3, 5, 8, 14))):
        size = PAGE * chance.pick((1, 1, 2, 16))
        beside = (at for one in found for at in (one.stop, one.start - size))
        base = chance.pick((
            0x10000000, ram.stop, ram.start - size, PAGE * chance.getrandbits(44), 1 << 30, *beside,
        ))
        more = Ranges((*found, range(base, base + size)))
        is_fit = base >= 0 and base + size <= PHYSICAL_END and not Ranges((ram, *more)).meet()
        found = more if is_fit and len(more) <= MOST_RANGES else found
    return found


def with_profile(chance, setting):
    """A setting whose core has a profile of its own."""
    told = setting.choices.trap_values
    if chance.one_in(2):
        causes = sorted(CAUSES_WITH_VALUE)
        told = frozenset(chance.sample(causes, 1 + chance.below(len(causes))))
    choices = replace(setting.choices, profile=pick_profile(chance, setting.ram), trap_values=told)
    return setting._replace(choices=choices, devices=pick_ranges(chance, setting.ram))


def alter_profile(chance, setting):
    """The setting with another profile, or one part of it as it is by default."""
    if chance.one_in(3):
        return with_profile(chance, setting)
    if chance.one_in(4) and setting.devices:
        devices = list(setting.devices)
        devices.pop(chance.below(len(devices)))
        return setting._replace(devices=Ranges(devices))
    part, profile = chance.pick(list(PROFILE.values())), setting.choices.profile
    value = getattr(Profile(), part)
    if part == "csrs" and profile.csrs:
        left_out = chance.pick(list(profile.csrs))
        value = {name: how for name, how in profile.csrs.items() if name != left_out}
    return setting._replace(choices=replace(setting.choices, profile=replace(profile, **{part: value})))


# The words for that.


def bits_text(chance, bits):
    fixed = f":{spelled(chance, bits.fixed)}" if bits.fixed or chance.one_in(8) else ""
    return spelled(chance, bits.mask) + fixed


def in_any_order(chance, texts):
    texts = list(texts)
    chance.shuffle(texts)
    return ",".join(texts)


def registers_text(chance, told):
    return in_any_order(chance, (
        f"{name}={bits_text(chance, how) if isinstance(how, Bits) else how}" for name, how in told.items()
    ))


def profile_words(chance, choices, reached):
    """The options for a core's profile; the defaults are left out mostly."""
    for name, part in PROFILE.items():
        value = getattr(choices.profile, part)
        name = name.removeprefix("--")
        if part == "csrs":
            if value:
                yield option(chance, name, registers_text(chance, value))
                reached["option", name] += 1
            continue
        if part != "pmp_bits":
            reached["option", f"{name} {value}"] += 1
        if value != getattr(Profile(), part) or chance.one_in(6):
            reached["option", name] += 1
            yield option(chance, name, spelled(chance, value) if isinstance(value, int) else value)
    if isinstance(choices.trap_values, frozenset):
        causes = (spelled(chance, cause) for cause in sorted(choices.trap_values))
        yield option(chance, "mtval", f"zero:{in_any_order(chance, causes)}")
        reached["option", "mtval zero:C"] += 1


# What a row may not show.


def faults_of_row(chance, profile, row, retired):
    """What one row cannot show: a kind, a column, the value there, and the mask of what is compared."""
    instruction, insn = retired.instruction, row["insn"]
    if retired.bits is not None and retired.length == 2 and profile.insn == "length":
        yield HALF, "insn", insn ^ 1 << chance.below(16), 0xFFFF
    if instruction is None or not instruction.name.startswith("CSRR"):
        return
    name = ADDRESSES.get(instruction.csr)
    if retired.trap:
        if profile.words.get(name) == "none":
            yield MISSING, "trap", 0, 1
        return
    writable = profile.writable.get(name, MASK)
    outside = [bit for bit in range(64) if not writable >> bit & 1]
    is_adopted = name == "mip" or profile.words.get(name) == "row"
    is_told = writable != WRITABLE.get(name, MASK) and not is_adopted
    if instruction.rd and outside and is_told and row.get("rd_wdata") is not None:
        yield OUTSIDE, "rd_wdata", row["rd_wdata"] ^ 1 << chance.pick(outside), MASK


def plant(chance, profile, run):
    """Lets one row show what a core with this profile cannot; what was done, and the line that is due.

    None where there is no such row.
    """
    found = [
        (number, row, fault)
        for number, (kept, row) in enumerate(zip(run.history, run.rows), 1) if kept
        for fault in faults_of_row(chance, profile, row, kept[1])
        if fault[1] in run.columns and row.get(fault[1]) is not None
    ]
    if not found:
        return None
    number, row, (what, column, value, mask) = chance.pick(found)
    line = f"differs row {number}: {column} expected 0x{row[column] & mask:016x} found 0x{value & mask:016x}"
    row[column] = value
    return what, line


# What cases reach.


def count_profile(reached, hart, mode, retired, fields):
    """Counts what an instruction meets of its core's profile, which began in this mode, and what its row shows."""
    profile, zeroed = hart.choices.profile, hart.choices.trap_values
    if retired.trap and retired.trap.value and isinstance(zeroed, frozenset):
        told = "0" if retired.trap.cause in zeroed else "the value"
        reached["profile", f"cause {retired.trap.cause} tells {told}"] += 1
    if retired.length == 2 and (fields["insn"] or 0) >> 16:
        reached["profile", "more than the 16 bits is shown"] += 1
    if retired.instruction and retired.instruction.name.startswith("CSRR"):
        count_told(reached, hart, mode, retired, profile)
    count_device(reached, hart, retired)


def count_device(reached, hart, retired):
    """Counts what a device refused, and AMOs that it took."""
    name = retired.instruction.name if retired.instruction else ""
    kind = "AMO" if "." in name else "load" if name in LOADS else "store"
    if hart.core.refused:
        reached["devices", f"{kind} refused by the device"] += 1
    elif kind == "AMO" and retired.access and retired.access.place in hart.devices:
        reached["devices", kind] += 1


def count_told(reached, hart, mode, retired, profile):
    """Counts an access to a register that the profile tells of."""
    instruction = retired.instruction
    name = ADDRESSES.get(instruction.csr)
    family, done = FAMILY.get(name, name), uses_of(instruction)
    how = profile.csrs.get(family)
    is_there = hart.csrs.named(instruction.csr, mode, "written" in done) is not None
    if how is not None and (is_there or (how == "none" and mode == M)):
        kind = "of some bits" if isinstance(how, Bits) else how
        for what in ["refused"] if retired.trap else done:
            reached["profile", f"{family} {kind}: {what}"] += 1
    if retired.trap:
        if name and name.startswith("pmp") and not profile.pmp_entries:
            reached["profile", "entries of protection refused"] += 1
        return
    if name in ("mstatus", "sstatus") and retired.value & SD:
        reached["profile", f"SD of {name}"] += 1
    if family == "hpmcounter":
        reached["profile", f"hpmcounter in {MODES[mode]}"] += 1
    if name in ("mip", "sip") and retired.value & profile.lines & ~LINES:
        reached["profile", f"an added line in {name}"] += 1
    if name.startswith("pmpaddr") and "written" in done:
        count_entry(reached, int(name.removeprefix("pmpaddr")), profile)


def uses_of(instruction):
    """What an instruction does with a register: read, written or both."""
    reads = instruction.name[4] != "W" or instruction.rd
    writes = instruction.name[4] == "W" or instruction.rs1 or instruction.imm
    return [what for what, is_so in (("read", reads), ("written", writes)) if is_so]


def count_entry(reached, entry, profile):
    if entry >= profile.pmp_entries:
        reached["profile", "an entry past the last is written"] += 1
    elif profile.pmp_bits < 54:
        reached["profile", "an address of few bits is written"] += 1


def profiles_to_reach():
    yield from options_to_reach()
    for name in LAWFUL:
        for what in ("read", "written"):
            yield "profile", f"{name} of some bits: {what}"
    for word, names in WORDS.items():
        for name in names:
            if word != "row":
                yield "profile", f"{name} {word}: refused"
            if word != "none":
                yield "profile", f"{name} {word}: read"
    for cause in sorted(CAUSES_WITH_VALUE):
        for told in ("0", "the value"):
            yield "profile", f"cause {cause} tells {told}"
    for what in (
        "more than the 16 bits is shown", "entries of protection refused", "SD of mstatus", "SD of sstatus",
        "hpmcounter in S", "hpmcounter in U", "an added line in mip", "an added line in sip",
        "an entry past the last is written", "an address of few bits is written", "interrupt 1 by a line",
        "interrupt 5 by a line",
    ):
        yield "profile", what
    for mode in "SU":
        yield "protection", f"without entries: {mode}"
    for what in ("load", "store", "AMO"):
        yield "devices", f"{what} refused by the device"
    yield "devices", "AMO"
    for what in PLANTED:
        yield "altered", what
        yield "profile", f"{what}: known to differ"
    yield "altered", "other profile"


def options_to_reach():
    for name, part in PROFILE.items():
        name = name.removeprefix("--")
        yield "option", name
        if part in hart_profile.VALUES and part != "pmp_bits":
            for value in hart_profile.VALUES[part]:
                yield "option", f"{name} {value}"
    yield "option", "mtval zero:C"
    for count in range(1, MOST_RANGES + 1):
        yield "devices", f"{count} ranges"
        yield "devices", f"an access in range {count}"
