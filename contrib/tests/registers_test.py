#!/usr/bin/env python3
"""Holds core_registers.py to the judge: registers_test.py PROGRAM. The status is 1 where it failed.

Of each word for a core's registers there are values that a register can have, and some that it
cannot. The judge reads a state with the one, and writes the same text, and refuses one with the
other; and make_state.py does so too.
"""
import re
import subprocess
import sys
import tempfile
from pathlib import Path

CONTRIB = Path(__file__).resolve().parents[1]
sys.path.insert(0, str(CONTRIB))
from core_registers import PROFILES, Refused, Registers  # noqa: E402  # found by the line before

ONES = (1 << 64) - 1
# The words; then for some registers values that are lawful, and such that are not.
CASES = (
    ("", {
        "mcounteren": ((0, 7), (8,)), "mip": ((0x222,), (1 << 7,)), "menvcfg": ((1,), (2,)),
        "mtvec": ((ONES - 2,), (2,)), "satp": ((8 << 60,), (9 << 60,)),
        "pmpaddr15": ((1 << 53,), (1 << 54,))}),
    ("--profile=qemu", {
        "mstatus": ((0xA007E61AA, 0xA00007E00), (0x8000000A00000000, 0xA00001000, 0xA00000001)),
        "medeleg": ((0xF0BFFF,), (0x4000,)), "mideleg": ((0x2222,), (0x444,)),
        "mie": ((0x2AAA,), (0x1000,)), "mcounteren": ((0xFFFFFFFF,), (1 << 32,)),
        "mcountinhibit": ((0xFFFFFFFD,), (2,)), "menvcfg": ((0xC0000000000000F1,), (2,)),
        "senvcfg": ((0xF1,), (1 << 63,)), "scounteren": ((0xFFFFFFFF,), (1 << 32,))}),
    ("--csr=mstatus=0x7E79AA --profile=qemu", {
        "mstatus": ((0xA00006000,), (0xA00000200,)), "mcounteren": ((7,), (8,)),
        "medeleg": ((0xB3FF,), (0xB7FF,))}),
    ("--csr=mstatus=0x19AA:0x6600", {
        "mstatus": ((0xA00006600, 0xA00007E00), (0xA00000000, 0xA00006200, 0xA00026600))}),
    ("--csr=medeleg=0:0xB109,mideleg=0x2:0x220", {
        "medeleg": ((0xB109,), (0, 0xB101, 0xB119)),
        "mideleg": ((0x220, 0x222), (0, 0x202, 0x1220))}),
    ("--csr=mcounteren=0x5:0x2,scounteren=0xFFFFFFFF:0,menvcfg=0xF0:1", {
        "mcounteren": ((2, 7), (0, 10)), "scounteren": ((0, 0xFFFFFFFF), (1 << 32,)),
        "menvcfg": ((1, 0xF1), (0, 0xF0, 3))}),
    ("--csr=satp=0xF0000FFFFFFFFFFF,mtvec=0xFFFFFFFFFFFFF000,stvec=0xFFFFFFFFFFFFFFFC", {
        "satp": ((0x80000FFFFFFFFFFF,), (0x8000100000000000, 0x9000000000000000)),
        "mtvec": ((0x80001000,), (0x80001004, 0x80001001)), "stvec": ((0x80001004,), (1,))}),
    ("--csr=mcounteren=none,mcountinhibit=row,menvcfg=row,senvcfg=none", {
        it: ((0,), (1, 4)) for it in ("mcounteren", "mcountinhibit", "menvcfg", "senvcfg")}),
    ("--csr=mcounteren=maybe,time=none,misa=row,mhpmcounter=maybe", {
        "mcounteren": ((0, 7), (8,)), "mcountinhibit": ((5,), (8,))}),
    ("--pmp=8", {
        "pmpcfg0": ((0x9F << 56,), (2,)), "pmpcfg2": ((0,), (1, 0x8F << 56)),
        "pmpaddr7": ((1 << 53,), ()), "pmpaddr8": ((0,), (1,)), "pmpaddr15": ((0,), (1 << 53,))}),
    ("--profile=rocket --pmp-bits=10", {
        "pmpaddr0": ((1 << 9,), (1 << 10,)), "pmpaddr8": ((0,), (1,))}),
    ("--profile=cva6 --pmp=0x10", {
        "pmpcfg2": ((0x9F,), (0x9E,)), "pmpaddr15": ((1 << 53,), (1 << 54,))}),
    ("--profile=spike", {"pmpaddr15": ((1,), ()), "medeleg": ((0xB3FF,), (0xF0BFFF,))}),
    ("--pmp=0", {"pmpcfg0": ((0,), (1,)), "pmpcfg2": ((0,), (1,)), "pmpaddr0": ((0,), (1,))}),
    ("--lines=0xA8A", {"mip": ((0, 0x220), (2, 0x222, 0x80))}),
    ("--lines=2728", {"mip": ((0x202,), (0x20,))}),
    ("--lines=0xAAA", {"mip": ((0x200,), (2, 0x20))}),
)
# Words that the judge refuses.
REFUSED = (
    "--profile=core", "--profile=QEMU", "--csr=", "--csr=mie", "--csr=mie=", "--csr=mie=0,",
    "--csr=mie=0,mie=0", "--csr=mcounteren=7,mcounteren=none", "--csr=mie=0x1",
    "--csr=mie=0:0x2", "--csr=mstatus=0", "--csr=mstatus=0x7FFFFF",
    "--csr=mstatus=0x7E7FAA:0x6000", "--csr=mtvec=0", "--csr=mtvec=0xFFFFFFFFFFFFFFFF",
    "--csr=satp=0", "--csr=mideleg=0:0x1000,mideleg=0", "--csr=mideleg=4",
    "--csr=mcounteren=0x100000000", "--csr=mcountinhibit=2",
    "--csr=medeleg=0x10000000000000000", "--csr=medeleg=1:1", "--csr=medeleg=1:",
    "--csr=medeleg=-1", "--csr=medeleg=0b1", "--csr=mscratch=0", "--csr=misa=none",
    "--csr=mhpmcounter=row", "--csr=mstatus=row", "--csr=cycle=0", "--csr=MIE=0",
    "--csr=mie=ROW", "--pmp=4", "--pmp=17", "--pmp=x", "--pmp-bits=9", "--pmp-bits=55",
    "--lines=0x222", "--lines=0xAAB", "--lines=0",
)
failed = []


def check(name, is_right, *more):
    if not is_right:
        failed.append(f"{name}: {' '.join(map(str, more))}")


def judge(program, folder, text, words):
    """The judge's status and answer, from a state with this text."""
    (folder / "state").write_text(text, encoding="ascii")
    ran = subprocess.run([program, "state", folder / "state", folder / "none.csv", *words],
                         capture_output=True, text=True, check=False)
    return ran.returncode, ran.stdout


def make_state(*words):
    ran = subprocess.run([sys.executable, CONTRIB / "make_state.py", *words],
                         capture_output=True, text=True, check=False)
    return ran.returncode, ran.stdout, ran.stderr


def table(words):
    """The words by their names."""
    return {name.removeprefix("--"): value for name, value in (it.split("=", 1) for it in words)}


def with_value(text, name, value):
    """A state with another value in a register, and the number of its line."""
    found = re.search(f"^csr_{name} .*\n", text, re.MULTILINE)
    changed = f"{text[:found.start()]}csr_{name} {value:016x}\n{text[found.end():]}"
    return changed, text[:found.end()].count("\n")


def try_lawful(program, folder, words, registers):
    """The values that registers can have, those of all registers at once; and those at reset."""
    turns = [{}]
    for turn in range(max(len(lawful) for lawful, _ in registers.values())):
        turns.append({it: lawful[turn % len(lawful)] for it, (lawful, _) in registers.items()})
    for values in turns:
        more = [f"--set={it}=0x{value:x}" for it, value in values.items()]
        title = " ".join([*words, *more])
        status, text, said = make_state(*words, *more)
        check(title, status == 0, "make_state.py:", said)
        for name, value in values.items():
            check(title, with_value(text, name, value)[0] == text, name)
        found = judge(program, folder, text, words)
        check(title, found == (0, text), "the judge:", found[0], found[1][:60])
        check(title, make_state(*words, folder / "state")[1] == text, "it is read otherwise")


def try_others(program, folder, words, registers):
    """The values that registers cannot have, one by one."""
    text, core, title = make_state(*words)[1], Registers(table(words)), ""
    for name, (_, others) in registers.items():
        for value in others:
            title = f"{' '.join(words)} --set={name}=0x{value:x}"
            state, line = with_value(text, name, value)
            found = judge(program, folder, state, words)
            wanted = 3, f"refused image: line {line}: bad value\n"
            check(title, found == wanted, "the judge:", found)
            check(title, core.fault_of(name, value), "core_registers.py takes it")
    check(title, make_state(*title.split())[0] == 1, "make_state.py takes it")
    check(title, make_state(*words, folder / "state")[0] == 1, "make_state.py reads it")


def try_cases(program, folder):
    for text, registers in CASES:
        words = text.split()
        try_lawful(program, folder, words, registers)
        try_others(program, folder, words, registers)


def try_words(program, folder):
    """Words that are refused; and those of a profile, which the judge takes one by one."""
    text = make_state()[1]
    for word in REFUSED:
        found = judge(program, folder, text, [word])
        check(word, found == (2, "refused words\n"), "the judge:", found)
        try:
            Registers(table([word]))
            check(word, False, "core_registers.py takes it")
        except Refused as fault:
            check(word, str(fault).startswith("--"), fault)
    found = make_state("--csr=mie")
    check("--csr=mie", found == (1, "", "make_state.py: --csr mie: the judge refuses it\n"), found)
    for name, words in PROFILES.items():
        words = [f"--{option}={value}" for option, value in words.items()]
        found = judge(program, folder, text, words)
        check(f"the words of {name}", found == (0, text), found)


def try_dirty():
    """Bit 63 of mstatus, as a simulator shows it: it is no part of a state."""
    for units in (0x600, 0x6000, 0x6600):
        wanted = make_state("--profile=qemu", f"--set=mstatus=0x{0xA00000000 + units:x}")
        found = make_state("--profile=qemu", f"--set=mstatus=0x{0x8000000A00000000 + units:x}")
        check(f"mstatus with 0x{units:x}", wanted[0] == 0 and found == wanted, found[2])


def try_reference():
    """The profiles are those that REFERENCE has, where it is there."""
    path = CONTRIB.parent / "docs" / "REFERENCE.md"
    if not path.exists():
        return
    text = path.read_text(encoding="utf-8").partition("### Profiles")[2]
    rows = re.findall(r"^\|(?: `(\w+)`)? \| (`--.*?`) \|", text, re.MULTILINE)
    found, name = {}, ""
    for core, words in rows:
        name = core or name
        option, value = words.replace("`", "").split(" ", 1)
        found.setdefault(name, {})[option.removeprefix("--")] = value.replace(" ", "")
    check("the profiles of REFERENCE", found == PROFILES, found)


def main():
    program = sys.argv[1]
    with tempfile.TemporaryDirectory() as name:
        folder = Path(name)
        (folder / "none.csv").write_text("insn,pc_rdata\n", encoding="ascii")
        try_cases(program, folder)
        try_words(program, folder)
    try_dirty()
    try_reference()
    for text in failed:
        print(f"registers: {text}", file=sys.stderr)
    return 1 if failed else 0


if __name__ == "__main__":
    sys.exit(main())
