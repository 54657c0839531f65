#!/usr/bin/env python3
"""Tries cover.py on traces whose content is known. Names each test that failed; status 1 then."""
import json
import re
import subprocess
import sys
import tempfile
from pathlib import Path

TESTS = Path(__file__).resolve().parent
COVER = TESTS.parent / "cover.py"
RUN = TESTS / "explain" / "run.csv"


def covered(folder, text, *words):
    """The report of a trace, what is printed, and the status."""
    trace, report = folder / "t.csv", folder / "report.json"
    trace.write_text(text)
    ran = subprocess.run([sys.executable, COVER, trace, "--json", report, *words],
                         capture_output=True, text=True, check=False)
    return (json.loads(report.read_text()) if ran.returncode != 2 else {}), ran


def faults(folder, text):
    report, ran = covered(folder, text)
    assert ran.returncode == (3 if report["lint"] else 0), ran
    return {it["fault"]: it["times"] for it in report["lint"]}


def test_without_lwu(folder):
    """A trace of each kind of load but LWU."""
    loads = [0x00000003 | at << 12 | 5 << 7 | 2 << 15 for at in range(7) if at != 6]
    text = "insn,pc_rdata,rd_addr,rd_wdata,mem_addr,mem_rmask\n" + "".join(
        f"0x{it:x},0x{0x80000000 + 4 * at:x},5,0,0x80001000,1\n" for at, it in enumerate(loads))
    report, ran = covered(folder, text)
    seen, never = report["seen"]["instructions"], report["never"]["instructions"]
    assert all(seen[it] == 1 for it in "lb lh lw ld lbu lhu".split()), seen
    assert "lwu" in never and "lw" not in never and "c.lw" in never, never
    assert ran.returncode == 0 and "    lwu," not in ran.stdout and " lwu," in ran.stdout, ran.stdout


def test_whole(folder):
    report, ran = covered(folder, RUN.read_text())
    seen = report["seen"]
    assert ran.returncode == 0 and report["valid rows"] == 46, ran
    assert seen["modes"] == {"M": 40, "S": 6}, seen
    assert seen["pages"] == {"4 KiB": 2} and seen["accesses"]["1 at 5"] == 1, seen
    assert seen["exceptions"] == {"of a cause that is not shown": 1, "breakpoint": 1}, seen
    assert seen["registers"]["satp"] == 1, seen
    assert "rs1_addr 34 of 46" in report["columns"]["partly filled"], report["columns"]
    assert "halt" in report["columns"]["not there"], report["columns"]


def test_causes(folder):
    text = (TESTS / "examples" / "interrupt.csv").read_text()
    seen = covered(folder, text)[0]["seen"]
    assert seen["exceptions"] == {"call from M": 1}, seen
    assert seen["interrupts"] == {"software (M)": 1}, seen


def test_lint(folder):
    text = RUN.read_text()
    header, *rows = text.splitlines(keepends=True)
    assert faults(folder, text) == {}
    found = faults(folder, text.replace("rd_wdata", "rd_data", 1))
    assert found == {
        "the judge does not know the column rd_data, the nearest is rd_wdata": 1,
        "rd_wdata is empty or missing where rd is not x0": 29}, found
    assert "the judge does not know the column RD_WDATA, the nearest is rd_wdata" in faults(
        folder, text.replace("rd_wdata", "RD_WDATA", 1))
    assert faults(folder, header) == {"no valid row": 1}
    assert faults(folder, "".join([header, *rows[:5], *rows[6:]])) == {
        "order is not the next number": 1}
    assert faults(folder, "insn,pc_rdata\n0x13,80000000\n") == {
        "pc_rdata is a number of 8 digits and more without 0x": 1}
    assert faults(folder, "insn,pc_rdata,valid,rd_wdata\n0x13,0x80000000,0,\n") == {
        "no valid row": 1}
    ran = covered(folder, text.replace("rd_wdata", "rd_data", 1), "--lint")[1]
    assert ran.returncode == 3 and ran.stdout.startswith("lint: 2 kinds of fault\n"), ran
    for bad in ("", "insn,pc_rdata\n0x13\n", "insn,pc_rdata\n0x13,x\n"):
        assert covered(folder, bad)[1].returncode == 2, bad


def test_harts(folder):
    """Each hart has an order and a trap of its own."""
    report, ran = covered(folder, (TESTS / "examples" / "harts.csv").read_text())
    assert ran.returncode == 0 and report["seen"]["harts"] == {"0": 5, "1": 5}, ran
    assert "harts:\n    0 5, 1 5\n" in ran.stdout, ran.stdout
    rows = ["0,0,0x73,0x80000000,3,1", "1,7,0x73,0x80000000,0,1", "0,1,0x13,0x80000040,3,0",
            "1,8,0x13,0x80000040,3,0", ",2,0x13,0x80000044,3,0", "1,,0x13,0x80000044,3,0",
            "1,10,0x13,0x80000048,3,0"]
    text = "".join(f"{it}\n" for it in ["hart,order,insn,pc_rdata,mode,trap", *rows])
    report, ran = covered(folder, text)
    assert ran.returncode == 0, ran.stdout
    assert report["seen"]["exceptions"] == {"call from M": 1, "call from U": 1}, report["seen"]
    assert faults(folder, text.replace("1,10,", "1,11,")) == {"order is not the next number": 1}
    assert faults(folder, text.replace("\n1,", "\n8,")) == {"hart is not 0 to 7": 4}
    assert faults(folder, text.replace("hart,", "hurt,")).keys() == {
        "the judge does not know the column hurt, the nearest is hart",
        "order is not the next number"}


def test_bits(folder):
    """Two instructions of bit manipulation that retire, and one that traps."""
    words = [0x08A5863B, 0x60259693, 0x0805C53B]  # add.uw a2,a1,a0; cpop a3,a1; zext.h a0,a1
    text = "insn,pc_rdata,trap,rd_wdata\n" + "".join(
        f"0x{it:x},0x{0x80000000 + 4 * at:x},{int(at == 2)},1\n" for at, it in enumerate(words))
    report = covered(folder, text)[0]
    assert report["seen"]["instructions"] == {"add.uw": 1, "cpop": 1}, report["seen"]
    assert report["seen"]["exceptions"] == {"illegal instruction": 1}, report["seen"]
    assert {"zext.h", "slli.uw"} <= set(report["never"]["instructions"]), report["never"]
    assert faults(folder, text.replace("rd_wdata", "halt").replace(",1\n", ",0\n")) == {
        "rd_wdata is empty or missing where rd is not x0": 2}
    plain = covered(folder, RUN.read_text())[0]["never"]["instructions"]
    whole = covered(folder, RUN.read_text(), "--bits", "on")[0]["never"]["instructions"]
    assert len(whole) == len(plain) + 40 and "sh1add" not in plain, whole


def test_illegal_words(folder):
    """The tools and the interpreter of benchmarks/ know the same instructions, and read them alike."""
    sys.path[:0] = [str(TESTS.parent), str(TESTS.parents[1] / "benchmarks/interpreter")]
    from instructions import BIT_MANIPULATION, ILLEGAL, decoded, name_of
    from hart_bits import decode_bits
    from hart_instructions import decode, expand
    words = [it for it in range(1 << 16) if it & 3 != 3]
    words += [0x33 | at * 0x01041 << 7 & 0xFFFFFF80 for at in range(3000)]
    words += [opcode | at << 12 | high << 25 for opcode in range(3, 128, 4) if opcode & 0x1C != 0x1C
              for at in range(8) for high in range(128)]
    words += [opcode | at << 12 | 0xB << 15 | high << 20 for opcode in (0x13, 0x1B, 0x33, 0x3B)
              for at in range(8) for high in range(1 << 12)]
    words += [opcode | at * 0x9E3779B1 % (1 << 25) << 7 for at in range(400)
              for opcode in (0x03, 0x13, 0x1B, 0x23, 0x2F, 0x37, 0x63, 0x67, 0x6F, 0x73)]
    names = set()
    for bits in words:
        plain = decode(bits) if bits & 3 == 3 else expand(bits)
        is_legal, name = plain is not None, name_of(bits)
        found = decode_bits(bits) if bits & 3 == 3 else None
        if found or plain:
            check_registers(bits, found or plain, decoded(bits))
        if found:
            assert name.upper().replace(".", "_") == found.name, f"0x{bits:x}: {name}, {found}"
            assert name in BIT_MANIPULATION and not is_legal, name
            names.add(name)
        else:
            assert (name != ILLEGAL) == is_legal, f"0x{bits:x}: {name}, {is_legal}"
    assert names == set(BIT_MANIPULATION) and len(names) == 40, names


def check_registers(bits, wanted, found):
    """An instruction reads and writes the registers, and accesses the place, that the other says; x0
    may stand for none."""
    registers = wanted.rs1 or 0, wanted.rs2 or 0, wanted.rd
    assert (found.rs1 or 0, found.rs2 or 0, found.rd) == registers, f"0x{bits:x}: {wanted}, {found}"
    if access := found.access:
        assert (access.base, access.data or 0) == registers[:2], f"0x{bits:x}: {wanted}, {found}"
        assert access.offset == getattr(wanted, "imm", 0), f"0x{bits:x}: {wanted}, {found}"
    assert bool(access) == bool(re.match("[LS][BHWD]U?$|LR|SC|AMO", wanted.name)), f"{wanted}, {found}"


def main():
    failed = 0
    for name, test in list(globals().items()):
        if name.startswith("test_"):
            with tempfile.TemporaryDirectory() as folder:
                try:
                    test(Path(folder))
                except AssertionError as fault:
                    print(f"contrib: FAILED: cover, {name}: {fault}", file=sys.stderr)
                    failed += 1
    return int(failed > 0)


if __name__ == "__main__":
    sys.exit(main())
