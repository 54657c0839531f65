#!/usr/bin/env python3
"""Holds explain.py to stored texts: explain_test.py PROGRAM, the judge. With UPDATE in the
environment it writes them anew. Each case alters the trace or the image of explain/ in one place.
Where the judge does not know --origin or --harts yet, the interpreter of benchmarks/ stands for one
that does.
"""
import gzip
import os
import subprocess
import sys
import tempfile
from pathlib import Path

TESTS = Path(__file__).resolve().parent
STORED = TESTS / "explain"
EXPLAIN = TESTS.parent / "explain.py"
sys.path.insert(0, str(TESTS.parent))
from qemu_log import image_bytes  # noqa: E402  # found by the line before
from small_elf import small_elf  # noqa: E402
INTERPRETER = TESTS.parents[1] / "benchmarks/interpreter/judge.py"
IO = ["--io", "0x10000000:0x1000"]
# By the stored text: the fields that are altered, by row and column; the bytes of the image; the
# judge's options.
CASES = {
    "wrong_alu_bit": ({(8, "rd_wdata"): "0x8"}, {}, IO),
    "lost_store": ({(14, "mem_rdata"): "0xc", (14, "rd_wdata"): "0xc"}, {}, IO),
    "wrong_trap": ({(15, "trap"): "0", (15, "rd_wdata"): "0"}, {}, IO),
    "missing_io": ({}, {}, []),
    "wrong_entry": ({}, {"c7 14 00 20": "47 14 00 20"}, IO),
    "compressed": ({(44, "rd_wdata"): "0x30"}, {}, IO),
}


def altered(text, fields):
    header, *rows = (line.split(",") for line in text.splitlines())
    for (row, column), value in fields.items():
        rows[row - 1][header.index(column)] = value
    return "".join(",".join(line) + "\n" for line in [header, *rows])


def explained(program, folder, image, trace, options, *words):
    """What explain.py prints of a trace, and its status."""
    (folder / "image.hex").write_text(image)
    (folder / "run.csv").write_text(trace)
    command = [sys.executable, EXPLAIN, "image.hex", "run.csv", "-p", program, "--elf",
               STORED / "program.elf", *words, "--", *options]
    ran = subprocess.run(command, cwd=folder, capture_output=True, text=True, check=False)
    assert ran.returncode in (0, 1), f"status {ran.returncode}: {ran.stderr}"
    return ran.stdout, ran.returncode


def try_case(name, program, folder):
    fields, swaps, options = CASES[name]
    image = (STORED / "image.hex").read_text()
    for old, new in swaps.items():
        assert old in image.lower(), f"{old} is not in the image"
        image = image.lower().replace(old, new)
    trace = altered((STORED / "run.csv").read_text(), fields)
    said, status = explained(program, folder, image, trace, options)
    assert status == 1, f"it agrees: {said}"
    stored = STORED / f"{name}.txt"
    if os.environ.get("UPDATE"):
        stored.write_text(said)
    assert said == stored.read_text(), f"it is not as stored in {stored.name}:\n{said}"


def try_forms(program, folder):
    """A trace that agrees, a packed one, a page and a marker."""
    image = (STORED / "image.hex").read_text()
    trace = (STORED / "run.csv").read_text()
    assert explained(program, folder, image, trace, IO) == ("agrees 46\n", 0)
    trace = altered(trace, CASES["wrong_alu_bit"][0])
    plain, _ = explained(program, folder, image, trace, IO, "--html", "page.html", "--gtkw", "w.vcd")
    page = (folder / "page.html").read_text()
    assert "<b>&gt; row 8" in page and "src=" not in page and "href=" not in page, page
    marker = (folder / "w.vcd.gtkw").read_text()
    assert "*-5.000000 121 -1" in marker, marker
    (folder / "run.csv.gz").write_bytes(gzip.compress(trace.encode()))
    packed = subprocess.run([sys.executable, EXPLAIN, "image.hex", "run.csv.gz", "-p", program,
                             "--elf", STORED / "program.elf", "--", *IO], cwd=folder,
                            capture_output=True, text=True, check=False).stdout
    assert packed == plain, packed
    missing = subprocess.run([sys.executable, EXPLAIN, "image.hex", "none.csv", "-p", program],
                             cwd=folder, capture_output=True, text=True, check=False)
    assert missing.returncode == 70 and "none.csv" in missing.stderr, missing


def try_choices(program, folder):
    """What explain.py tells under options for choices of the implementation."""
    image = "@80000000 3b 86 a5 08"  # add.uw a2,a1,a0
    trace = "insn,pc_rdata,mode,trap,rd_wdata\n0x8a5863b,0x80000000,3,0,1\n"
    said, _ = explained(program, folder, image, trace, [])
    assert "add.uw a2,a1,a0" in said and "add.uw is illegal without --bits on" in said, said
    said, _ = explained(program, folder, image, trace, ["--bits", "on"])
    assert "rd_wdata expected" in said and "rs1 a1 (x11)" in said and "illegal" not in said, said
    image = "@80000000 03 25 10 00"  # lw a0,1(zero)
    trace = "insn,pc_rdata,mode,trap,rd_wdata\n0x102503,0x80000000,3,0,1\n"
    for options, wanted in (([], "not aligned to 4 bytes (cause 4)"),
                            (["--misaligned=done"], "outside --ram 0x80000000:0x8000000"),
                            (["--profile", "qemu"], "outside --ram 0x80000000:0x8000000"),
                            (["--misaligned=done", "--io", "0x8000:0x1000,0:0x1000"],
                             "a device, and not aligned (cause 5)")):
        said, _ = explained(program, folder, image, trace, options)
        assert f"traps    {wanted}" in said, said
    image = "@80000000 2f 25 b0 00"  # amoadd.w a0,a1,(zero)
    trace = "insn,pc_rdata,mode,trap,rd_wdata,pc_wdata\n0xb0252f,0x80000000,3,0,1,0\n"
    for options, wanted in (([], "traps    a device, which takes no AMO (cause 7)"),
                            (["--io-faults", "row"], "device   in --io 0x0:0x1000, whose data are")):
        said, _ = explained(program, folder, image, trace, ["--io", "0:0x1000", *options])
        assert wanted in said, said
    image, trace, options = entry_without_mark()
    assert explained(program, folder, image, trace, [*options, "--ad", "set"]) == ("agrees 46\n", 0)


def entry_without_mark():
    """The image, the trace and the options of wrong_entry."""
    fields, swaps, options = CASES["wrong_entry"]
    image = (STORED / "image.hex").read_text().lower()
    for old, new in swaps.items():
        image = image.replace(old, new)
    return image, altered((STORED / "run.csv").read_text(), fields), options


def try_elf(program, folder):
    """An image that is an ELF file is explained as its text is."""
    image, trace, options = entry_without_mark()
    text, _ = explained(program, folder, image, trace, options)
    (folder / "text").write_text(image)
    by_address = image_bytes(folder / "text")
    start = min(by_address)
    data = bytes(by_address.get(it, 0) for it in range(start, max(by_address) + 1))
    (folder / "image.elf").write_bytes(small_elf(start, data))
    ran = subprocess.run([sys.executable, EXPLAIN, "image.elf", "run.csv", "-p", program, "--elf",
                          STORED / "program.elf", "--", *options], cwd=folder,
                         capture_output=True, text=True, check=False)
    assert ran.stdout == text, f"{ran.stdout} {ran.stderr}"


def try_state(program, folder):
    """A run from a saved state, which has the registers and the memory that no row shows."""
    for name, cut, wanted in (
        ("lost_store", 13, ["differs row 1: rd_wdata expected 0x000000000000000d",
                            "(x8) = 0x0000000080004018, as the saved state has it",
                            "memory   0x000000000000000d, as the image has it"]),
        ("wrong_entry", 40, ["differs row 2: trap", "satp     0x8000000000080001\n", "D is 0"]),
    ):
        fields, swaps, options = CASES[name]
        image, trace = (STORED / "image.hex").read_text().lower(), (STORED / "run.csv").read_text()
        for old, new in swaps.items():
            image = image.replace(old, new)
        lines = altered(trace, fields).splitlines(keepends=True)
        (folder / "front.hex").write_text(image)
        (folder / "front.csv").write_text("".join(lines[:1 + cut]))
        state = subprocess.run([program, "state", "front.hex", "front.csv", *options], cwd=folder,
                               capture_output=True, text=True, check=True).stdout
        said, _ = explained(program, folder, state, "".join([lines[0], *lines[1 + cut:]]), options)
        for line in [*wanted, "as the saved state and the trace have them"]:
            assert line in said, f"{line} is not in {said}"


def knowing(program, folder, *words):
    """The judge, or what stands for it where it does not know a word."""
    image, trace = (TESTS / f"examples/add.{it}" for it in ("hex", "csv"))
    ran = subprocess.run([program, "judge", image, trace, *words], capture_output=True, check=False)
    if ran.returncode != 2:
        return program
    return stand_in(folder / "interpreter", f"exec '{sys.executable}' '{INTERPRETER}' \"$@\"")


def stand_in(path, command):
    """A judge that is a command of the shell."""
    path.write_text(f"#!/bin/sh\n{command}\n")
    path.chmod(0o755)
    return str(path)


def try_origin(program, folder):
    """What the judge says with --origin stands in the place of what is searched; a judge that does
    not know the word is asked without it."""
    knows = knowing(program, folder, "--origin")
    old = stand_in(folder / "old", f"""case "$*" in *--origin*) echo refused words; exit 2 ;; esac
exec '{program}' "$@\"""")
    for name in CASES:
        for judge in (knows, old):
            try_case(name, judge, folder)
    # A load that traps, where trap is not shown: a row that writes nothing.
    # auipc t0,0; addi t0,t0,32; csrw mtvec,t0; lw a0,1(zero); and at mtvec c.mv a1,a0
    image = "@80000000 97 02 00 00 93 82 02 02 73 90 52 30 03 25 10 00\n@80000020 aa 85\n"
    trace = ("insn,pc_rdata,rd_wdata\n0x297,0x80000000,\n0x2028293,0x80000004,\n"
             "0x30529073,0x80000008,\n0x102503,0x8000000c,7\n0x85aa,0x80000020,7\n")
    for judge, wanted in ((knows, "(x10) = 0x0000000000000007, never written before"),
                          (old, "(x10) = 0x0000000000000007, written in row 4")):
        said, _ = explained(judge, folder, image, trace, [])
        assert said.startswith("differs row 5: rd_wdata") and wanted in said, said
    bad = stand_in(folder / "bad", f"'{program}' judge \"$2\" \"$3\"; echo origin of it; exit 1")
    ran = subprocess.run([sys.executable, EXPLAIN, "image.hex", "run.csv", "-p", bad], cwd=folder,
                         capture_output=True, text=True, check=False)
    assert ran.returncode == 70 and "the judge printed 'origin of it'" in ran.stderr, ran


def try_bytes(program, folder):
    """A word whose bytes come from the image and from a store."""
    image, trace = ((TESTS / f"examples/lanes.{it}").read_text() for it in ("hex", "csv"))
    for judge in (program, knowing(program, folder, "--origin")):
        said, _ = explained(judge, folder, image, trace, [])
        assert "memory   0xfe000000, bytes 0 to 2 as the image has it, byte 3 written in row 3 " \
            "at 0x80000008: sb t1,3(t0)\n" in said, said


def try_harts(program, folder):
    """Each hart has its registers, and memory is that of all."""
    judge = knowing(program, folder, "--harts", "2")
    image, trace = ((TESTS / f"examples/harts.{it}").read_text() for it in ("hex", "csv"))
    said, _ = explained(judge, folder, image, trace.replace(",7,7,80", ",7,6,80"), ["--harts", "2"])
    for line in (
            "differs row 10: rd_wdata expected 0x0000000000000007 found 0x0000000000000006",
            "      row 9      hart 0  0x000000008000001c  0072a023  sw t2,0(t0)",
            "    rs1 t0 (x5) = 0x0000000080001000, written in row 2 of hart 1 at 0x80000000: "
            "auipc t0,0x1",
            "    memory   0x00000007, written in row 9 of hart 0 at 0x8000001c: sw t2,0(t0)"):
        assert line in said, f"{line} is not in {said}"
    assert "t1 0000000000000001    t2 0000000000000000" in said, said
    # The row before that decides is one of the same hart.
    said, _ = explained(judge, folder, image, trace.replace("0x0,0x00700393,0x80000018",
                                                            "0x0,0x00700393,0x8000000c"),
                        ["--harts=2"])
    assert "goes on\n      row 5      hart 0  0x0000000080000008  00030863  beqz" in said, said


def main():
    program, failed = str(Path(sys.argv[1]).resolve()), 0
    with tempfile.TemporaryDirectory() as folder:
        for name, test in [*((it, try_case) for it in CASES), ("forms", try_forms),
                           ("choices", try_choices), ("elf", try_elf), ("state", try_state),
                           ("origin", try_origin), ("bytes", try_bytes), ("harts", try_harts)]:
            try:
                if name in CASES:
                    test(name, program, Path(folder))
                else:
                    test(program, Path(folder))
            except AssertionError as fault:
                print(f"contrib: FAILED: explain, {name}: {fault}", file=sys.stderr)
                failed += 1
    return int(failed > 0)


if __name__ == "__main__":
    sys.exit(main())
