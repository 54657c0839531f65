#!/usr/bin/env python3
"""Tries what boot/boot.sh is made of: boot_test.py. The status is 1 where it failed."""
import os
import shutil
import subprocess
import sys
import tempfile
from pathlib import Path

CONTRIB = Path(__file__).resolve().parents[1]
BOOT = CONTRIB / "boot"
sys.path[:0] = [str(CONTRIB), str(BOOT)]
import memory_image  # noqa: E402  # found by the line before
import qemu_log  # noqa: E402

FULL = {it: 0x8000_0000_0000_0000 | 0x0123_4567_89AB * it for it in range(1, 32)}
failed = []


def expect(name, found, wanted):
    if found != wanted:
        failed.append(f"{name}: {found!r}, wanted {wanted!r}")


def log_of(registers, pc=0x80000000, mstatus=0xA00000000, mip=0x80):
    """A log as qemu writes it: a state in the boot ROM, and the one with which firmware begins."""
    text = "IN: \n0x0000000000001014:  00028067          jr                      t0\n\n"
    for at, values in ((0x1014, {}), (pc, registers)):
        text += f" pc       {at:016x}\n mhartid  {0:016x}\n mstatus  {mstatus:016x}\n"
        text += f" mip      {mip:016x}\n mcause   {0:016x}\n"
        for name in range(32):
            text += f" x{name}/r    {values.get(name, 0):016x}" + "\n" * (name % 4 == 3)
    return text


def first_state(folder, log, *words):
    """The status of first_state.py, what it passes on, and what it says."""
    ran = subprocess.run([sys.executable, BOOT / "first_state.py", folder / "words", *words],
                         input=log, capture_output=True, text=True, check=False)
    return ran.returncode, ran.stdout, ran.stderr.strip()


def start(folder, *words):
    """The lines of the state that is made, which differ from those at reset."""
    def lines(more):
        ran = subprocess.run([sys.executable, CONTRIB / "make_state.py", *words, *more],
                             capture_output=True, text=True, check=False)
        return ran.stdout.splitlines() or [ran.stderr.strip()]
    return sorted({*lines((folder / "words").read_text(encoding="ascii").split())} - {*lines([])})


def try_start(folder):
    for name, registers in (("all registers", FULL), ("no register", {}),
                            ("a few registers", {5: 1 << 31, 11: 0x83E00000})):
        log = log_of(registers)
        expect(name, first_state(folder, log), (0, log, ""))
        lines = sorted(f"x{it} {value:016x}" for it, value in registers.items())
        expect(name, start(folder), lines)
    log = log_of({10: 1}, 0x80200000, 0xA00001800, 0xA2)
    expect("other registers", first_state(folder, log, "--pc", "0x80200000"), (0, log, ""))
    expect("other registers", start(folder, "--pc", "0x80200000"), [
        "csr_mip 0000000000000022", "csr_mstatus 0000000a00001800", "x10 0000000000000001"])


def try_refusals(folder):
    log = log_of(FULL)
    for name, text, words, wanted in (
            ("a log that is cut off", log[:-20], (), "the log ends before 0x80000000"),
            ("another start", log, ("--pc", "0x80200000"), "the log ends before 0x80200000"),
            ("no start", log * 2000, ("--pc", "0x4"), "the boot ROM does not lead to 0x4"),
            ("a register is missing", log.replace(" x7/r ", " y7/r "), (),
             "the log shows a state without all registers")):
        expect(name, first_state(folder, text, *words), (1, "", f"first_state.py: {wanted}"))


def try_image(folder):
    memory = bytearray(5 * 4096)
    memory[0x20:0x52] = bytes(range(0x32))
    memory[2 * 4096 - 1:2 * 4096 + 1] = b"\1\2"
    memory[-1] = 3
    text = "".join(memory_image.image_text(bytes(memory), 0x80000000))
    path = folder / "memory.hex"
    path.write_text(text, encoding="ascii")
    found = qemu_log.image_bytes(path)
    expect("the bytes of an image", {at: it for at, it in found.items() if it},
           {0x80000000 + at: it for at, it in enumerate(memory) if it})
    expect("the lines of an image", [it for it in text.split("\n") if it.startswith("@")],
           ["@80000020", "@80001FF0", "@80004FF0"])
    expect("the bytes that are written", len(found), 7 * 16)


def try_statuses(folder):
    tools = folder / "tools"
    tools.mkdir()
    for tool in ("sh", "dirname", "readlink", "python3"):
        os.symlink(shutil.which(tool), tools / tool)
    for name, words, path, status, said in (
            ("no qemu", (), tools, 69, "qemu-system-misc"),
            ("rows that are no number", ("12x",), os.environ["PATH"], 68, "12x is no decimal")):
        ran = subprocess.run(["sh", BOOT / "boot.sh", *words], env={"PATH": str(path)},
                             capture_output=True, text=True, check=False)
        expect(name, (ran.returncode, ran.stdout, said in ran.stderr), (status, "", True))


def main():
    with tempfile.TemporaryDirectory() as name:
        folder = Path(name)
        try_start(folder)
        try_refusals(folder)
        try_image(folder)
        try_statuses(folder)
    for text in failed:
        print(f"boot: {text}", file=sys.stderr)
    return 1 if failed else 0


if __name__ == "__main__":
    sys.exit(main())
