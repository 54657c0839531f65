#!/usr/bin/env python3
"""Refuses memory, files, reads and writes to the program, one call after the other:
refused_memory.py [PROGRAM].

Each run below is made again and again, with the first of its calls for memory refused, the second,
and so on until it makes no such call; then so again with the call and all later ones refused. Every
answer must be the usual text and status, or status 6 with nothing written; but for one call for the
name of each file, which is refused as the file would be: status 5, with nothing written. So it goes
then with calls that open or read a file, where each refusal has to give status 5 with nothing
written, and with writes, where it has to give status 5 and a front of the usual text. Calls are
those of malloc and its kin, of open, read and write (tests/refuse_memory.c, loaded by LD_PRELOAD)
from main on; the program has no other way to memory and files, which its dynamic symbols tell. What
the loader and the C library take before main is let through: it is theirs, and the program has not
begun. At last each run is made under valgrind, which must find neither an error nor a byte that is
still held at the end.

PROGRAM is the built one where it is left out. Without gcc nothing is tried, and that is said;
without valgrind what it would show is left out, and that is said."""
import os
import shutil
import struct
import subprocess
import sys
import tempfile
from concurrent.futures import ThreadPoolExecutor
from pathlib import Path

HERE = Path(__file__).resolve().parent
TOP = HERE.parent
NOT_READ, OUT_OF_MEMORY = (5, ""), (6, "")
ALLOCATORS = {"malloc", "calloc", "realloc", "memalign", "aligned_alloc", "posix_memalign"}
FILE_CALLS = {"open", "read", "write"}
NOT_COUNTED = {"mmap", "mmap64", "mremap", "brk", "sbrk", "valloc", "pvalloc"}
NOT_COUNTED |= {"open64", "openat", "openat64", "fopen", "fopen64", "creat", "readv", "pread", "pread64", "writev"}
NOT_COUNTED |= {"pwrite", "pwrite64", "sendfile", "fread", "fwrite", "printf", "puts", "io_uring_setup"}
PAGED = [str(HERE / "refused_memory" / name) for name in ("paged.hex", "paged.csv")]
PAGED += ["--pc=2907778182", "--ram=2907750400:65536"]

REGISTER_ROWS = """insn,pc_rdata,trap,rd_wdata,csr_mscratch_wdata,csr_mtvec_rdata,csr_mcause_wdata
0xfff00093,0x80000000,0,0xffffffffffffffff,0,0,0
0x34009173,0x80000004,0,0,0xffffffffffffffff,0,0
0x340021f3,0x80000008,0,0xffffffffffffffff,0xffffffffffffffff,0,0
0x340ff273,0x8000000c,0,0xffffffffffffffff,0xffffffffffffffe0,0,0
0x00000297,0x80000010,0,0x80000010,0xffffffffffffffe0,0,0
0x30529373,0x80000014,0,0,0xffffffffffffffe0,0,0
0x00000073,0x80000018,1,,0xffffffffffffffe0,0x80000010,11
0x00000297,0x80000010,0,0x80000010,0xffffffffffffffe0,0x80000010,11
"""

CSRS = """mstatus medeleg mideleg mie mtvec stvec mcounteren scounteren menvcfg senvcfg
mcountinhibit mscratch sscratch mepc sepc mcause scause mtval stval mip satp pmpcfg0 pmpcfg2""".split()
CODE = bytes.fromhex("93005000")  # ADDI x1, x0, 5


def saved(pc, x1, *memory):
    """The text of a state at reset but for pc, x1 and these blocks, without the last line feed."""
    values = {f"x{at}": 0 for at in range(1, 32)} | {"x1": x1}
    values |= {f"csr_{name}": 0 for name in (*CSRS, *(f"pmpaddr{at}" for at in range(16)))}
    values["csr_mstatus"] = 0xA00000000
    lines = ["rvstate 1", f"pc {pc:016x}", "mode 3", "order none", "flags 00", "reserved none"]
    lines += [f"{name} {value:016x}" for name, value in values.items()]
    return "\n".join([*lines, *(f"@{at:016x} {data.hex():0<32}" for at, data in memory), "end"])


def executable(*segments):
    """An ELF file with the entry 0x80000000, each segment an address, bytes, a size in memory."""
    place = 64 + 56 * len(segments)
    head = b"\x7fELF\2\1\1" + bytes(9) + struct.pack(
        "<HHIQQQIHHHHHH", 2, 243, 1, 0x80000000, 64, 0, 0, 64, 56, len(segments), 0, 0, 0)
    for address, data, size in segments:
        head += struct.pack("<IIQQQQQQ", 1, 7, place, address, address, len(data), size, 1)
        place += len(data)
    return head + b"".join(data for _, data, _ in segments)


MEMORY = (0x80000000, CODE), (0x80003000, b"\1")
ELF = executable((0x80003000, b"\1", 9), (0x80000000, CODE, 0x2000))
FILES = {
    "one.elf": ELF,
    "cut.elf": ELF[:-1],
    "one.state": saved(0x80000000, 7, *MEMORY) + "\n",
    "bad.state": saved(0x80000000, 7, *MEMORY),
    "one.hex": "@80000000 93 00 50 00",
    "one.csv": "insn,pc_rdata,rd_addr,rd_wdata,pc_wdata\n0x00500093,0x80000000,1,5,0x80000004\n",
    "other.csv": "insn,pc_rdata,rd_addr,rd_wdata,pc_wdata\n0x00500093,0x80000000,1,6,0x80000004\n",
    "broken.csv": "insn,pc_rdata\n0x00500093,0x80000000\nzz,0x80000004\n",
    # ADDI x1, x0, -1; CSRRW x2, mscratch, x1; CSRRS x3, mscratch, x0; CSRRCI x4, mscratch, 31;
    # AUIPC x5, 0; CSRRW x6, mtvec, x5; ECALL, whose handler is the AUIPC
    "registers.hex": "@80000000 93 00 f0 ff 73 91 00 34 f3 21 00 34 73 f2 0f 34 97 02 00 00"
    " 73 93 52 30 73 00 00 00",
    "registers.csv": REGISTER_ROWS,
    # ADDI x1, x0, 5; ADDI x2, x1, 1; ADDI x3, x0, 3; ADDI x4, x0, 4; no row shows what was written,
    # so that each guess after the first row lacks x1
    "sums.hex": "@80000000 93 00 50 00 13 81 10 00 93 01 30 00 13 02 40 00",
    "sums.csv": """insn,pc_rdata,rs1_rdata
0x00500093,0x80000000,
0x00108113,0x80000004,5
0x00300193,0x80000008,
0x00400213,0x8000000c,
""",
    # lines of two rows, and the rows of two harts
    "ports.csv": """insn,pc_rdata,rd_wdata,insn_1,pc_rdata_1,rd_wdata_1
0x00500093,0x80000000,5,0x00108113,0x80000004,6
0x00300193,0x80000008,3,0x00400213,0x8000000c,4
""",
    "harts.csv": """hart,insn,pc_rdata,rd_wdata
0,0x00500093,0x80000000,5
1,0x00500093,0x80000000,5
1,0x00108113,0x80000004,6
0,0x00108113,0x80000004,6
""",
    # AUIPC x5, 0; LW x6, 1(x5), of the four bytes from the second on; ANDN x7, x5, x6
    "chosen.hex": "@80000000 97 02 00 00 03 a3 12 00 b3 f3 62 40",
    "chosen.csv": """insn,pc_rdata,rd_wdata
0x00000297,0x80000000,0x80000000
0x0012a303,0x80000004,0x3000002
0x4062f3b3,0x80000008,0x80000000
""",
    # ADDI x1, x0, 5; CSRRW x2, medeleg, x1; CSRRS x3, medeleg, x0, of which bit 0 alone is kept
    "profile.hex": "@80000000 93 00 50 00 73 91 20 30 f3 21 20 30",
    "profile.csv": """insn,pc_rdata,rd_wdata
0x00500093,0x80000000,5
0x30209173,0x80000004,0
0x302021f3,0x80000008,1
""",
    # the registers are not shown, so that each guess after the first segment is wrong
    "hidden.csv": """insn,pc_rdata
0xfff00093,0x80000000
0x34009173,0x80000004
0x340021f3,0x80000008
0x340ff273,0x8000000c
0x00000297,0x80000010
0x30529373,0x80000014
0x00000073,0x80000018
0x00000297,0x80000010
""",
}

WORKERS = ("--workers=1", "--workers=2", "--workers=4")
REGISTERS = ["judge", "registers.hex", "registers.csv"]
CHOICES = ["--misaligned=done", "--ad=set", "--mtval=zero", "--reserve=8", "--bits=on"]
PROFILE = ["--csr=medeleg=1,time=none,menvcfg=row", "--pmp=8", "--pmp-bits=40", "--lines=0xAAA"]
PROFILE += ["--io=0x1000:0x1000,0x10000:0x1000", "--io-faults=row", "--insn=length"]
# each: the words, the status and the text that are usual, or None: what it is without refusals
RUNS = [
    (["judge", "one.hex", "one.csv"], 0, "agrees 1"),
    (["judge", "one.hex", "other.csv"], 1,
     "differs row 1: rd_wdata expected 0x0000000000000005 found 0x0000000000000006"),
    (["judge", "one.elf", "one.csv"], 0, "agrees 1"),
    (["state", "one.elf", "one.csv"], 0, saved(0x80000004, 5, *MEMORY)),
    (["judge", "cut.elf", "one.csv"], 3, "refused image: elf segment 1: bad size"),
    (["judge", "one.state", "one.csv"], 0, "agrees 1"),
    (["state", "one.state", "one.csv"], 0, saved(0x80000004, 5, *MEMORY)),
    (["state", "one.state", "other.csv"], 1,
     "differs row 1: rd_wdata expected 0x0000000000000005 found 0x0000000000000006"),
    (["judge", "bad.state", "one.csv"], 3, "refused image: line 79: bad line"),
    (["judge", "one.hex", "broken.csv"], 4, "refused trace: row 2: insn not a number"),
    (["judge", "sums.hex", "sums.csv", "--segment=1"], 0, "agrees 4"),
    (["make", "7", "50"], 0, "made 7 50: agrees 50"),
    (["make", "7", "1000"], 0, "made 7 1000: agrees 1000"),
    (["make", "7", "50", "--segment=3", "--window=2"], 0, "made 7 50: agrees 50"),
    (REGISTERS, 0, "agrees 8"),
    ([*REGISTERS, "--segment=1", "--window=1"], 0, "agrees 8"),
    (["judge", "registers.hex", "hidden.csv", "--segment=2"], 0, "agrees 8"),
    (["judge", *PAGED], 0, "agrees 39"),
    (["judge", *PAGED, "--segment=1", "--window=1"], 0, "agrees 39"),
    (["judge", *PAGED, "--segment=5", "--window=3"], 0, "agrees 39"),
    (["state", *PAGED, "--segment=5", "--window=3"], 0, None),
    (["judge", "sums.hex", "ports.csv"], 0, "agrees 4"),
    (["judge", "sums.hex", "ports.csv", "--segment=1", "--window=2"], 0, "agrees 4"),
    (["judge", "sums.hex", "harts.csv", "--harts=2"], 0, "agrees 4"),
    (["judge", "sums.hex", "harts.csv", "--harts=2", "--segment=1", "--window=2"], 0, "agrees 4"),
    (["state", "sums.hex", "harts.csv", "--harts=2", "--segment=3"], 0, None),
    (["judge", "chosen.hex", "chosen.csv", *CHOICES], 0, "agrees 3"),
    (["judge", "chosen.hex", "chosen.csv", *CHOICES, "--segment=1"], 0, "agrees 3"),
    (["judge", "one.hex", "other.csv", "--origin"], 1, None),
    (["judge", *PAGED, "--origin", "--segment=5", "--window=3"], 0, "agrees 39"),
    (["judge", "profile.hex", "profile.csv", *PROFILE], 0, "agrees 3"),
    (["judge", "profile.hex", "profile.csv", *PROFILE, "--segment=1", "--window=2"], 0, "agrees 3"),
    (["judge", "one.hex", "one.csv", "--profile=qemu"], 0, "agrees 1"),
]


def answer(command, **how):
    """The status and what a command writes to standard output."""
    ran = subprocess.run(command, stdout=subprocess.PIPE, check=False, timeout=60, **how)
    return ran.returncode, ran.stdout.decode("latin-1")


def refused(command, library, kind, call, later):
    """The answer with this call of a kind refused, and whether there was such a call."""
    reads, writes = os.pipe()
    environment = {"LD_PRELOAD": library, "REFUSE_CALL": str(call), "REFUSE_TO": str(writes)}
    environment["REFUSE_KIND"] = kind
    if later:
        environment["REFUSE_LATER"] = "1"
    try:
        found = answer(command, env=os.environ | environment, pass_fds=(writes,))
    finally:
        os.close(writes)
    with open(reads, "rb") as pipe:
        return found, bool(pipe.read())


class Count:
    """How many calls were refused, what came of it, and what went wrong."""

    def __init__(self):
        self.refused = self.out_of_memory = self.wrong = 0

    def fail(self, words, text):
        self.wrong += 1
        print(f"rvjudge {' '.join(words)}: {text}", file=sys.stderr)


def refuse_memory(program, library, words, usual, count):
    """Refuses each call for memory of a run in turn, alone and with all later ones."""
    # an image that is refused is the only file that is opened
    files = 0 if words[0] == "make" else 1 if usual[0] == 3 else 2
    for later in (False, True):
        call, was_made, not_read = 0, True, 0
        while was_made:
            call += 1
            found, was_made = refused([program, *words], library, "memory", call, later)
            count.refused += was_made
            count.out_of_memory += found == OUT_OF_MEMORY
            not_read += found == NOT_READ
            lawful = (usual, OUT_OF_MEMORY, NOT_READ) if was_made else (usual,)
            if found not in lawful:
                count.fail(words, f"call {call}{' and later' if later else ''} refused: {found}")
        if call == 1:
            count.fail(words, "no call was refused")
        if not_read != files:
            count.fail(words, f"status 5 came for {not_read} calls, and it has {files} files")


def refuse_files(program, library, words, usual, count):
    """Refuses each opening, reading and writing of a run in turn, alone and with all later ones."""
    for kind in ("open", "read", "write"):
        for later in (False, True):
            call, was_made = 0, True
            while was_made:
                call += 1
                found, was_made = refused([program, *words], library, kind, call, later)
                count.refused += was_made
                status, text = found
                if was_made and kind == "write":
                    is_lawful = status == 5 and usual[1].startswith(text)
                else:
                    is_lawful = found == (NOT_READ if was_made else usual)
                if not is_lawful:
                    count.fail(words, f"{kind} {call}{' and later' if later else ''} refused: {found}")
            if call == 1 and (kind == "write" or words[0] != "make"):
                count.fail(words, f"no {kind} was refused")


def look_for_leaks(program, words, usual, count):
    """Makes a run under valgrind."""
    kinds = ["--show-leak-kinds=all", "--errors-for-leak-kinds=all", "--error-exitcode=99"]
    command = ["valgrind", "-q", "--leak-check=full", *kinds, program, *words]
    with tempfile.TemporaryFile() as log:
        found = answer(command, stderr=log)
        log.seek(0)
        if found != usual:
            count.fail(words, f"under valgrind {found}:\n{log.read().decode()}")


def check_symbols(program, count):
    """Holds the program to the calls that the library counts."""
    _, text = answer(["nm", "-D", "--undefined-only", program])
    names = {line.split()[-1].partition("@")[0] for line in text.splitlines() if line}
    if not names & ALLOCATORS or not FILE_CALLS <= names or names & NOT_COUNTED:
        known = ALLOCATORS | FILE_CALLS | NOT_COUNTED
        count.fail(["(symbols)"], f"takes memory and files by {sorted(names & known)}")


def built():
    """The built program."""
    subprocess.run([TOP / "bin" / "rvjudge"], stdout=subprocess.DEVNULL, check=False)
    return str(TOP / "crates" / "rvjudge" / "out" / "rvjudge")


def try_run(program, library, words, usual, count):
    status, text = usual
    usual = status, answer([program, *words])[1] if text is None else f"{text}\n"
    refuse_memory(program, library, words, usual, count)
    refuse_files(program, library, words, usual, count)
    if shutil.which("valgrind"):
        look_for_leaks(program, words, usual, count)


def try_all(program, folder, count):
    """Tries every run, some side by side."""
    library = f"{folder}/refuse.so"
    source = HERE / "refuse_memory.c"
    flags = ["-shared", "-fPIC", "-O2", "-Wall"]
    subprocess.run(["gcc", *flags, "-o", library, source, "-ldl"], check=True)
    for name, text in FILES.items():
        (Path(folder) / name).write_bytes(text if isinstance(text, bytes) else text.encode())
    os.chdir(folder)
    with ThreadPoolExecutor(os.cpu_count()) as pool:
        tried = [
            pool.submit(try_run, program, library, [*words, workers], usual, count)
            for words, *usual in RUNS for workers in WORKERS
        ]
        for one in tried:
            one.result()
    os.chdir(HERE)


def main():
    if not shutil.which("gcc"):
        print("refused_memory: not tried, since gcc, which makes the library, is missing")
        return 0
    program = os.path.abspath(sys.argv[1]) if len(sys.argv) > 1 else built()
    if not os.access(program, os.X_OK):
        sys.exit(f"refused_memory: there is no program {program}")
    count = Count()
    check_symbols(program, count)
    with tempfile.TemporaryDirectory() as folder:
        try_all(program, folder, count)
    if not shutil.which("valgrind"):
        print("refused_memory: leaks were not looked for, since valgrind is missing")
    print(
        f"refused_memory: {count.refused} calls refused, {count.out_of_memory} times status 6, "
        f"{count.wrong} answers wrong"
    )
    return 1 if count.wrong else 0


if __name__ == "__main__":
    sys.exit(main())
