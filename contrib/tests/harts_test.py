#!/usr/bin/env python3
"""Tries what reads and writes rows of several harts: harts_test.py [PROGRAM [FOLDER]].

The log of qemu is that of harts.s with two harts, stored, and harts.hex is its image. What is
merged is made here, and cut out of the rows of that log. Where PROGRAM is given, a judge that knows
--harts, it judges them: whole, altered, and in pieces. So it does the runs of three programs with
four harts that are stored: a spin lock, a ticket lock and a queue. Where FOLDER is given, only the
runs of these three are tried, as qemu/four.sh left them there.
"""
import gzip
import re
import subprocess
import sys
import tempfile
from pathlib import Path
from typing import NamedTuple

TESTS = Path(__file__).resolve().parent
CONTRIB = TESTS.parent
sys.path.insert(0, str(CONTRIB))
import qemu_log  # noqa: E402  # found by the line before
from instructions import decoded, name_of  # noqa: E402

LOG, IMAGE = (TESTS / "qemu" / it for it in ("harts.log.gz", "harts.hex"))
IO = ["--io", "0x100000:0xff01000"]
MERGE = CONTRIB / "merge_rows.py"
START = 0x80000000
ORDER = "187 rows of 2 harts in 27 turns: 6 SC stored, 3 failed\n"
ROWS = 187
FOUR = [
    # a program of four harts, what the first hart loads to a0 at the end, how many SC store
    ("spin", 12, 12),
    ("ticket", 12, 0),
    ("queue", 0x050505050505, 36),
]
faults = []


def check(name, is_so, said=""):
    if not is_so:
        faults.append(name)
        print(f"harts: FAILED: {name}: {said}", file=sys.stderr)


def run(tool, *words, text=None):
    return subprocess.run([sys.executable, str(tool), *map(str, words)], input=text,
                          capture_output=True, encoding="latin-1")


def refused(name, wanted, ran):
    """A run that must fail with these words, and no trace of Python's."""
    check(name, ran.returncode == 1 and wanted in ran.stderr and "Traceback" not in ran.stderr,
          ran.stderr)


def log_to_rows(folder):
    """The log as rows, whose order is that of one memory."""
    log, out = gzip.decompress(LOG.read_bytes()).decode("latin-1"), folder / "qemu.csv"
    ran = run(CONTRIB / "qemu_log.py", "--harts", 2, "-o", out, text=log)
    check("qemu_log.py --harts 2", ran.returncode == 0
          and "2 harts: judge with --harts 2\n" in ran.stderr, ran.stderr)
    check("qemu_log.py --harts 2: its header", out.read_text().startswith("hart,intr,pc_rdata,"))
    ran = run(TESTS / "memory_order.py", out)
    check("the order of qemu's rows", ran.stdout == ORDER, ran.stdout + ran.stderr)
    return log, out


def other_orders(folder, out):
    """Rows in another order than that of memory are not held to be right."""
    header, *rows = out.read_text().splitlines(keepends=True)
    other = folder / "other.csv"
    other.write_text(header + "".join(sorted(rows, key=lambda it: it[:3])))
    refused("one hart after the other", "reads another byte", run(TESTS / "memory_order.py", other))
    other.write_text(out.read_text().replace(",0x7,0x1,0x80000050,", ",0x7,0x0,0x80000050,", 1))
    refused("an SC that did not fail", "an SC that was to fail stores",
            run(TESTS / "memory_order.py", other))


def faults_of_logs(log):
    tool = CONTRIB / "qemu_log.py"
    refused("two harts without --harts", "give --harts 2, or more", run(tool, text=log))
    without = "".join(it for it in log.splitlines(keepends=True) if not it.startswith("Trace"))
    refused("several harts without exec", "add exec to -d", run(tool, "--harts", 2, text=without))
    refused("harts that run at once", "run at once (several harts need -accel tcg,thread=single)",
            run(tool, "--harts", 2, text=log.replace("Trace 1:", "Trace 0:", 1)))
    ran = run(tool, "--harts", 9, text=log)
    check("nine harts", ran.returncode == 2 and "from 1 to 8" in ran.stderr, ran.stderr)
    ran = run(tool, "--harts", 3, text=log)
    check("a hart without a row", "hart 2 has no row" in ran.stderr, ran.stderr)
    ran = run(tool, "--harts", 2, "--without", "csr_medeleg_rdata,intr", text=log)
    check("columns that are left out", ran.returncode == 0 and ran.stdout.count("\n") == 188
          and ran.stdout.startswith("hart,pc_rdata,mode,"), ran.stderr)
    ran = run(tool, "--harts", 2, "--without", "hart", text=log)
    check("--without hart", ran.returncode == 2, ran.stderr)


def rows_that_wait(log):
    """A hart in WFI holds up no row of others; one that was left elsewhere does, until its turn."""
    turns = log.split("Trace 0:")
    one, rows = "Trace 0:".join(turns[:20]), []  # to the first hart's first WFI, and hart 1's turn
    converter = qemu_log.Converter([START], {}, 2, rows.append)
    qemu_log.Reader(converter).take(one)
    begun = one.count("Trace ") - one.count("Stopped execution")
    check("rows after a WFI", len(rows) == begun - 1 and not converter.harts[0].held, len(rows))


def values_at_start(log):
    """What the boot ROM left is told of each hart, by the command that makes the state."""
    ran = run(CONTRIB / "qemu_log.py", "--harts", 2, "--pc", "0x80000034", text=log)
    core = "--harts 2 --profile qemu"
    check("what is set at the start", f"/make_state.py IMAGE {core} --pc 0x80000034 --set 0:x5="
          in ran.stderr and "--set 1:x5=" in ran.stderr
          and f" judge start.rvstate TRACE {core}\n" in ran.stderr, ran.stderr)


def merged_again(folder, out):
    """The rows of each hart in a file of its own, merged by the number that each row had."""
    header, *rows = out.read_text().splitlines()
    whole, two = folder / "whole.csv", [folder / "0.csv", folder / "1.csv.gz"]
    whole.write_text("".join(f"{it}\n" for it in [
        f"{header},cycle", *(f"{row},{at}" for at, row in enumerate(rows))]))
    for hart, path in enumerate(two):
        text = "".join(it for it in whole.read_text().splitlines(keepends=True)
                       if it.startswith((f"0x{hart},", "hart,")))
        path.write_bytes(gzip.compress(text.encode()) if hart else text.encode())
    ran = run(MERGE, *two, "-o", folder / "merged.csv")
    check("merge_rows.py", ran.returncode == 0
          and "2 harts: judge with --harts 2\n" in ran.stderr, ran.stderr)
    check("merged rows", (folder / "merged.csv").read_text() == whole.read_text())
    ran = run(MERGE, two[1], "-", text=two[0].read_text())
    check("merged from standard input", ran.stdout == whole.read_text(), ran.stderr)
    bare = [folder / "bare0.csv", folder / "bare=1.csv"]
    for path, named in zip(bare, two):
        data = gzip.decompress(named.read_bytes()) if named.suffix == ".gz" else named.read_bytes()
        path.write_text("".join(it.partition(",")[2] for it in data.decode().splitlines(True)))
    ran = run(MERGE, f"{bare[0]}=0", f"{bare[1]}=1")
    check("merged by the harts that are named", ran.stdout == whole.read_text(), ran.stderr)


def documented():
    """The example of the documents."""
    examples = TESTS / "examples"
    ran = run(MERGE, f"{examples}/hart0.csv=0", f"{examples}/hart1.csv=1")
    check("harts.csv", ran.stdout == (examples / "harts.csv").read_text(), ran.stderr)


def files(folder, texts):
    """A file of each text, in which blanks end the lines."""
    paths = [folder / f"{name}.csv" for name in "abc"[:len(texts)]]
    for path, text in zip(paths, texts):
        path.write_text("".join(f"{it}\n" for it in text.split(" ")))
    return paths


PLACES = [
    # a name, the traces, further words, the rows
    ("ties", ["insn,hart,time 1,0,5 2,0,5 3,0,6", "insn,hart,time 4,1,5 5,1,0x6"], [],
     "insn,hart,time 1,0,5 2,0,5 4,1,5 3,0,6 5,1,0x6"),
    ("another tie", ["insn,hart,time 4,1,5", "insn,hart,time 1,0,5 2,0,5"], [],
     "insn,hart,time 4,1,5 1,0,5 2,0,5"),
    ("time before cycle", ["insn,hart,cycle,time 1,0,1,7", "insn,hart,cycle,time 2,1,2,6"], [],
     "insn,hart,cycle,time 2,1,2,6 1,0,1,7"),
    ("--by", ["insn,hart,seen,time 1,0,1,7", "insn,hart,seen,time 2,1,2,6"], ["--by", "seen"],
     "insn,hart,seen,time 1,0,1,7 2,1,2,6"),
    ("three, one of them empty", ["insn,hart,time", "insn,hart,time 1,7,2", "insn,hart,time 2,3,1"],
     [], "insn,hart,time 2,3,1 1,7,2"),
    ("rows that are not valid", ["valid,insn,hart,time 0,,, 1,1,0,4 0,,,", "valid,insn,hart,time "
                                 "1,2,1,4 0,,, 1,3,1,5"], [],
     "valid,insn,hart,time 0,,, 1,1,0,4 0,,, 1,2,1,4 0,,, 1,3,1,5"),
    ("lines for two ports", ["valid_0,insn_0,hart_0,time_0,valid_1,insn_1,hart_1,time_1 "
                             "0,,,,1,2,0,8 1,3,0,10,0,,,", "valid_0,insn_0,hart_0,time_0,valid_1,"
                             "insn_1,hart_1,time_1 1,4,1,9,1,5,1,9"], [],
     "valid_0,insn_0,hart_0,time_0,valid_1,insn_1,hart_1,time_1 0,,,,1,2,0,8 1,4,1,9,1,5,1,9 "
     "1,3,0,10,0,,,"),
    ("a hart that is not shown", ["insn,hart,time 1,,1", "insn,hart,time 2,1,0"], [],
     "insn,hart,time 2,1,0 1,,1"),
    ("quotes and a prefix", ['rvfi_insn,"hart",time 1,0,"2"', "insn,hart,rvfi_time 2,1,1"], [],
     'rvfi_insn,"hart",time 2,1,1 1,0,"2"'),
]
FAULTS = [
    # what is told, the traces, whether rows were written
    ("a.csv: line 3: time 4 comes after 5: it must not fall",
     ["insn,hart,time 1,0,5 2,0,4", "insn,hart,time 1,1,5"], True),
    ("b.csv: no column cycle, which", ["hart,insn,cycle 0,1,2", "hart,insn 0,1"], False),
    ("b.csv: a column note, which", ["hart,insn,time 0,1,2", "hart,insn,time,note 0,1,2,3"], False),
    ("b.csv: its columns have another order", ["hart,insn,time 0,1,2", "insn,hart,time 1,1,2"],
     False),
    ("a.csv: there is no column time or cycle", ["hart,insn 0,1", "hart,insn 1,1"], False),
    ("a.csv: there is no column hart: name its hart", ["insn,time 1,2", "insn,time 1,2"], False),
    ("hart 0 has two traces", ["hart,insn,time 0,1,2", "hart,insn,time 0,1,3"], False),
    ("a.csv: line 3: a row of hart 1, where the trace is of hart 0",
     ["hart,insn,time 0,1,2 1,1,3", "hart,insn,time 2,1,5"], True),
    ("b.csv: line 3: 2 fields under 3 names",
     ["hart,insn,time 0,1,2", "hart,insn,time 1,1,1 1,1"], True),
    ("a.csv: line 2: 'x' is no number", ["hart,insn,time 0,1,x", "hart,insn,time 1,1,1"], False),
    ("a.csv: line 2: no time", ["hart,insn,time 0,1,", "hart,insn,time 1,1,1"], False),
    ("take the ports apart", ["hart_0,insn_0,time_0,hart_1,insn_1,time_1 0,1,2,0,1,3"], False),
]


def merged(folder):
    for name, texts, words, wanted in PLACES:
        ran = run(MERGE, *files(folder, texts), *words)
        check(f"merge_rows.py, {name}", ran.stdout.split() == wanted.split(), ran)
    for wanted, texts, has_rows in FAULTS:
        ran = run(MERGE, *files(folder, texts))
        refused(f"merge_rows.py, {wanted}", wanted, ran)
        check(f"merge_rows.py ends what it wrote, {wanted}",
              ran.stdout.endswith("\nx\n") if has_rows else not ran.stdout, ran.stdout)
    lines = files(folder, ["insn_0,insn_1,time 1,2,3"])[0]
    ran = run(MERGE, f"{lines}=5")
    check("a hart for each port", ran.stdout == "hart_0,hart_1,insn_0,insn_1,time\n0x5,0x5,1,2,3\n")


def faults_of_files(folder):
    """Files that cannot be read, or are named as they must not be."""
    first, second = files(folder, ["hart,insn,time 0,1,2", "hart,insn,time 1,1,2"])
    refused("a hart that is not the column's", "a row of hart 0, where the trace is of hart 3",
            run(MERGE, f"{first}=3", second))
    refused("one hart twice", "hart 4 has two traces", run(MERGE, f"{first}=4", f"{second}=4"))
    refused("no header", "there is no header", run(MERGE, first, "-", text=""))
    refused("standard input twice", "for one trace alone", run(MERGE, "-", "-", text=""))
    refused("a trace that is written over", "so it cannot be written",
            run(MERGE, first, "-o", first))
    refused("a file that is not there", "none.csv", run(MERGE, first, folder / "none.csv"))
    first, other = files(folder, ["time,hart,insn 0,0,1", "time,hart,insn"])
    text = other.read_text() + "".join(f"7,1,{at ** 9}\n" for at in range(5000))
    packed = folder / "cut.csv.gz"
    packed.write_bytes(gzip.compress(text.encode())[:-2000])
    ran = run(MERGE, first, packed)
    refused("a packed trace that is cut off", "could not be unpacked", ran)
    check("its rows end with one that is refused", ran.stdout.endswith("\nx\n"))
    first.write_text(f'hart,insn,time\n0,"{"1" * 200000}",2\n')
    refused("a field that is too long", "a.csv: line 2: field larger", run(MERGE, first))
    first.write_text(f'hart,insn,time\n0,1,{"1" * 5000}\n')
    refused("a number that is too long", "is no number", run(MERGE, first))
    first.write_bytes(b"hart,insn,time\n0,\xff,2\n")
    refused("bytes that are no text", "a.csv: 'utf-8' codec", run(MERGE, first, second))
    ran = run(MERGE, "--help")
    check("--help", ran.returncode == 0 and "--harts" in ran.stdout)


class Judge:
    """The judge, with the words that the stored run needs."""

    def __init__(self, program, folder):
        self.program, self.folder = program, folder

    def said(self, image, rows, *words, command="judge"):
        """What it prints of rows, the header among them."""
        trace = self.folder / "judged.csv"
        trace.write_text("".join(f"{it}\n" for it in rows))
        return self.of_file(image, trace, *words, command=command)

    def of_file(self, image, trace, *words, command="judge"):
        ran = subprocess.run([self.program, command, image, trace, *words], capture_output=True,
                             text=True)
        return ran.stdout.removesuffix("\n")

    def wants(self, name, wanted, image, rows, *words):
        found = self.said(image, rows, *words)
        check(f"the judge, {name}", found == wanted, f"{found!r}, wanted {wanted!r}")


def altered(rows, row, **fields):
    """Rows with other fields in one of them."""
    names, texts = rows[0].split(","), rows[row].split(",")
    for name, text in fields.items():
        texts[names.index(name)] = text
    return [*rows[:row], ",".join(texts), *rows[row + 1:]]


def found_rows(rows, hart, insn):
    """The numbers of the rows of a hart that carry out an instruction."""
    names = rows[0].split(",")
    fields = ([*zip(names, it.split(","))] for it in rows[1:])
    return [at for at, it in enumerate(fields, 1)
            if ("hart", f"0x{hart:x}") in it and ("insn", insn) in it]


def judged(judge, out):
    """The run in qemu, whole and with altered rows."""
    rows, two = out.read_text().splitlines(), ["--harts", "2", *IO]
    judge.wants("whole", f"agrees {ROWS}", IMAGE, rows, *two)
    judge.wants("more harts than rows have", f"agrees {ROWS}", IMAGE, rows, "--harts", "8", *IO)
    judge.wants("one block of 8 bytes", f"agrees {ROWS}", IMAGE, rows, *two, "--reserve", "8")
    first = next(at for at, it in enumerate(rows) if it.startswith("0x1,"))
    judge.wants("one hart", f"refused trace: row {first}: hart not there", IMAGE, rows, *IO)
    judge.wants("a hart that is not there", "refused trace: row 60: hart not there", IMAGE,
                altered(rows, 60, hart="2"), *two)
    failed = found_rows(rows, 1, "0x186423af")[0]
    judge.wants("an SC that must fail", f"differs row {failed}: rd_wdata expected "
                "0x0000000000000001 found 0x0000000000000000", IMAGE,
                altered(rows, failed, rd_wdata="0x0"), *two)
    load = found_rows(rows, 1, "0x4a283")[0]
    judge.wants("a count that another hart has raised", f"differs row {load}: rd_wdata expected "
                "0x0000000000000003 found 0x0000000000000002", IMAGE,
                altered(rows, load, rd_wdata="0x2"), *two)
    wrong = judge.said(IMAGE, [rows[0], *sorted(rows[1:], key=lambda it: it[:3])], *two)
    check("the judge, one hart after the other", wrong.startswith("differs row "), wrong)


def judged_starts(judge, log):
    """A run that begins with what is set in each hart, by the commands that are named."""
    start, trace = judge.folder / "start.rvstate", judge.folder / "late.csv"
    ran = run(CONTRIB / "qemu_log.py", "--harts", 2, "--pc", "0x80000034", "-o", trace, text=log)
    words = next(it for it in ran.stderr.splitlines() if "make_state.py IMAGE" in it).split()
    ran = run(CONTRIB / "make_state.py", IMAGE, *words[2:-1], start)
    check("make_state.py --harts 2", ran.returncode == 0, ran.stderr)
    count = trace.read_text().count("\n") - 1
    found = judge.of_file(start, trace, "--harts", "2", "--profile", "qemu", *IO)
    check("the judge, from a state of two harts", found == f"agrees {count}", found)
    header = judge.folder / "header.csv"
    header.write_text("insn,pc_rdata\n")
    found = judge.of_file(start, header, "--harts", "2", command="state")
    check("the state, written again", f"{found}\n" == start.read_text(), found[:400])


def from_a_checkpoint(log, out):
    """The rows of a log that begins where the harts stand apart."""
    begun = [it.start() for it in re.finditer("^Trace ", log, re.MULTILINE)]
    late, rows = log[begun[100]:], out.read_text().splitlines()
    pcs = [re.search(f" pc +([0-9a-f]+)\n mhartid +0+{it}\n", late)[1] for it in range(2)]
    words = "--harts", 2, "--image", IMAGE, "--pc", ",".join(f"0x{it}" for it in pcs)
    ran = run(CONTRIB / "qemu_log.py", *words, text=late)
    found = ran.stdout.splitlines()[1:]
    check("from a checkpoint", pcs[0] != pcs[1] and found == rows[-len(found):] and
          len(found) > 80, ran.stderr)
    sets = [f"--set {at}:pc=0x{int(it, 16):x} " for at, it in enumerate(pcs)]
    check("from a checkpoint, its state", all(it in ran.stderr for it in sets)
          and "--pc" not in ran.stderr, ran.stderr)
    refused("more addresses than harts", "--pc has 3 addresses, and there are 2 harts", run(
        CONTRIB / "qemu_log.py", "--harts", 2, "--pc", "1,2,3", text=late))


def listed_under_mprv():
    """Where MPRV has loads translated, what was listed of M before counts, and else the image."""
    plain, moved = ({"mstatus": status, "satp": "8000000000080000"} for status in ("0", "20000"))
    code = qemu_log.Translations(dict(enumerate(b"\x93\0\0\0", START + 4)))
    found = []
    for pc, listed, values in ((START, "00000013", plain), (START, "00000033", moved),
                               (START + 4, "Address", moved), (START + 8, "Address", moved)):
        state = qemu_log.State("", [], tuple(values.get(it) for it in qemu_log.CSRS if it != "mip"),
                               None, "0")
        code.mode = 3
        code.take(hex(pc), listed)
        try:
            found.append(code.find(pc, None, state).bits)
        except qemu_log.Refused as fault:
            found.append("give --image" in str(fault))
    check("instructions of M under MPRV", found == [0x13, 0x13, 0x93, True], found)


def judged_pieces(judge, out):
    """The run in two pieces, from a state of two harts."""
    rows, two = out.read_text().splitlines(), ["--harts", "2", *IO]
    state = judge.folder / "a.rvstate"
    text = judge.said(IMAGE, rows[:91], *two, command="state")
    state.write_text(f"{text}\n")
    check("a state of two harts", text.startswith("rvstate 1\nharts 2\npc "), text[:80])
    judge.wants("from the middle", f"agrees {ROWS - 90}", state, [rows[0], *rows[91:]], *two)
    judge.wants("from the middle, as one hart", "refused image: wrong number of harts", state,
                [rows[0], *rows[91:]], *IO)
    ran = run(CONTRIB / "make_state.py", state)
    check("make_state.py, the state of the judge", ran.stdout == f"{text}\n", ran.stderr)
    ran = run(CONTRIB / "make_state.py", state, "--set", "1:a0=5", "--set", "s1=6")
    changed = [it for it, other in zip(ran.stdout.split("\n"), text.split("\n")) if it != other]
    check("make_state.py, parts of harts", changed == [
        "x9 0000000000000006", "x9 0000000000000006", "x10 0000000000000005"], changed)
    pieces = run(CONTRIB / "pieces.py", IMAGE, out, "-p", judge.program, "--at", f"90={state}",
                 "--", *two)
    check("pieces.py", pieces.stdout.endswith(f"\nagrees {ROWS}\n"), pieces)


class Read(NamedTuple):
    """A read of bytes that another hart wrote last, and what it had found without that write."""

    row: int
    name: str
    hart: int
    rd: int
    data: int


class Four:
    """A run of four harts: its rows, and what is expected of them by their own fields alone."""

    def __init__(self, image, trace):
        self.lines = trace.read_text().splitlines()
        names = self.lines[0].split(",")
        self.rows = [dict(zip(names, it.split(","))) for it in self.lines[1:]]
        self.harts = [int(it["hart"], 0) for it in self.rows]
        self.names = [name_of(int(it["insn"], 0)) for it in self.rows]
        self.memory, self.before, self.writer = qemu_log.image_bytes(image), {}, {}
        self.reads = [it for at in range(len(self.rows)) for it in self.access(at)]

    def value(self, row, name):
        return int(self.rows[row - 1][name], 0)

    def access(self, at):
        """Follows memory through a row; gives its read, where it is of what another hart wrote."""
        row, hart, name = self.rows[at], self.harts[at], self.names[at]
        address, size = int(row["mem_addr"] or "0", 0), decoded(int(row["insn"], 0)).size
        if address < START:
            return
        places = range(address, address + size)
        if int(row["mem_rmask"], 0):
            now = [self.memory.get(it, 0) for it in places]
            old = [byte if self.writer.get(it, hart) == hart else self.before[it]
                   for it, byte in zip(places, now)]
            data = int.from_bytes(bytes(old), "little")
            is_negative = not name.endswith("u") and old[-1] & 0x80
            if old != now:
                yield Read(at + 1, name, hart, data - (is_negative and 1 << 8 * size), data)
        if int(row["mem_wmask"], 0):
            for it, byte in zip(places, int(row["mem_wdata"], 0).to_bytes(8, "little")):
                self.before[it], self.writer[it] = self.memory.get(it, 0), hart
                self.memory[it] = byte

    def conditional(self, result):
        """The first SC that gives this, and whose hart looks at it in the next row."""
        return next(at for at, (row, after) in enumerate(zip(self.rows, self.rows[1:]), 1)
                    if self.names[at - 1].startswith("sc.") and int(row["rd_wdata"], 0) == result
                    and (row["hart"], row["rd_addr"]) == (after["hart"], after["rs1_addr"]))

    def next_pc(self, row, hart):
        """Where a hart is that has its next row after this one."""
        return next(int(it["pc_rdata"], 0) for it, whose in zip(self.rows[row:], self.harts[row:])
                    if whose == hart)


def four_harts(judge, folder):
    """The runs of four harts that a folder has, whole and altered."""
    for name, wanted, stored in FOUR:
        image, trace = folder / f"{name}.hex", judge.folder / f"{name}.csv"
        log = gzip.decompress((folder / f"{name}.log.gz").read_bytes()).decode("latin-1")
        ran = run(CONTRIB / "qemu_log.py", "--harts", 4, "-o", trace, text=log)
        check(f"qemu_log.py, {name}", ran.returncode == 0
              and "4 harts: judge with --harts 4\n" in ran.stderr, ran.stderr)
        four = Four(image, trace)
        contended(name, four, trace, wanted, stored)
        judged_four(name, judge, image, four)
        altered_four(name, judge, image, four, stored)


def contended(name, four, trace, wanted, stored):
    """Each hart takes part, and finds what others wrote; the end is as it should be."""
    ran = run(TESTS / "memory_order.py", trace)
    found = re.fullmatch(rf"{len(four.rows)} rows of 4 harts in (\d+) turns: {stored} SC stored, "
                         r"(\d+) failed\n", ran.stdout)
    check(f"{name}: its order", found and int(found[1]) > 40
          and (int(found[2]) > 0) == (stored > 0), ran.stdout + ran.stderr)
    check(f"{name}: each hart finds what others wrote",
          {it.hart for it in four.reads} == {*range(4)})
    ends = [(hart, int(it["rd_wdata"], 0)) for it, hart in zip(four.rows, four.harts)
            if it["rd_addr"] == "0xa"]
    check(f"{name}: its end", ends == [(0, wanted)], ends)


def judged_four(name, judge, image, four):
    """A run of four harts as it is, with several sets of words, and as one of other harts."""
    for words in ["--harts 4", "--harts 4 --segment 1 --workers 8", "--harts 4 --segment 7 "
                  "--workers 3", "--harts 4 --reserve 8", "--harts 8 --segment 50 --window 1"]:
        judge.wants(f"{name} {words}", f"agrees {len(four.rows)}", image, four.lines, *IO,
                    *words.split())
    for count in 1, 2, 3:
        first = next(row for row, hart in enumerate(four.harts, 1) if hart >= count)
        judge.wants(f"{name}, {count} of its harts", f"refused trace: row {first}: hart not there",
                    image, four.lines, "--harts", str(count), *IO)


def altered_four(name, judge, image, four, stored):
    """A run of four harts with one field that is another."""
    def wants(signal, expected, found, row, *words, at=None, **fields):
        expected, found = (it % 2 ** 64 for it in (expected, found))
        judge.wants(f"{name}, row {row}, {fields}", f"differs row {at or row}: {signal} expected "
                    f"0x{expected:016x} found 0x{found:016x}", image,
                    altered(four.lines, row, **(fields or {signal: hex(found)})), "--harts", "4",
                    *IO, *words)

    pieces = ["--segment", "16", "--workers", "3"]
    if stored:
        failed, row = four.conditional(1), four.conditional(0)
        for words in [], pieces:
            wants("rd_wdata", 1, 0, failed, *words)
            # An SC may fail where it could have stored, but then it stores nothing,
            wants("mem_wmask", 0, four.value(row, "mem_wmask"), row, *words, rd_wdata="0x1")
            # and its hart goes on with what it gave.
            wants("rs1_rdata", 1, 0, row, *words, at=row + 1, rd_wdata="0x1", mem_wmask="0x0",
                  mem_wdata="")
    kinds = {}
    for read in four.reads:
        kinds.setdefault(read.name, read)
    check(f"{name}: a load and an AMO find what others wrote",
          {it[:2] for it in kinds} >= {"am", "lw"}, kinds)
    for row, _, _, rd, data in kinds.values():
        wants("rd_wdata", four.value(row, "rd_wdata"), rd, row)
        wants("mem_rdata", four.value(row, "mem_rdata"), data, row, *pieces)
    row = next(it.row for it in four.reads if it.hart == 0)
    pc = four.value(row, "pc_rdata")
    for hart in 1, 2, 3:
        if (expected := four.next_pc(row, hart)) != pc:
            wants("pc_rdata", expected, pc, row, *pieces, hart=hex(hart))


def judged_examples(judge):
    """The example of the documents, and a store that stands where it retired."""
    examples = TESTS / "examples"
    rows = (examples / "harts.csv").read_text().splitlines()
    judge.wants("harts.csv", "agrees 10", examples / "harts.hex", rows, "--harts", "2")
    store = next(at for at, it in enumerate(rows) if ",0x0072a023," in it)
    early = [*rows[:store - 1], rows[store], rows[store - 1], *rows[store + 1:]]
    judge.wants("a store that stands too early", "differs row 9: rd_wdata expected "
                "0x0000000000000007 found 0x0000000000000000", examples / "harts.hex", early,
                "--harts", "2")


def faults_of_states(folder):
    """States of several harts that cannot be made."""
    tool, state = CONTRIB / "make_state.py", folder / "two.rvstate"
    ran = run(tool, "--harts", 2, "--set", "0:mode=S", "-o", state)
    check("make_state.py --harts 2", ran.returncode == 0
          and state.read_text().startswith("rvstate 1\nharts 2\npc 0000000080000000\nmode 1\n")
          and state.read_text().count("\nmode 3\n") == 1, ran.stderr)
    refused("a state of another number of harts", "a state of 2 harts, and not of 3",
            run(tool, state, "--harts", 3))
    refused("a hart that is not in the state", "hart 2 is not there", run(tool, state, "--set",
                                                                         "2:a0=1"))
    refused("one hart, and another is named", "hart 1 is not there", run(tool, "--set", "1:a0=1"))
    one = run(tool).stdout
    check("one hart", run(tool, "--harts", 1).stdout == one and "harts" not in one)
    state.write_text(state.read_text().replace("mode 3", "mood 3"))
    refused("a line that is none of a state", "line 79: another line", run(tool, state))


def main():
    with tempfile.TemporaryDirectory() as folder:
        folder = Path(folder)
        if len(sys.argv) > 2:
            four_harts(Judge(str(Path(sys.argv[1]).resolve()), folder), Path(sys.argv[2]))
            return 1 if faults else 0
        log, out = log_to_rows(folder)
        other_orders(folder, out)
        faults_of_logs(log)
        rows_that_wait(log)
        values_at_start(log)
        from_a_checkpoint(log, out)
        listed_under_mprv()
        documented()
        merged_again(folder, out)
        merged(folder)
        faults_of_files(folder)
        faults_of_states(folder)
        if len(sys.argv) > 1:
            judge = Judge(str(Path(sys.argv[1]).resolve()), folder)
            judged(judge, out)
            judged_starts(judge, log)
            judged_pieces(judge, out)
            judged_examples(judge)
            four_harts(judge, TESTS / "qemu")
    return 1 if faults else 0


if __name__ == "__main__":
    sys.exit(main())
