#!/usr/bin/env python3
"""Tries pieces.py: pieces_test.py PROGRAM, the judge. Names each test that failed; status 1 then.

The states are those that PROGRAM itself prints for the rows before each cut.
"""
import os
import re
import shutil
import subprocess
import sys
import tempfile
from pathlib import Path

TESTS = Path(__file__).resolve().parent
PIECES = [sys.executable, str(TESTS.parent / "pieces.py")]
IMAGE, TRACE = TESTS / "explain/image.hex", TESTS / "explain/run.csv"
sys.path.insert(0, str(TESTS.parent))
from qemu_log import image_bytes  # noqa: E402  # found by the line before
from small_elf import small_elf  # noqa: E402
DEVICES = ("--io", "0x10000000:0x1000")
# A judge that does what the file NAME.does says where its image is NAME.
ODD_JUDGE = """#!/bin/sh
[ $# -gt 0 ] || { echo 'refused words'; exit 2; }
[ -e "$2.does" ] && . "$2.does"
exec "%s" "$@"
"""


class Folder:
    """A trace, the judge, and what a run says."""

    def __init__(self, path, program):
        self.path, self.program = Path(path), program
        self.image, self.trace = IMAGE, self.path / "core.csv"
        self.header, *self.rows = TRACE.read_text().splitlines()
        self.said, self.status = "", None

    def write(self, header=None, rows=None):
        lines = [header or self.header, *(self.rows if rows is None else rows)]
        self.trace.write_text("".join(f"{line}\n" for line in lines))
        return lines

    def judge(self, command, trace, *words):
        command = [self.program, command, self.image, trace, *DEVICES, *words]
        ran = subprocess.run(command, capture_output=True)
        return ran.stdout.decode(), ran.returncode

    def states(self, *marks, ports=1, words=()):
        """The states after so many lines of the trace, each in a file, as words of pieces.py."""
        lines, found = self.trace.read_text().splitlines(keepends=True), []
        for at in marks:
            front, state = self.path / f"front{at}.csv", self.path / f"{at}.rvstate"
            front.write_text("".join(lines[: at + 1]))
            state.write_text(self.judge("state", front, *words)[0])
            found += ["--at", f"{at * ports}={state}"]
        return found

    def run(self, *words, options=()):
        command = [*PIECES, self.image, self.trace, "-p", self.program, *words, "--", *DEVICES]
        ran = subprocess.run([*command, *options], capture_output=True, text=True, timeout=500)
        self.said, self.status = ran.stdout + ran.stderr, ran.returncode
        return self

    def wants(self, status, *lines):
        assert self.status == status, f"status {self.status}, wanted {status}: {self.said[-800:]}"
        for line in lines:
            assert line in self.said.split("\n"), f"no line {line!r} in {self.said[-800:]}"
        return self

    def wants_verdict(self, *words):
        """The last line and the status are those of the judge on the whole trace."""
        line, status = self.judge("judge", self.trace, *words)
        last = self.said.rstrip("\n").split("\n")[-1]
        wanted = line.rstrip("\n"), status
        assert (last, self.status) == wanted, f"{line}, {status}: {self.said[-800:]}"
        return line

    def alter(self, at, old, new):
        rows = list(self.rows)
        assert old in rows[at], rows[at]
        rows[at] = rows[at].replace(old, new, 1)
        self.write(rows=rows)


def test_four_jobs(it):
    it.write()
    count = len(it.rows)
    quarters = [count // 4, count // 2, 3 * count // 4]
    end = it.path / "end.rvstate"
    it.run(*it.states(*quarters), "-j", "4", "--end", str(end))
    it.wants(0, f"rows 1 to {quarters[0]}: agrees {quarters[0]}", f"agrees {count}").wants_verdict()
    assert end.read_text() == it.judge("state", it.trace)[0], "the state at the end"
    it.run(*it.states(count)).wants(0, f"rows {count + 1} to {count}: agrees 0").wants_verdict()
    it.run().wants(0, f"rows 1 to {count}: agrees {count}")


def test_a_difference(it):
    it.write()
    marks, pc = it.states(10, 20, 30), it.header.split(",").index("pc_rdata")
    for at in (3, 10, 29, 30):
        it.alter(at, it.rows[at].split(",")[pc], "0x1234")
        it.run(*marks)
        assert it.wants_verdict().startswith(f"differs row {at + 1}: pc_rdata"), it.said
    it.alter(25, it.rows[25].split(",")[pc], "zz")
    it.run(*marks)
    assert it.wants_verdict() == "refused trace: row 26: pc_rdata not a number\n", it.said


def test_another_state(it):
    it.write()
    marks = it.states(10, 20)
    state = it.path / "20.rvstate"
    text = state.read_text()
    old = re.search(r"^x5 .*$", text, re.MULTILINE)[0]
    state.write_text(text.replace(old, "x5 00000000deadbeef"))
    it.run(*marks)
    line = 1 + text[: text.index(old)].count("\n")
    it.wants(1, f"another state after row 20: line {line} of {state}: given is 'x5 00000000deadbeef', "
                f"the rows lead to '{old}'")
    state.write_text(text + "\n")
    it.run(*marks)
    assert it.status == 1 and "given is 'no line'" in it.said, it.said  # a line that is empty
    state.write_text(text[:-4])
    it.run(*marks)
    assert it.status == 1 and "given is 'no line', the rows lead to 'end'" in it.said, it.said
    state.unlink()
    it.run(*marks)
    assert it.status == 2 and "No such file" in it.said, it.said


def test_numbers_of_rows_and_lines(it):
    """Rows that are not valid, blank lines, and a line that is too long."""
    rows = []
    for at, row in enumerate(it.rows):
        rows += [f"1,{row}" if at % 2 else f",{row}"]
        rows += ["0," + "," * row.count(",")] if at % 3 == 0 else []
    it.write(f"rvfi_valid,{it.header}", rows)
    it.run(*it.states(7, 20))
    it.wants(0, f"agrees {len(it.rows)}").wants_verdict()
    lines = it.trace.read_text().splitlines(keepends=True)
    marks = it.states(7, 20)
    it.trace.write_text("\ufeff\n\r\n" + "\n".join(lines))  # each second line is blank
    it.run(*marks).wants(0, f"agrees {len(it.rows)}").wants_verdict()
    lines[25] = "0" * 70000 + "\n"
    it.trace.write_text("\n\n".join(lines))
    it.run(*marks)
    assert it.wants_verdict() == "refused trace: line 76 too long\n", it.said


def test_the_first_pc_is_for_the_first_piece(it):
    it.write(rows=it.rows[4:])
    pc = it.rows[4].split(",")[it.header.split(",").index("pc_rdata")]
    words = ("--pc", pc, "--ram", "0x80000000:0x100000")
    it.run(*it.states(2, 3, words=words), options=words)
    assert it.said.rstrip().split("\n")[-1].startswith(("agrees", "differs")), it.said
    it.wants_verdict(*words)


def test_words_of_a_core(it):
    """Each piece has the words for a core's registers and its devices."""
    it.image = it.path / "image.hex"
    # li t0,-1; csrw mcounteren,t0; csrr a0,mcounteren; lui t1,0x20000; lw a1,(t1)
    it.image.write_text("@80000000 93 02 f0 ff 73 90 62 30 73 25 60 30 37 03 00 20 83 25 03 00\n")
    it.write("insn,pc_rdata,trap,rd_wdata", [
        "0xfff00293,0x80000000,0,0xffffffffffffffff", "0x30629073,0x80000004,0,0",
        "0x30602573,0x80000008,0,0xffffffff", "0x20000337,0x8000000c,0,0x20000000",
        "0x32583,0x80000010,0,7"])
    words = ("--io=0x10000000:0x1000,0x20000000:0x1000", "--profile", "qemu")
    lines, marks = it.trace.read_text().splitlines(keepends=True), []
    for at in (2, 3, 4):
        front, state = it.path / "front.csv", it.path / f"{at}.rvstate"
        front.write_text("".join(lines[: at + 1]))
        ran = subprocess.run([it.program, "state", it.image, front, *words], capture_output=True)
        state.write_bytes(ran.stdout)
        marks += ["--at", f"{at}={state}"]
    it.run(*marks, options=words).wants(0, "agrees 5")
    it.run(*marks, options=words[1:])
    it.wants(1, "differs row 5: trap expected 0x0000000000000001 found 0x0000000000000000")
    it.run(*marks, options=words[:1]).wants(1)
    assert "another state after row 2: " in it.said and "given is 'csr_mcounteren 0" in it.said, it.said


def test_wrong_marks(it):
    it.write()
    marks = it.states(10)
    it.run("--at", f"{len(it.rows) + 1}={it.path}/10.rvstate").wants(2)
    assert "no line begins after row" in it.said, it.said
    it.run(*marks, *marks).wants(0)  # a piece without a row
    it.trace.write_text("")
    it.run(*marks).wants(2)


def test_ports(it):
    """Two rows a line."""
    odd = len(it.rows) % 2
    names = it.header.split(",")
    header = ",".join([*names, "valid_0", *(f"{name}_1" for name in names), "valid_1"])
    rows = it.rows + ["," * it.header.count(",")] * odd
    pairs = [f"{first},1,{second},1" for first, second in zip(rows[::2], rows[1::2])]
    if odd:
        pairs[-1] = pairs[-1][:-1] + "0"
    it.write(header, pairs)
    it.run(*it.states(5, 10, ports=2)).wants(0, f"agrees {len(it.rows)}")
    it.run("--at", f"9={it.path}/5.rvstate").wants(2)
    assert "no line begins after row 9" in it.said, it.said
    pairs[7] = pairs[7].replace("0x", "0y", 1)
    it.write(header, pairs)
    it.run("--at", f"10={it.path}/5.rvstate", "--at", f"20={it.path}/10.rvstate")
    assert it.wants_verdict().startswith("refused trace: row 15:"), it.said


def test_killed_and_slow_judges(it):
    it.write()
    marks, judge = it.states(10, 20), it.path / "odd"
    judge.write_text(ODD_JUDGE % it.program)
    judge.chmod(0o755)
    it.program, does = str(judge), it.path / "10.rvstate.does"
    does.write_text("kill -9 $$\n")
    none = "no verdict on rows 11 to 20: "
    it.run(*marks).wants(2, f"{none}the judge was ended by signal 9, and printed ''")
    does.write_text("sleep 100\n")
    it.run(*marks, "--timeout", "2")
    assert it.status == 2 and "it took more than 2 seconds" in it.said, it.said
    does.write_text("echo 'agrees 10'; exit 0\n")
    it.run(*marks).wants(2)
    does.write_text("echo 'refused image: line 2: bad line'; exit 3\n")
    it.run(*marks).wants(2, f"{none}refused image: line 2: bad line")


def test_parallel(it):
    if not shutil.which("parallel"):
        return  # run.sh says so
    it.write()
    ssh, used = it.path / "ssh", it.path / "hosts"
    ssh.write_text(f"#!/bin/sh\necho \"$1\" >>{used}\nshift\n[ \"$1\" != -- ] || shift\n"
                   "SHELL=/bin/sh exec sh -c \"$*\"\n")  # a login has a shell
    ssh.chmod(0o755)
    os.environ["PARALLEL_SSH"] = str(ssh)
    it.run(*it.states(5, 10, 20), "--with", "parallel", "--sshlogin", "1/one,1/two", "-j", "2")
    it.wants(0).wants_verdict()
    assert {"one", "two"} <= set(used.read_text().split()), used.read_text()


def test_long_trace(it):
    """As README has it: an ELF file, a state from each piece before, four jobs of GNU parallel."""
    if not shutil.which("parallel"):
        return  # run.sh says so
    by_address = image_bytes(IMAGE)
    start = min(by_address)
    data = bytes(by_address.get(at, 0) for at in range(start, max(by_address) + 1))
    program, marks = it.path / "program.elf", []
    program.write_bytes(small_elf(start, data))
    it.image, quarter = program, len(it.rows) // 4
    for at in (quarter, 2 * quarter, 3 * quarter):
        it.write(rows=it.rows[at - quarter : at])
        state = it.path / f"{at}.rvstate"
        state.write_text(it.judge("state", it.trace)[0])
        marks += ["--at", f"{at}={state}"]
        it.image = state
    it.image, words = program, ("--with", "parallel", "-j", "4")
    it.write()
    it.run(*marks, *words).wants(0, f"agrees {len(it.rows)}").wants_verdict()
    pc = it.rows[2 * quarter + 1].split(",")[it.header.split(",").index("pc_rdata")]
    it.alter(2 * quarter + 1, pc, "0x4")
    it.run(*marks, *words)
    assert it.wants_verdict().startswith(f"differs row {2 * quarter + 2}: pc_rdata"), it.said


def test_origin(it):
    """state has no origins, and so no piece has."""
    it.write()
    it.run(options=["--origin"]).wants(2)
    assert "--origin: a state has no origins" in it.said, it.said


def test_slurm(it):
    """Each task of the array by hand."""
    it.write()
    marks, results = it.states(10, 20), it.path / "results"
    it.run(*marks, "--with", "slurm", "--results", str(results)).wants(0)
    job = results / "job.sh"
    assert "#SBATCH --array=0-2%" in job.read_text(), job.read_text()
    for task, wanted in (("0", 2), ("2", 2), ("1", 0)):
        subprocess.run(["sh", job], env=os.environ | {"SLURM_ARRAY_TASK_ID": task}, check=True)
        ran = subprocess.run([*PIECES, "--collect", results], capture_output=True, text=True)
        assert ran.returncode == wanted, ran.stdout + ran.stderr
    assert ran.stdout.endswith(f"agrees {len(it.rows)}\n"), ran.stdout


def main():
    program, failed = str(Path(sys.argv[1]).resolve()), 0
    for name, test in list(globals().items()):
        if not name.startswith("test_") or name not in (sys.argv[2:] or [name]):
            continue
        with tempfile.TemporaryDirectory() as folder:
            try:
                test(Folder(folder, program))
            except (AssertionError, subprocess.SubprocessError) as fault:
                print(f"contrib: FAILED: pieces, {name}: {fault}", file=sys.stderr)
                failed += 1
    return int(failed > 0)


if __name__ == "__main__":
    sys.exit(main())
