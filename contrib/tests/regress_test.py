#!/usr/bin/env python3
"""Tries regress.py: regress_test.py PROGRAM, the judge. Names each test that failed; status 1 then.

Judges that misbehave are small scripts that are written here. REGRESS in the environment gives
another command in place of regress.py.
"""
import gzip
import json
import os
import shlex
import shutil
import signal
import subprocess
import sys
import tempfile
import time
import xml.etree.ElementTree as xml
from pathlib import Path

from small_elf import small_elf

TESTS = Path(__file__).resolve().parent
EXAMPLES = TESTS / "examples"
REGRESS = shlex.split(os.environ.get("REGRESS", "")) or [str(TESTS.parent / "regress.py")]
# A judge whose answer to the trace NAME is the shell's command in the file NAME.does.
ODD_JUDGE = """#!/bin/sh
[ $# -gt 0 ] || { echo 'refused words'; exit 2; }
does=${3%.csv}.does
[ -e "$does" ] && . "$does"
echo 'agrees 3'
"""


class Folder:
    """A folder of traces, its judge, and what a run over it says."""

    def __init__(self, path, program):
        self.path, self.program = Path(path), program
        self.said, self.status = "", None

    def add(self, name, source="interrupt.csv"):
        """A trace from an example, with its image."""
        target = self.path / name
        target.parent.mkdir(parents=True, exist_ok=True)
        text = (EXAMPLES / source).read_bytes()
        target.write_bytes(gzip.compress(text) if name.endswith(".gz") else text)
        image = target.with_name(target.name.partition(".csv")[0] + ".hex")
        shutil.copy(EXAMPLES / (source.partition(".")[0].partition("_")[0] + ".hex"), image)
        return target

    def odd_judge(self):
        self.program = str(self.path.parent / "odd_judge")
        Path(self.program).write_text(ODD_JUDGE)
        os.chmod(self.program, 0o755)

    def does(self, name, command):
        (self.path / f"{name}.does").write_text(command + "\n")

    def command(self, *words):
        return [*REGRESS, str(self.path), "-p", self.program, *words]

    def run(self, *words):
        ran = subprocess.run(self.command(*words), capture_output=True, text=True, timeout=500)
        self.said, self.status = ran.stdout + ran.stderr, ran.returncode
        return self

    def wants(self, status, *lines):
        assert self.status == status, f"status {self.status}, wanted {status}: {self.said[-800:]}"
        for line in lines:
            assert line in self.said.split("\n"), f"no line {line!r} in {self.said[-800:]}"


def counts(agree=0, differ=0, short=0, refused=0):
    return f"{agree} agree, {differ} differ, {short} too short, {refused} could not be judged"


def test_verdicts(it):
    it.add("interrupt.csv")
    for name in ("lanes.csv", "lanes_shown.csv"):
        it.add(name, name)
    it.run("-j", "2").wants(1, "interrupt: agrees 9", counts(1, 2),
                            "lanes: differs row 4: rd_wdata expected 0xfffffffffe000000 "
                            "found 0x0000000000fe0000")
    assert it.said.index("that did not agree") < it.said.rindex("lanes:"), "failures come last"
    assert it.said.count("registers before the row") == 2, "differences are explained"


def test_folder_without_a_trace(it):
    it.run().wants(2)


def test_killed_child(it):
    it.odd_judge()
    for name in "abcde":
        it.add(f"{name}.csv")
    it.does("c", "kill -9 $$")
    it.run().wants(2, counts(4, refused=1))
    assert "c: the judge was ended by signal 9, and printed ''" in it.said, it.said


def test_killed_runner(it):
    """Where the one that shares out the list dies, what it has not judged is not forgotten."""
    if not shutil.which("parallel"):
        return
    it.odd_judge()
    for number in range(40):
        it.add(f"t{number:02}.csv")
    it.does("t05", "kill -9 $(ps -o ppid= -p $PPID); sleep 1; kill -9 $$")
    it.run("-j", "2", "--with", "parallel")
    assert it.status == 2, f"status {it.status}: {it.said[-300:]}"


def test_unreadable_file(it):
    it.add("a.csv")
    it.add("b.csv").unlink()
    (it.path / "b.csv").symlink_to("nowhere.csv")
    it.run().wants(2, counts(1, refused=1))
    assert "b: [Errno 2] No such file" in it.said, it.said
    (it.path / "b.csv").unlink()
    (it.path / "b.csv").mkdir()
    (it.path / "c.csv").symlink_to("/proc/self/mem")
    shutil.copy(it.path / "a.hex", it.path / "c.hex")
    it.run().wants(2)
    assert "c: " in it.said and counts(1, refused=1) in it.said, it.said


def test_empty_trace(it):
    it.add("a.csv").write_text("insn,pc_rdata\n")
    it.run().wants(2, counts(short=1), "a: agrees 0, fewer than 1 rows")
    it.run("--at-least", "0").wants(0, counts(1))


def test_file_without_a_byte(it):
    it.add("a.csv").write_text("")
    it.run().wants(2, counts(refused=1))


def test_300_traces(it):
    for number in range(300):
        it.add(f"t{number:03}.csv")
    (it.path / "t150.csv").write_text((EXAMPLES / "interrupt.csv").read_text().replace(",11,", ",12,"))
    it.run("--explain", "0").wants(1, counts(299, 1))
    for number in range(300):
        assert f"t{number:03}: " in it.said, f"t{number:03} has no line"


def test_compressed_and_subfolders(it):
    it.add("a.csv.gz")
    it.add("deep/er/b.csv")
    it.add("lanes.csv.gz", "lanes.csv")
    wanted = counts(2, 1)
    if shutil.which("zstd"):
        path, wanted = it.add("c.csv"), counts(3, 1)
        subprocess.run(["zstd", "-q", "--rm", path], check=True)
    it.run().wants(1, "a: agrees 9", "deep/er/b: agrees 9", wanted)


def test_image_of_a_folder_above(it):
    it.add("deep/er/b.csv")
    (it.path / "deep/er/b.hex").rename(it.path / "image.hex")
    it.run().wants(0, "deep/er/b: agrees 9")
    (it.path / "image.hex").unlink()
    it.run().wants(2, "deep/er/b: neither b.hex nor image.hex is there")


def test_cut_gzip(it):
    """The rows before the cut agree."""
    path = it.add("a.csv.gz")
    text = gzip.compress((EXAMPLES / "interrupt.csv").read_bytes(), 0)
    path.write_bytes(text[:-8])
    it.run().wants(2, counts(refused=1))
    assert "could not be unpacked" in it.said, it.said


def test_other_endings(it):
    it.add("a.csv")
    (it.path / "b.csv.xz").write_bytes(b"")
    (it.path / "c.expect").write_text("9\n")
    it.run().wants(2, counts(1, refused=2), "c.expect: there is no trace for it")


def test_bits_and_elf(it):
    """An option for all, another for one trace, and an image that is an ELF file."""
    for name in "ab":
        (it.path / f"{name}.csv").write_text(
            "insn,pc_rdata,trap,rd_wdata\n0x8a5863b,0x80000000,0,0\n")  # add.uw a2,a1,a0
        (it.path / f"{name}.elf").write_bytes(small_elf(0x80000000, bytes.fromhex("3b86a508")))
    it.run("--explain", "0", "--", "--bits", "on").wants(0, counts(2))
    (it.path / "b.options").write_text("--bits off\n")
    it.run("--explain", "0", "--", "--bits", "on").wants(1, "a: agrees 1", counts(1, 1))
    (it.path / "image.hex").write_text("@80000000 13 00 00 00\n")
    it.run("--explain", "0", "--", "--bits", "on").wants(1, counts(0, 2))


def test_options(it):
    it.add("a.csv")
    (it.path / "a.options").write_text("--workers=65\n")
    it.run().wants(2)
    (it.path / "a.options").write_text("--workers 2 --segment 1\n")
    it.run("--", "--segment", "7", "--workers=1").wants(0, counts(1))
    (it.path / "a.options").write_text("workers\n")
    it.run().wants(2, "a: a.options: 'workers' where an option is awaited")


def test_words_of_a_core(it):
    """Words for a core for all traces, and for one in their place."""
    for name in "ab":
        (it.path / f"{name}.csv").write_text("insn,pc_rdata,trap,rd_wdata\n"
                                             "0x30a02573,0x80000000,1,\n")  # csrr a0,menvcfg
    (it.path / "image.hex").write_text("@80000000 73 25 a0 30\n")
    words = ("--explain", "0", "--", "--profile", "qemu", "--csr=menvcfg=none,time=none",
             "--io", "0x1000:0x1000,0x10000000:0x1000", "--mtval=zero:2,3")
    it.run(*words).wants(0, counts(2))
    (it.path / "b.options").write_text("--csr menvcfg=0xF1:0x2,mie=0xAAA\n")
    difference = "differs row 1: trap expected 0x0000000000000000 found 0x0000000000000001"
    it.run(*words).wants(1, "a: agrees 1", f"b: {difference}", counts(1, 1))
    (it.path / "b.options").write_text("--csr menvcfg\n")
    it.run(*words).wants(2, counts(1, refused=1))


def test_origin(it):
    """An option without a value; the lines that it adds are for the explanation."""
    it.odd_judge()
    it.add("a.csv")
    it.add("b.csv")
    it.does("a", "case $* in *--origin) ;; *) exit 1 ;; esac; "
                 "echo 'differs row 1: rd_wdata expected 0x1 found 0x0'; "
                 "echo 'origin x1 reset'; echo 'origin byte 0x0000000080000000 row 7'; exit 1")
    it.does("b", "echo 'differs row 1: rd_wdata expected 0x1 found 0x0'; echo 'more'; exit 1")
    it.run("--explain", "0", "--", "--ad", "set", "--origin")
    it.wants(2, counts(differ=1, refused=1), "a: differs row 1: rd_wdata expected 0x1 found 0x0")
    (it.path / "a.options").write_text("--origin --bits on")
    it.run("--explain", "0").wants(2, counts(agree=0, refused=2))
    (it.path / "a.options").write_text("--bits on --origin")
    it.run("--explain", "0").wants(2, counts(differ=1, refused=1))


def test_lint(it):
    """A column with a wrong name, which checks nothing."""
    for name in ("a.csv", "b.csv.gz"):
        it.add(name, "misaligned.csv")
        path = it.path / name
        text = b"insn,pc_rdata,rd_data,time\n0x297,0x80000000,5,7\n"
        text += b"".join(b"0x6f,0x80000004,,%d\n" % at ** 9 for at in range(3000))
        path.write_bytes(gzip.compress(text) if name.endswith(".gz") else text)
        (it.path / f"{name[0]}.hex").write_text("@80000000 97 02 00 00 6f 00 00 00\n")
    it.add("c.csv").write_text("insn,pc_rdata,insn_1,rvfi_pc_rdata_1,valid_1,rd_addr_1\n"
                               "0x297,0x80000000,,,0,\n")
    shutil.copy(it.path / "a.hex", it.path / "c.hex")
    it.run().wants(0, counts(3))
    said = "agrees 3001, but the judge does not know the column rd_data, the nearest is rd_wdata"
    it.run("--lint").wants(2, counts(1, short=2), f"a: {said}", f"b: {said}", "c: agrees 1")


def test_expect(it):
    it.add("a.csv")
    (it.path / "a.expect").write_text("9 rows\n")
    it.run().wants(0)
    (it.path / "a.expect").write_text("10\n")
    it.run().wants(2, "a: agrees 9, 10 rows are wanted", counts(short=1))
    (it.path / "a.expect").write_text("9\nends with halt\n")
    it.run().wants(2, "a: agrees 9, it does not end with halt")
    header, *rows = (EXAMPLES / "interrupt.csv").read_text().splitlines()
    rows = [f"{row},{int(row is rows[-1])}\n" for row in rows]
    (it.path / "a.csv").write_text(f"{header},rvfi_halt\n{''.join(rows)}\n")
    it.run().wants(0)
    (it.path / "a.expect").write_text("many\n")
    it.run().wants(2, counts(refused=1))


def test_timeout(it):
    it.odd_judge()
    it.add("a.csv")
    it.does("a", "sleep 1000")
    it.run("--timeout", "0.5").wants(2, "a: it took more than 0.5 seconds")


def test_odd_answers(it):
    it.odd_judge()
    for name in "abcd":
        it.add(f"{name}.csv")
    it.does("a", "exit 0")
    it.does("b", "echo 'agrees 3'; exit 1")
    it.does("c", "echo 'agrees 3'; exit 70")
    it.run().wants(2, counts(1, refused=3))
    it.program = os.path.realpath(shutil.which("true"))
    it.run().wants(2, f"regress.py: {it.program} is no judge that runs")


def test_no_orphan(it):
    it.odd_judge()
    for name in "abcdef":
        it.add(f"{name}.csv")
        it.does(name, f"sleep 987654; # {it.path}")
    temporary = it.path.parent / "temporary"
    temporary.mkdir()
    child = subprocess.Popen(it.command("-j", "3"), stdout=subprocess.PIPE, stderr=subprocess.PIPE,
                             env=os.environ | {"TMPDIR": str(temporary)})
    until = time.monotonic() + 120
    try:
        # A shell that forks is there twice for a moment.
        while len(found := sleepers(it)) != 3 and time.monotonic() < until:
            time.sleep(0.1)
        assert len(found) == 3, found
        child.send_signal(signal.SIGTERM)
        status = child.wait(timeout=120)
        time.sleep(0.3)
        left = sleepers(it)
    finally:
        child.kill()
        for number in sleepers(it):
            os.killpg(number, signal.SIGKILL)
    assert not left, f"{len(left)} children are left"
    assert status not in (0, 1), f"status {status}"
    assert not [*temporary.iterdir()], "a file is left"


def sleepers(it):
    """The processes of a folder's judge."""
    found = []
    for entry in Path("/proc").glob("[0-9]*"):
        try:
            words = (entry / "cmdline").read_bytes()
        except OSError:
            continue
        if it.program.encode() in words and b"regress" not in words:
            found.append(int(entry.name))
    return found


def test_written_results(it):
    it.add("a.csv")
    it.add("lanes.csv", "lanes.csv")
    it.add("c.csv").write_text("insn\n")
    junit, lines = it.path / "out.xml", it.path / "out.json"
    it.run("--junit", str(junit), "--json", str(lines)).wants(2, counts(1, 1, 0, 1))
    suite = xml.parse(junit).getroot()
    assert (suite.get("tests"), suite.get("failures"), suite.get("errors")) == ("3", "1", "1")
    assert suite.find("testcase[@name='lanes']/failure").get("message").startswith("differs row 4")
    kinds = {it["name"]: it["kind"] for it in map(json.loads, lines.read_text().splitlines())}
    assert kinds == {"a": "agrees", "lanes": "differs", "c": "refused"}, kinds


def test_parallel(it):
    """Two logins, by a stand-in for ssh that runs the command here."""
    if not shutil.which("parallel"):
        return  # run.sh says so
    it.add("a.csv")
    it.add("lanes.csv", "lanes.csv")
    (it.path / "c.csv").symlink_to("nowhere.csv")
    ssh, used = it.path.parent / "ssh", it.path.parent / "hosts"
    ssh.write_text(f"#!/bin/sh\necho \"$1\" >>{used}\nshift\n[ \"$1\" != -- ] || shift\n"
                   "SHELL=/bin/sh exec sh -c \"$*\"\n")  # a login has a shell
    ssh.chmod(0o755)
    os.environ["PARALLEL_SSH"] = str(ssh)
    it.run("--with", "parallel", "--sshlogin", "1/one,1/two", "-j", "1")
    it.wants(2, "a: agrees 9", counts(1, 1, 0, 1))
    assert {"one", "two"} <= set(used.read_text().split()), used.read_text()
    it.run("--with", "parallel").wants(2, "a: agrees 9", counts(1, 1, 0, 1))
    os.environ.pop("SHELL", None)  # as in a container
    it.run("--with", "parallel").wants(2, "a: agrees 9", counts(1, 1, 0, 1))


def test_slurm(it):
    """The form that sbatch --test-only reads, by a stand-in for it; then each task by hand."""
    it.add("a.csv")
    it.add("lanes.csv", "lanes.csv")
    results = it.path.parent / "results"
    it.run("--with", "slurm", "--results", str(results))
    assert it.status == 0, it.said
    job = results / "job.sh"
    lines = job.read_text().splitlines()
    assert lines[0] == "#!/bin/sh" and "#SBATCH --array=0-1%" in lines[2], lines
    assert all(line.startswith("#SBATCH --") for line in lines[1:5]), lines
    for task in "0":
        subprocess.run(["sh", job], env=os.environ | {"SLURM_ARRAY_TASK_ID": task}, check=True)
    collect = [*REGRESS, "--collect", str(results), "-p", it.program]
    ran = subprocess.run(collect, capture_output=True, text=True)
    assert ran.returncode == 2 and "lanes: no verdict on it came back" in ran.stdout, ran.stdout
    subprocess.run(["sh", job], env=os.environ | {"SLURM_ARRAY_TASK_ID": "1"}, check=True)
    ran = subprocess.run(collect, capture_output=True, text=True)
    assert ran.returncode == 1 and counts(1, 1) in ran.stdout, ran.stdout


def main():
    program, failed = str(Path(sys.argv[1]).resolve()), 0
    for name, test in list(globals().items()):
        if not name.startswith("test_") or name not in (sys.argv[2:] or [name]):
            continue
        with tempfile.TemporaryDirectory() as folder:
            (Path(folder) / "traces").mkdir()
            try:
                test(Folder(f"{folder}/traces", program))
            except (AssertionError, subprocess.SubprocessError) as fault:
                print(f"contrib: FAILED: regress, {name}: {fault}", file=sys.stderr)
                failed += 1
    return int(failed > 0)


if __name__ == "__main__":
    sys.exit(main())
