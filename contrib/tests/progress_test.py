#!/usr/bin/env python3
"""Tries the progress line of bin/rvjudge: progress_test.py. The judge is a stand-in that reads its
trace slowly, and standard error is a terminal that is made here, or a pipe. Status 1 where it
failed.
"""
import os
import pty
import re
import subprocess
import sys
import tempfile
from pathlib import Path

BIN = Path(__file__).resolve().parents[2] / "bin"
RUN = f'. "{BIN}/run_judge.sh"; tell_version() {{ :; }}; run_judge 1 "$@"'
ROWS, ROW = 4000, "0x00500093,0x80000000,1,5\n"
# Reads a tenth of the trace each half second, and ends as its third file says.
SLOW = """#!{python}
import sys, time
open(sys.argv[2]).read()
with open(sys.argv[3], "rb") as trace:
    while trace.read({part}):
        time.sleep({nap})
print("differs row 7: rd_wdata expected 0x1 found 0x0")
sys.exit(1)
"""
LINE = re.compile(r"\nrvjudge: (\d+)% read, (\d+) rows a second, (\d+):(\d\d) left\x1b\[K\r\x1b\[A")
failed = []


def check(name, is_so, said):
    if not is_so:
        failed.append(name)
        print(f"progress: FAILED: {name}: {said!r}", file=sys.stderr)


def read_all(end):
    """What is written to the other end, until that is closed."""
    said = b""
    try:
        while more := os.read(end, 4096):
            said += more
    except OSError:  # a terminal that is closed
        pass
    return said.decode().replace("\r\n", "\n")


def run(folder, words, has_terminal, nap):
    """What is printed, told, and the status."""
    judge = folder / "judge"
    judge.write_text(SLOW.format(python=sys.executable, part=ROWS * len(ROW) // 10, nap=nap))
    judge.chmod(0o755)
    end, other = pty.openpty() if has_terminal else os.pipe()
    with subprocess.Popen(["sh", "-c", RUN, BIN / "rvjudge", judge, *words], cwd=folder,
                          stdout=subprocess.PIPE, stderr=other) as child:
        os.close(other)
        told = read_all(end)
        return child.stdout.read().decode(), told, child.wait()


def main():
    with tempfile.TemporaryDirectory() as name:
        folder, words = Path(name), ["judge", "i", "t"]
        (folder / "i").write_text("@80000000 93 00 50 00\n")
        (folder / "t").write_text("insn,pc_rdata,rd_addr,rd_wdata\n" + ROW * ROWS)
        due = "differs row 7: rd_wdata expected 0x1 found 0x0\n", 1
        said, told, status = run(folder, words, True, 0.5)
        found = LINE.findall(told)
        check("the verdict", (said, status) == due, (said, status))
        check("a line each second", 2 <= len(found) <= 5, told)
        parts = [int(it[0]) for it in found]
        check("its part rises", parts == sorted(parts) and 20 <= parts[0] <= parts[-1] <= 100, told)
        check("its rows a second", all(100 <= int(it[1]) <= 2 * ROWS for it in found), told)
        check("the time left", all(int(it[2]) == 0 and int(it[3]) <= 20 for it in found), told)
        check("it is wiped", told.endswith("\r\x1b[J") and not LINE.sub("", told).strip("\r\x1b[J"),
              told)
        said, told, status = run(folder, words, True, 0)
        check("a short run", (said, status) == due and not LINE.search(told), told)
        said, told, status = run(folder, words, False, 0.3)
        check("no terminal", ((said, status), told) == (due, ""), told)
    return 1 if failed else 0


if __name__ == "__main__":
    sys.exit(main())
