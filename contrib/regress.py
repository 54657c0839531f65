#!/usr/bin/env python3
"""Judges folders of traces side by side, and accounts for every file.

    regress.py FOLDER.. [-- OPTION..]

Each NAME.csv, NAME.csv.gz and NAME.csv.zst in the folders and below them is judged, with

    NAME.hex       its image, or else the image.hex of its folder or of the nearest folder above, or
                   else NAME.elf;
    NAME.options   options of the judge (words between blanks), each in place of the one that is
                   given after --: "--bits on" for a core that has Zba, Zbb and Zbs;
    NAME.expect    what an agreement must be worth, one a line: the number of valid rows, or
                   "ends with halt";
    NAME.elf       the program, for the explanation of a difference.

One line is printed for each trace as it is done. Those that did not agree are printed again at the
end, the first differences explained; the last line counts them all. An agreement of fewer rows than
--at-least, or of another number than NAME.expect has, is too short, and with --lint one whose trace
has a column that the judge does not know: a wrong name checks nothing. A file that no verdict was
reached on could not be judged, and so could a NAME.expect whose trace is missing.

Status: 0 where each trace agrees, 1 where any differs, 2 where any is too short or could not be
judged, which goes before 1, or where there is none.

On several machines, which must see the same files at the same paths:
    --with parallel [--sshlogin HOSTS]   GNU parallel runs the list;
    --with slurm --results NEW           writes NEW/job.sh for sbatch, and runs nothing; when the
                                         job is done, regress.py --collect NEW gives the verdict.
"""
import argparse
import json
import os
import queue
import re
import shlex
import shutil
import signal
import subprocess
import sys
import tempfile
import threading
import time
from concurrent.futures import ThreadPoolExecutor
from contextlib import contextmanager
from pathlib import Path
from typing import NamedTuple
from xml.sax.saxutils import escape, quoteattr

import cover
from common import (
    HERE, UNPACK, Refused, add_program, ends, judge_words, names_of, parser_of, positive,
    unpacker_of,
)

ENDINGS = (*(f".csv{it}" for it in UNPACK), ".csv")  # of the names of traces
AGREES, DIFFERS, SHORT, REFUSED = "agrees", "differs", "short", "refused"
COUNTED = {AGREES: "agree", DIFFERS: "differ", SHORT: "too short", REFUSED: "could not be judged"}
TAIL = 1 << 18  # bytes at a trace's end in which its last row is looked for
MOST_TASKS = 1000  # of an array job


class Trace(NamedTuple):
    """A trace and what it is judged with. fault is why it cannot be judged, or empty."""

    name: str
    path: str
    image: str = ""
    options: list = []
    wanted: list = []
    elf: str = ""
    fault: str = ""


class Result(NamedTuple):
    name: str
    path: str
    kind: str
    line: str
    seconds: float = 0.0


def ending_of(name):
    """The ending of a trace's name, or None."""
    return next((it for it in ENDINGS if name.endswith(it)), None)


# ---- the list


def options_by_name(words, where):
    """The judge's options as a table from name to value, which is None for one without."""
    given, words = {}, iter(words)
    flags = [name for name, word in judge_words.WORDS.items() if word.is_flag]
    for word in words:
        name, has_value, value = word.partition("=")
        if not name.startswith("--"):
            raise Refused(f"{where}: {word!r} where an option is awaited")
        if name in flags and not has_value:
            given[name] = None
            continue
        value = value if has_value else next(words, None)
        if value is None:
            raise Refused(f"{where}: {name} without a value")
        given[name] = value
    return given


def words_of(options):
    """The words of a table of options."""
    return [name if value is None else f"{name}={value}" for name, value in options.items()]


def wanted_lines(path):
    """What a file NAME.expect wants: numbers, and "ends with halt"."""
    wanted = []
    for line in path.read_text(encoding="utf-8").splitlines():
        line = line.partition("#")[0].strip()
        if re.fullmatch(r"\d+( rows)?", line):
            wanted.append(int(line.split()[0]))
        elif line == "ends with halt":
            wanted.append(line)
        elif line:
            raise Refused(f"{path.name}: {line!r} is neither a number of rows nor 'ends with halt'")
    return wanted


def image_for(base, top):
    """NAME.hex, or the nearest image.hex from its folder up to the top one, or NAME.elf."""
    own, program = (base.with_name(base.name + it) for it in (".hex", ".elf"))
    if own.exists():
        return own
    folder = base.parent
    while True:
        if (folder / "image.hex").exists():
            return folder / "image.hex"
        if folder == top or folder == folder.parent:
            if program.exists():
                return program
            raise Refused(f"neither {own.name} nor image.hex is there")
        folder = folder.parent


def trace_at(path, name, top, given):
    """A trace with its image, options and what it must be worth."""
    base = Path(str(path)[: -len(ending_of(path.name))])
    beside = {it: base.with_name(base.name + it) for it in (".options", ".expect", ".elf")}
    try:
        options = dict(given)
        if beside[".options"].exists():
            words = beside[".options"].read_text(encoding="utf-8").split()
            options |= options_by_name(words, beside[".options"].name)
        wanted = wanted_lines(beside[".expect"]) if beside[".expect"].exists() else []
        image = image_for(base, top)
    except (Refused, OSError, UnicodeDecodeError) as fault:
        return Trace(name, str(path), fault=str(fault))
    words = words_of(options)
    elf = str(beside[".elf"]) if beside[".elf"].exists() else ""
    return Trace(name, str(path), str(image), words, wanted, elf)


def files_below(folder, faults):
    """Each file in a folder and below it, links followed, each folder once."""
    seen = set()
    walk = os.walk(folder, followlinks=True,
                   onerror=lambda it: faults.append(Trace(it.filename, it.filename, fault=str(it))))
    for at, folders, names in walk:
        folders[:] = sorted(it for it in folders if os.path.realpath(f"{at}/{it}") not in seen)
        seen.update(os.path.realpath(f"{at}/{it}") for it in folders)
        yield from (Path(at, name) for name in sorted(names))


def traces_in(folders, given):
    """All traces of the folders, and what stands there that no trace can be made of."""
    found, names = [], set()
    for folder in folders:
        top = Path(folder).resolve()
        if not top.is_dir():
            raise Refused(f"{folder} is no folder")
        for path in files_below(top, found):
            shown = str(path.relative_to(top))
            name = shown[: -len(ending_of(shown))] if ending_of(shown) else shown
            if len(folders) > 1:
                name = f"{folder.rstrip('/')}/{name}"
            name = f"{name} ({path.name})" if name in names else name
            if ending_of(path.name):
                names.add(name)
                found.append(trace_at(path, name, top, given))
            elif re.search(r"\.csv\.\w+$", path.name.lower()) or path.name.lower().endswith(".csv"):
                found.append(Trace(name, str(path), fault="no ending of a trace that can be read"))
            elif path.suffix == ".expect" and not has_trace(path.with_suffix("")):
                found.append(Trace(name, str(path), fault="there is no trace for it"))
    return found


def has_trace(base):
    return any(base.with_name(base.name + it).exists() for it in ENDINGS)


# ---- judging


class Children:
    """The processes that run, each the head of a group of its own."""

    def __init__(self):
        self.lock = threading.Lock()
        self.running = set()
        self.is_closed = False

    def start(self, words, **how):
        with self.lock:
            if self.is_closed:
                raise Refused("ended before it was judged")
            child = subprocess.Popen(words, start_new_session=True, **how)
            self.running.add(child)
        return child

    def end(self, child):
        """Ends a process with all that it started."""
        if child.poll() is None:
            for number in (signal.SIGTERM, signal.SIGKILL):
                try:
                    os.killpg(child.pid, number)
                    child.wait(timeout=2)
                    break
                except (ProcessLookupError, subprocess.TimeoutExpired):
                    continue
        with self.lock:
            self.running.discard(child)

    def end_all(self):
        with self.lock:
            self.is_closed, left = True, list(self.running)
        for child in left:
            self.end(child)


CHILDREN = Children()
NAP = 0.5  # seconds: a signal that comes right before a wait is heeded after so long


def taken(items):
    """The next item of a queue. A wait without an end may not heed a signal right before it."""
    while True:
        try:
            return items.get(timeout=NAP)
        except queue.Empty:
            continue


def done_in_turn(tasks):
    """What tasks give, as they are done."""
    done = queue.SimpleQueue()
    for task in tasks:
        task.add_done_callback(done.put)
    for _ in tasks:
        yield taken(done).result()


def lines_in_turn(file):
    """The lines of a pipe, as they come."""
    lines = queue.SimpleQueue()

    def read():
        for line in file:
            lines.put(line)
        lines.put(None)

    threading.Thread(target=read, daemon=True).start()
    while (line := taken(lines)) is not None:
        yield line


@contextmanager
def unpacked(path):
    """The bytes of a trace, by a process that ends with the others."""
    unpack = unpacker_of(path)
    with open(path, "rb") as file:
        child = CHILDREN.start(unpack, stdin=file, stdout=subprocess.PIPE) if unpack else None
        try:
            yield child.stdout if child else file
        finally:
            if child:
                CHILDREN.end(child)


def last_row_halts(path):
    """Whether the last valid row of a trace shows halt as 1."""
    with unpacked(path) as source:
        tail = source.read(TAIL)
        head = tail.lstrip(b"\xef\xbb\xbf\r\n").partition(b"\n")[0]
        while more := source.read(TAIL):
            tail = (tail + more)[-TAIL:]
    names = [it.strip(' \t\r"').removeprefix("rvfi_") for it in head.decode("latin-1").split(",")]
    for line in reversed(tail.decode("latin-1").splitlines()):
        fields = [it.strip(' \t"') for it in line.split(",")]
        row = dict(zip(names, fields))
        if line.strip() and row.get("valid", "1") not in ("0", "0x0"):
            return row.get("halt", "") in ("1", "0x1")
    return False


def unknown_column(path):
    """A column that the judge does not know, whatever its port, or an empty text."""
    with unpacked(path) as source:
        line = next((it for it in source if it.strip(b"\r\n")), b"")
    names = names_of(line.decode("latin-1").rstrip("\r\n"))
    if any(re.fullmatch("insn_[0-3]", it) for it in names):
        names = [re.sub("_[0-3]$", "", it) for it in names]
    return next(cover.unknown_names(names), "")


def shortfall(trace, rows, at_least):
    """What an agreement of so many rows lacks, or an empty text."""
    if rows < at_least and not any(isinstance(it, int) for it in trace.wanted):
        return f"fewer than {at_least} rows"
    for wanted in trace.wanted:
        if wanted == "ends with halt":
            if not last_row_halts(trace.path):
                return "it does not end with halt"
        elif rows != wanted:
            return f"{wanted} rows are wanted"
    return ""


def run_judge(trace, program, timeout):
    """The judge's status, its line, and why there is no verdict where there is none."""
    words = [program, "judge", trace.image, trace.path, *trace.options]
    unpack, unpacker = unpacker_of(trace.path), None
    until = time.monotonic() + timeout if timeout else None
    judge = None
    with open(trace.path, "rb") as file:
        try:
            if unpack:
                unpacker = CHILDREN.start(unpack, stdin=file, stdout=subprocess.PIPE,
                                          stderr=subprocess.PIPE)
                words[3] = "/dev/stdin"
            judge = CHILDREN.start(words, stdin=unpacker.stdout if unpacker else subprocess.DEVNULL,
                                   stdout=subprocess.PIPE, stderr=subprocess.PIPE)
            if unpacker:
                unpacker.stdout.close()
            said, told = judge.communicate(timeout=until and until - time.monotonic())
            fault = unpacking_fault(unpacker) if unpacker and judge.returncode == 0 else ""
        except subprocess.TimeoutExpired:
            raise Refused(f"it took more than {timeout:g} seconds") from None
        finally:
            for child in (judge, unpacker):
                if child:
                    CHILDREN.end(child)
    if fault:
        raise Refused(f"it could not be unpacked: {fault}")
    return judge.returncode, said.decode("utf-8", "replace"), told.decode("utf-8", "replace")


def unpacking_fault(unpacker):
    """Why a trace was not unpacked as a whole, where the judge read to its end."""
    told = unpacker.stderr.read().decode("utf-8", "replace").strip()
    return (told or f"status {unpacker.returncode}") if unpacker.wait() else ""


def judged(trace, settings):
    """A trace's result; whatever goes wrong, there is one."""
    began = time.monotonic()
    try:
        if trace.fault:
            raise Refused(trace.fault)
        kind, line = verdict(trace, settings)
    except (Refused, OSError) as fault:
        kind, line = REFUSED, str(fault)
    return Result(trace.name, trace.path, kind, line, round(time.monotonic() - began, 3))


def without_origins(said):
    """A difference without the lines of --origin, which are for explain.py."""
    line, *more = said.split("\n")
    return line if all(it.startswith("origin ") for it in more) else said


def verdict(trace, settings):
    status, said, told = run_judge(trace, settings["program"], settings["timeout"])
    line, told = said.removesuffix("\n"), told.strip().split("\n")[-1]
    if status == 1:
        line = without_origins(line)
    if status == 0 and (found := re.fullmatch(r"agrees (\d+)", line)):
        lacking = shortfall(trace, int(found[1]), settings["at_least"])
        if not lacking and settings["lint"] and (name := unknown_column(trace.path)):
            lacking = f"but the judge does not know the column {name}"
        return (SHORT, f"{line}, {lacking}") if lacking else (AGREES, line)
    if status == 1 and re.fullmatch(r"differs row \d+: \w+ expected \S+ found \S+", line):
        return DIFFERS, line
    if status in (2, 3, 4) and re.fullmatch(r"refused (words|image: .*|trace: .*)", line):
        return REFUSED, f"{line} ({told})" if told else line
    if status == 5 and not line:
        return REFUSED, told or f"{trace.image} or {trace.path} could not be read"
    if status == 6 and not line:
        return REFUSED, "memory was refused"
    ended = f"was ended by signal {-status}" if status < 0 else f"ended with status {status}"
    return REFUSED, f"the judge {ended}, and printed {line[:60]!r}" + (f": {told}" if told else "")


def check_program(program):
    """The empty list of words is refused with status 2; bin/rvjudge builds first if it must."""
    try:
        ran = subprocess.run([program], stdin=subprocess.DEVNULL, stdout=subprocess.PIPE,
                             stderr=subprocess.PIPE)
    except OSError as fault:
        raise Refused(f"{program}: {fault}") from None
    if (ran.returncode, ran.stdout) != (2, b"refused words\n"):
        sys.stderr.buffer.write(ran.stderr)
        raise Refused(f"{program} is no judge that runs")


# ---- ways to run the list


def run_here(items, settings, jobs, judge=judged):
    """What judging some items gives, as it comes, by so many threads."""
    pool = ThreadPoolExecutor(max_workers=jobs)
    try:
        tasks = [pool.submit(judge, it, settings) for it in items]
        yield from done_in_turn(tasks)
    finally:
        CHILDREN.end_all()
        pool.shutdown(cancel_futures=True)


def write_list(path, items, settings):
    lines = [settings, *(it._asdict() for it in items)]
    path.write_text("".join(json.dumps(it) + "\n" for it in lines), encoding="utf-8")


def read_list(path, kind=Trace):
    lines = [json.loads(it) for it in Path(path).read_text(encoding="utf-8").splitlines()]
    return [kind(**it) for it in lines[1:]], lines[0]


def run_part(words, kind=Trace, judge=judged):
    """Judges part I of N of a list, and prints what it gives as lines of JSON."""
    items, settings = read_list(words.list, kind)
    part, parts = map(int, words.part.split("/"))
    try:
        for it in items[part::parts]:
            print(json.dumps(judge(it, settings)._asdict()), flush=True)
    finally:
        CHILDREN.end_all()
    return 0


def part_command(script, path, part):
    return f"{shlex.quote(sys.executable)} {shlex.quote(str(HERE / script))} " \
           f"--list {shlex.quote(str(path))} --part {part}"


def run_parallel(script, items, settings, words, kind):
    """Results of a kind from GNU parallel, which runs a part for each item."""
    with tempfile.TemporaryDirectory(prefix=f"{script.removesuffix('.py')}-") as folder:
        write_list(Path(folder, "list"), items, settings)
        yield from parallel_results(script, Path(folder, "list"), len(items), words, kind)


def parallel_results(script, path, count, words, kind):
    """Results of a kind from GNU parallel, which runs a script for each of so many parts of a list."""
    if not shutil.which("parallel"):
        raise Refused("there is no parallel: apt install parallel")
    hosts = ["--sshlogin", words.sshlogin] if words.sshlogin else []
    child = CHILDREN.start(
        ["parallel", "--will-cite", "--jobs", str(words.jobs), *hosts,
         part_command(script, path, "{}/" + str(count))],
        stdin=subprocess.PIPE, stdout=subprocess.PIPE,
        # the command is quoted for sh; where no SHELL is set, parallel finds none by itself
        env={"SHELL": "/bin/sh", **os.environ, "PARALLEL_SHELL": "/bin/sh"})
    try:
        child.stdin.write("".join(f"{it}\n" for it in range(count)).encode())
        child.stdin.close()
        yield from results_in(lines_in_turn(child.stdout), kind)
    finally:
        if child.poll() is None:
            child.send_signal(signal.SIGTERM)  # the second, in end, makes it end its jobs
        CHILDREN.end(child)


def results_in(lines, kind):
    """The results of a kind among lines of JSON; what is none counts for nothing."""
    for line in lines:
        try:
            yield kind(**json.loads(line))
        except (ValueError, TypeError):
            print(f"{Path(sys.argv[0]).name}: no result: {line[:80]!r}", file=sys.stderr)


def write_slurm(script, items, settings, words):
    """Writes the list and an array job that runs a script for each of its parts."""
    folder = Path(words.results).resolve()
    folder.mkdir(parents=True)
    write_list(folder / "list", items, settings)
    tasks = min(len(items), MOST_TASKS)
    job = folder / "job.sh"
    command = part_command(script, folder / "list", f'"$SLURM_ARRAY_TASK_ID/{tasks}"')
    job.write_text(f"""#!/bin/sh
#SBATCH --job-name=rvjudge
#SBATCH --array=0-{tasks - 1}%{words.jobs}
#SBATCH --cpus-per-task=1
#SBATCH --output={folder}/log-%a.txt
{command} >"{folder}/part-$SLURM_ARRAY_TASK_ID.json"
""", encoding="utf-8")
    job.chmod(0o755)
    print(f"sbatch {job}\nand when it is done: {script} --collect {folder}")
    return 0


def collected(folder):
    """The traces of an array job, and the results that it left."""
    traces, _ = read_list(Path(folder, "list"))
    return traces, [*results_of(folder, Result)]


def results_of(folder, kind):
    """The results of a kind that an array job left."""
    for part in sorted(Path(folder).glob("part-*.json")):
        with open(part, encoding="utf-8") as lines:
            yield from results_in(lines, kind)


# ---- telling


def account(traces, results):
    """One result for each trace, in the list's order: what has none could not be judged."""
    by_path = {}
    for result in results:
        by_path.setdefault(result.path, result)
    lost = "no verdict on it came back"
    return [by_path.get(it.path) or Result(it.name, it.path, REFUSED, lost) for it in traces]


def write_junit(path, results):
    """JUnit XML: a difference is a failure, and what gave no verdict an error."""
    tags = {DIFFERS: "failure", SHORT: "failure", REFUSED: "error"}
    kinds = [tags.get(it.kind) for it in results]
    with open(path, "w", encoding="utf-8") as out:
        out.write('<?xml version="1.0" encoding="UTF-8"?>\n')
        out.write(f'<testsuite name="rvjudge" tests="{len(results)}" '
                  f'failures="{kinds.count("failure")}" errors="{kinds.count("error")}">\n')
        for it, tag in zip(results, kinds):
            out.write(f'  <testcase name={quoteattr(it.name)} time="{it.seconds}">')
            if tag:
                out.write(f"<{tag} message={quoteattr(it.line)}/>")
            else:
                out.write(f"<system-out>{escape(it.line)}</system-out>")
            out.write("</testcase>\n")
        out.write("</testsuite>\n")


def explained(trace, program):
    """What explain.py says of a difference."""
    words = [sys.executable, str(HERE / "explain.py"), trace.image, trace.path, "-p", program]
    words += (["--elf", trace.elf] if trace.elf else []) + ["--", *trace.options]
    child = CHILDREN.start(words, stdin=subprocess.DEVNULL, stdout=subprocess.PIPE,
                           stderr=subprocess.STDOUT)
    try:
        return b"".join(lines_in_turn(child.stdout)).decode("utf-8", "replace")
    finally:
        CHILDREN.end(child)


def tell(traces, results, words, program):
    """Prints what did not agree and the counts, writes the files, and gives the status."""
    failures = [it for it in results if it.kind != AGREES]
    if failures:
        print(f"\n{len(failures)} that did not agree:")
    by_path, left = {it.path: it for it in traces}, words.explain
    CHILDREN.is_closed = False
    for it in failures:
        print(f"{it.name}: {it.line}")
        if it.kind == DIFFERS and left > 0 and (HERE / "explain.py").exists():
            left -= 1
            said = explained(by_path[it.path], program)
            print("".join(f"    {line}\n" for line in said.splitlines()))
    if words.junit:
        write_junit(words.junit, results)
    if words.json:
        lines = "".join(json.dumps(it._asdict()) + "\n" for it in results)
        Path(words.json).write_text(lines, encoding="utf-8")
    kinds = [it.kind for it in results]
    print(", ".join(f"{kinds.count(kind)} {text}" for kind, text in COUNTED.items()))
    if not results or SHORT in kinds or REFUSED in kinds:
        return 2
    return int(DIFFERS in kinds)


def arguments(words):
    parser = parser_of(
        __doc__, prog="regress.py", allow_abbrev=False,
        usage="regress.py FOLDER.. [-p PROGRAM] [-j N] [--at-least N] [--timeout S] [--explain N]"
              " [--lint] [--junit FILE] [--json FILE] [--with parallel|slurm] [-- OPTION..]")
    add = parser.add_argument
    add("folders", nargs="*", metavar="FOLDER")
    add_program(parser)
    add("-j", "--jobs", type=positive, default=len(os.sched_getaffinity(0)), metavar="N",
        help="traces that are judged at once (default: as many as there are processors)")
    add("--at-least", type=int, default=1, metavar="N",
        help="fewest valid rows that an agreement must have (default 1)")
    add("--lint", action="store_true",
        help="an agreement with a column that the judge does not know is too short")
    add("--timeout", type=float, default=0, metavar="S", help="most seconds of a trace")
    add("--explain", type=int, default=3, metavar="N",
        help="differences that are explained at the end (default 3)")
    add("--junit", metavar="FILE", help="write the results as JUnit XML")
    add("--json", metavar="FILE", help="write the results as lines of JSON")
    add_ways(add)
    cut = words.index("--") if "--" in words else len(words)
    found = parser.parse_args(words[:cut])
    found.options = words[cut + 1:]
    if not (found.collect or found.list) and not found.folders:
        parser.error("which FOLDER?")
    check_ways(parser, found)
    return found


def add_ways(add):
    """The options that say how a list is run."""
    add("--with", dest="way", choices=("parallel", "slurm"), help="how the list is run")
    add("--sshlogin", metavar="HOSTS", help="for --with parallel: its hosts, as for parallel")
    add("--results", metavar="NEW", help="for --with slurm: the folder that is made")
    add("--collect", metavar="FOLDER", help="the verdict of an array job that is done")
    add("--list", help=argparse.SUPPRESS)
    add("--part", help=argparse.SUPPRESS)


def check_ways(parser, found):
    if (found.way == "slurm") != bool(found.results):
        parser.error("--with slurm and --results go together")


def run(words):
    if words.list:
        return run_part(words)
    program = shutil.which(words.program) or words.program
    program = str(Path(program).resolve())
    if words.collect:
        traces, results = collected(words.collect)
        results = account(traces, results)
        print("".join(f"{it.name}: {it.line}\n" for it in results), end="")
        return tell(traces, results, words, program)
    check_program(program)
    given = {"--workers": "1"} | options_by_name(words.options, "after --")
    traces = traces_in(words.folders, given)
    settings = {"program": program, "timeout": words.timeout, "at_least": words.at_least,
                "lint": words.lint}
    if words.way == "slurm":
        return write_slurm("regress.py", traces, settings, words)
    if words.way == "parallel":
        source = run_parallel("regress.py", traces, settings, words, Result)
    else:
        source = run_here(traces, settings, words.jobs)
    results = []
    for result in source:
        results.append(result)
        print(f"{result.name}: {result.line}", flush=True)
    return tell(traces, account(traces, results), words, program)


def run_with_children(name, run):
    """The status of a tool, which ends its processes when it ends, also by a signal."""
    for number in (signal.SIGTERM, signal.SIGINT, signal.SIGHUP):
        signal.signal(number, lambda it, _: sys.exit(128 + it))
    try:
        return ends(name, run, 2)
    finally:
        CHILDREN.end_all()


def main():
    words = arguments(sys.argv[1:])
    return run_with_children("regress.py", lambda: run(words))


if __name__ == "__main__":
    sys.exit(main())
