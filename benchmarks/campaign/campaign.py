#!/usr/bin/env python3
"""Holds a program to the answers of judge.py on random images and traces.

    campaign.py PROGRAM [--first N] [--count M] [--seed S] [--jobs J] [--keep FOLDER] [--part]
                [--no-choices] [--ports] [--states] [--harts] [--origin] [--profiles]

Each case, which its number and the seed decide, is a program that is made up while a hart runs
through it, a trace of that run with columns drawn by chance, and options. In half of the cases one
thing is altered in the trace or in the image. The line and the status that are due are those of
judge.py, which reads the same texts. Each core chooses by chance what hart_choices.py has, and the
program gets the options for that; with --no-choices the cases are others, all of cores with the
defaults. With --ports a line has one to four ports, drawn by chance, and each trace of one port is
judged again with two, three and four, where the verdict must be the same. With --states each trace is
cut in two besides, before a line that is drawn by chance, and its second part judged from the state
that the first one ends in. With --harts one to eight harts run through one memory, where they
contend for a few blocks, and with --origin half of the commands ask where the operands of a
differing row came from. With --profiles cores have registers, protection, interrupt lines and
devices of their own, of which the options tell. Without PROGRAM judge.py answers in its place, to
the same words but those that share the work out. What the cases reached is counted and printed. The
status is 1 where an answer is not the one due, where a trace in which nothing is altered does not
agree, where a core with bit manipulation does not differ as it must from a hart without, or the
other way round, where a row does not differ that shows what its core's profile rules out, or,
without --part, where one of the things that campaign_reach.py lists was not reached. With --keep
the files of each wrong answer are put into a folder.
"""
import argparse
import os
import re
import select
import signal
import sys
import tempfile
import time
from collections import Counter
from multiprocessing import Pool
from pathlib import Path

# The hart and its judge are those of the folder beside this one.
sys.path.insert(0, str(Path(__file__).resolve().parents[1] / "interpreter"))

from campaign_case import Kinds, make_case
from campaign_cuts import cut_in_two, cuts_to_reach
from campaign_harts import count_harts, harts_to_reach
from campaign_origin import count_held, count_origins, origins_due, origins_to_reach
from campaign_ports import count_answer, ports_to_reach, rewritten
from campaign_profile import PLANTED, profiles_to_reach
from campaign_reach import all_to_reach
from judge import foretell, number, parse as setting_of

SHARING = ("--workers", "--segment", "--window")  # options that judge.py does not have
CHUNK = 250  # cases that a process takes at once
PATIENCE = 60  # seconds for one answer
WRONG_SHOWN = 20


def answer_of(program, words):
    """What a program prints, and its status; by a signal below 0."""
    reads, writes = os.pipe()
    try:
        process = os.posix_spawn(program, [program, *words], os.environ, file_actions=[
            (os.POSIX_SPAWN_DUP2, writes, 1), (os.POSIX_SPAWN_CLOSE, reads),
        ])
    finally:
        os.close(writes)
    said = b""
    with open(reads, "rb", buffering=0) as pipe:
        while True:
            if not select.select([pipe], [], [], PATIENCE)[0]:
                os.kill(process, signal.SIGKILL)
                said += b"(no end)"
            piece = pipe.read(1 << 16)
            if not piece:
                break
            said += piece
    _, status = os.waitpid(process, 0)
    return said.decode("latin-1"), os.waitstatus_to_exitcode(status)


def answer_of_judge(words):
    """What judge.py prints for the words of a command, and its status, as a program's answer."""
    known, rest = [], iter(words)
    for word in rest:
        name, equals, _ = word.partition("=")
        if name not in SHARING:
            known.append(word)
        elif not equals:
            next(rest)
    command, paths, setting = setting_of(known)
    said, status = foretell(*(path.read_bytes() for path in paths), setting, command)
    return f"{said}\n", status


def kind_of(said):
    """The kind of a line and its name, under which it is counted."""
    words = said.split()
    if words[0] == "agrees":
        return "verdict", "agrees"
    if words[0] == "differs":
        return "differs", words[3]
    what = said.partition(": ")[2]
    what = re.sub(r"^(row \d+|line \d+(?=:)): ", "", what)
    what = re.sub(r"\d+(?= bytes)", "M", re.sub(r"^line \d+ ", "line L ", what))
    what = re.sub(r"^(no column|column) \S+", r"\1 C", what)
    what = re.sub(r"^\S+ (?=empty|not a number|too wide)", "C ", what)
    return f"refused {words[1].rstrip(':')}", what


def fault_of(case, said, due):
    """Why an answer is wrong; None where it is not."""
    if said != due:
        return "not as due"
    line, status = due
    if case.altered is None and status not in (0, 3, 4):
        return "nothing is altered, so that it should agree"
    if case.foreknown and line.split("\n")[0] != case.foreknown:
        return f"it should be {case.foreknown}"
    return None


def keep(folder, at, case, said, due):
    """Puts the files of a wrong answer into a folder, with the command and both answers."""
    folder.mkdir(parents=True, exist_ok=True)
    (folder / f"{at}.hex").write_bytes(case.image)
    (folder / f"{at}.csv").write_bytes(case.trace)
    command = " ".join(case.words).replace("IMAGE", f"{at}.hex").replace("TRACE", f"{at}.csv")
    text = f"{command}\naltered: {case.altered}\ndue: {due}\nsaid: {said}\n"
    (folder / f"{at}.txt").write_text(text, encoding="utf-8")


def judge_cases(options, first, last):
    """What the cases from first up to last reached, and the wrong answers among them."""
    reached, wrong = Counter(), []
    kinds = Kinds(options.choices, options.ports, options.harts, options.origin, options.profiles)
    with tempfile.TemporaryDirectory(dir=options.folder) as folder:
        for at in range(first, last):
            case = make_case(options.seed, at, reached, kinds)
            said, status = foretell(case.image, case.trace, case.setting)
            count_case(reached, case, said)
            wrong += hold(options, folder, at, case, (f"{said}\n", status))
            wrong += hold_origins(at, case, said, reached)
            if options.ports:
                wrong += hold_rewritten(options, folder, at, case, said, reached)
            if options.states:
                wrong += hold_cut(options, folder, at, case, said, reached)
    return reached, wrong


def count_case(reached, case, said):
    """Counts what a case is and what is due."""
    reached[kind_of(said)] += 1
    reached["altered", case.altered or "nothing"] += 1
    if case.foreknown:
        kind = "bits" if case.altered.startswith("bits") else "harts"
        kind = "profile" if case.altered in PLANTED else kind
        reached[kind, f"{case.altered.removeprefix('bits ')}: known to differ"] += 1
    count_answer(reached, case, said)
    count_harts(reached, said)
    count_origins(reached, case, said)


def hold_origins(at, case, said, reached):
    """Holds judge.py to the origins that a run knows of; the wrong answer, where there is one."""
    due = origins_due(case, said)
    if due is None:
        return []
    line, *lines = said.split("\n")
    if lines != due:
        return [(at, "origins, by judge.py", said, "\n".join([line, *due]))]
    count_held(reached, case, said)
    return []


def hold(options, folder, at, case, due):
    """Holds the program to what is due for a case; the wrong answer, where there is one."""
    image, trace = f"{folder}/image", f"{folder}/trace"
    Path(image).write_bytes(case.image)
    Path(trace).write_bytes(case.trace)
    words = [{"IMAGE": image, "TRACE": trace}.get(word, word) for word in case.words]
    found = answer_of(options.program, words) if options.program else answer_of_judge(words)
    why = fault_of(case, found, due)
    if why is None:
        return []
    if options.keep:
        keep(options.keep, at, case, found, due)
    return [(at, why, found, due)]


def hold_rewritten(options, folder, at, case, said, reached):
    """Holds the judges to what is due for a trace of one port that is written with several a line."""
    wrong = []
    kind, what = kind_of(said)
    for ports, trace, line in rewritten(case, said):
        reached["rewritten", f"{'differs' if kind == 'differs' else what}: {ports} ports"] += 1
        again = case._replace(trace=trace)
        told, status = foretell(again.image, again.trace, again.setting)
        if told != line:
            wrong.append((at, f"written with {ports} ports, by judge.py", told, line))
        wrong += hold(options, folder, at, again, (f"{line}\n", status))
    return wrong


def hold_cut(options, folder, at, case, said, reached):
    """Holds the judges to what is due for the parts of a trace, the second from the state of the first."""
    wrong = []
    for part, command, text, again in cut_in_two(options.seed, at, case, said, reached):
        if again is not None and text != again:
            wrong.append((at, f"{command} of a part, by judge.py", text, again))
        status = foretell(part.image, part.trace, part.setting, command)[1]
        wrong += hold(options, folder, at, part, (f"{text}\n", status))
    return wrong


def chunk(task):
    return judge_cases(*task)


def run_all(options):
    """What all cases reached, and the wrong answers, from several processes."""
    reached, wrong, begun = Counter(), [], time.monotonic()
    end = options.first + options.count
    tasks = [(options, at, min(at + CHUNK, end)) for at in range(options.first, end, CHUNK)]
    with Pool(options.jobs) as pool:
        for done, (more, found) in enumerate(pool.imap_unordered(chunk, tasks), 1):
            reached += more
            wrong += found
            for at, why, said, due in found[: max(0, WRONG_SHOWN - len(wrong) + len(found))]:
                print(f"case {at}, {why}:\n  due:  {due}\n  said: {said}", flush=True)
            if done % 40 == 0:
                seconds = time.monotonic() - begun
                print(f"... {done * CHUNK} cases, {len(wrong)} wrong, {seconds:.0f} s", flush=True)
    return reached, wrong


def summary(reached):
    """Prints how often each thing was reached, kind by kind."""
    kinds = {}
    for key, count in reached.items():
        if isinstance(key, tuple):
            kinds.setdefault(key[0], []).append((key[1], count))
    for kind, counts in sorted(kinds.items()):
        print(f"{kind}:")
        print("   ", ", ".join(f"{name} {count}" for name, count in sorted(counts)))


def parse():
    parser = argparse.ArgumentParser(
        description=__doc__, formatter_class=argparse.RawDescriptionHelpFormatter
    )
    parser.add_argument("program", nargs="?", help="without it judge.py answers in its place")
    parser.add_argument("--first", type=number, default=0)
    parser.add_argument("--count", type=number, default=200_000)
    parser.add_argument("--seed", default="1")
    parser.add_argument("--jobs", type=number, default=os.cpu_count())
    parser.add_argument("--keep", type=Path, help="where to put the files of wrong answers")
    parser.add_argument("--part", action="store_true", help="do not fail for what was not reached")
    parser.add_argument(
        "--choices", action=argparse.BooleanOptionalAction, default=True,
        help="whether cores make their choices by chance",
    )
    parser.add_argument(
        "--ports", action="store_true", help="one to four ports a line, drawn by chance; also with other ports"
    )
    parser.add_argument(
        "--states", action="store_true", help="each trace is cut in two, too, and goes on from a saved state"
    )
    parser.add_argument(
        "--harts", action="store_true", help="one to eight harts over one memory, drawn by chance"
    )
    parser.add_argument(
        "--origin", action="store_true", help="half of the commands ask for origins of differences"
    )
    parser.add_argument(
        "--profiles", action="store_true", help="cores with registers, protection, lines and devices of their own"
    )
    parser.add_argument("--folder", help="where the files of the cases are for a while")
    return parser.parse_args()


def main():
    options = parse()
    if options.program and not os.access(options.program, os.X_OK):
        sys.exit(f"campaign: there is no program {options.program}")
    begun = time.monotonic()
    reached, wrong = run_all(options)
    summary(reached)
    needed = [
        *all_to_reach(options.choices), *(ports_to_reach() if options.ports else ()),
        *(cuts_to_reach(options.harts) if options.states else ()),
        *(harts_to_reach() if options.harts else ()),
        *(origins_to_reach() if options.origin else ()),
        *(profiles_to_reach() if options.profiles else ()),
    ]
    missed = [what for what in needed if not reached[what]]
    for kind, name in missed:
        print(f"not reached: {kind}: {name}")
    altered = options.count - reached["altered", "nothing"]
    print(f"{options.count} traces, {reached['rows']} rows, {altered} altered")
    print(f"things not reached: {len(missed)}")
    print(f"wrong answers: {len(wrong)}; {time.monotonic() - begun:.0f} s")
    return 1 if wrong or (missed and not options.part) else 0


if __name__ == "__main__":
    sys.exit(main())
