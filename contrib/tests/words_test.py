#!/usr/bin/env python3
"""Holds the table of words, bin/words.tsv, to the judge: words_test.py PROGRAM.

Of each line of the table, and of registers.tsv, what may be said and what only just may not are
tried on the judge: the one is taken, the other refused, and there is a reason where it is refused
and none where it is not. So it is of the lists in word_lists.txt. Then what tells the words is held
to the table: usage.txt, which is made of it, README's table, docs/REFERENCE.md, the profiles and the
interpreter. The status is 1 where anything is not so.
"""
import re
import subprocess
import sys
import tempfile
from pathlib import Path

TESTS = Path(__file__).resolve().parent
TOP = TESTS.parents[1]
sys.path[:0] = [str(TOP / "contrib"), str(TOP / "benchmarks/interpreter")]
from core_registers import PROFILES, judge_words  # noqa: E402  # found by the line before

WORDS, REGISTERS = judge_words.WORDS, judge_words.REGISTERS
OPTIONS = [it for it in WORDS.values() if it.is_option]
# what the interpreter has no use for: how work is shared out, and names for lists of words
NOT_INTERPRETED = ("--workers", "--segment", "--window", "--profile")
ALL = judge_words.ALL
FAULTS = []


def check(name, is_so, more=""):
    if not is_so:
        FAULTS.append(name)
        print(f"words: {name}: {more}", file=sys.stderr)


# ---- lists of words


def just_outside(word):
    """What a word may be, and what it may not be though it is near that."""
    ends = [judge_words.bound(it) for it in word.values] if word.kind in judge_words.RANGES else []
    if word.kind == "number":
        return ends, [*range(ends[0] - 1, ends[0]), ends[1] + 1, "x"]
    if word.kind == "power":
        return ends, [ends[0] // 2, ends[1] * 2, ends[0] + 1, "x"]
    if word.kind == "one":
        return word.values, [word.values[0] + "x", *(it.upper() for it in word.values if it.islower())]
    return [], []


def bits_of_registers():
    """Items of --csr that are lawful, and those that are not: (item, whether it is)."""
    for name, may, must, default, fixed, forms in REGISTERS.values():
        for form in judge_words.FORMS:
            yield f"{name}={form}", form in forms
        if may is None:
            yield f"{name}=0", False
            continue
        over, under, least = ALL & ~may, must, ALL & ~fixed & ~must
        yield from ((f"{name}={it}", True) for it in (may, must, default, f"{must}:{fixed}"))
        if over:
            yield f"{name}={may | over & -over}", False
        if under:
            yield f"{name}={may & ~(under & -under)}", False
        if least:
            yield f"{name}={must}:{least & -least}", False


def lists():
    """Lists of words, each with whether the judge takes it; None: that is for the judge to say."""
    for command in judge_words.COMMANDS:
        files = ["7", "1"] if command == "make" else ["i", "t"]
        for word in OPTIONS:
            values, wrong = just_outside(word)
            for it in [*values, *word.taken]:
                yield [command, *files, f"{word.name}={it}"], command in word.commands
            for it in [*wrong, *word.refused, ""]:
                yield [command, *files, f"{word.name}={it}"], False
            if word.is_flag:
                yield [command, *files, word.name], command in word.commands
    for word, place in (WORDS["NUMBER"], 1), (WORDS["ROWS"], 2):
        values, wrong = just_outside(word)
        for it in values + wrong:
            words = ["make", "7", "1"]
            words[place] = str(it)
            yield words, it in values
    for item, is_lawful in bits_of_registers():
        yield ["judge", "i", "t", "--csr", item], is_lawful
    for line in (TESTS / "word_lists.txt").read_text(encoding="utf-8").splitlines():
        yield line.split(), None


def try_lists(program, folder):
    Path(folder, "i").write_text("@80000000 93 00 50 00")
    Path(folder, "-i").write_text("@80000000 93 00 50 00")
    Path(folder, "t").write_text("insn,pc_rdata,rd_addr,rd_wdata\n0x00500093,0x80000000,1,5\n")
    count = 0
    for words, is_taken in lists():
        ran = subprocess.run([program, *words], cwd=folder, stdin=subprocess.DEVNULL,
                             capture_output=True)
        is_refused, reason = ran.stdout == b"refused words\n", judge_words.reason(words)
        name, count = " ".join(words), count + 1
        check(name, is_refused == (ran.returncode == 2), f"status {ran.returncode}, {ran.stdout}")
        check(name, is_taken in (None, not is_refused), f"the judge printed {ran.stdout}")
        check(name, bool(reason) == is_refused, f"the judge printed {ran.stdout}, reason: {reason!r}")
    return count


# ---- what tells the words


def check_usage():
    usage = (TOP / "bin/usage.txt").read_text(encoding="utf-8")
    made = subprocess.run([sys.executable, TOP / "contrib/install/make.py", "usage"],
                          capture_output=True, text=True, check=True).stdout
    check("usage.txt", usage == made, "make it again: contrib/install/make.py usage")
    check("usage.txt", all(len(it) <= 100 for it in usage.split("\n")), "a line is too long")
    for word in WORDS.values():
        told = rf"{word.name}( rows)? \({word.values_text()}\)"
        check("usage.txt", word.is_option or re.search(told, " ".join(usage.split())), word.name)


def check_readme():
    """README's table has the words in the table's order, each with its values and its default."""
    text = (TOP / "README.md").read_text(encoding="utf-8").replace("`", "")
    rows = [it.replace(",", "") for it in text.split("\n") if it.startswith("| --")]
    check("README.md", [it.split()[1] for it in rows] == [it.name for it in OPTIONS], "other words")
    for word, row in zip(OPTIONS, rows):
        default = [word.default] if re.fullmatch(r"\S+", word.default) else []
        for it in [*word.values, *default] if word.kind != "lines" else default:
            check("README.md", re.search(rf"(?<!\w){re.escape(it.replace(',', ''))}(?!\w)", row),
                  f"{word.name}: {it} is missing")


def check_reference():
    text = (TOP / "docs/REFERENCE.md").read_text(encoding="utf-8")
    front = text[:text.index("rvjudge make")]
    for word in OPTIONS:
        check("docs/REFERENCE.md", f"[{word.name}" in front, f"{word.name} is not in the first lines")


def check_interpreter():
    """The interpreter's options are those of judge, with the same defaults, and refuse as much."""
    import judge
    parser = judge.Parser(allow_abbrev=False)
    judge.add_choices(parser)
    chosen = {it.option_strings[0]: it for it in parser._actions if it.option_strings[0] != "-h"}
    source = Path(judge.__file__).read_text(encoding="utf-8")
    for word in OPTIONS:
        if word.name in NOT_INTERPRETED:
            continue
        check("the interpreter", f'"{word.name}"' in source, f"{word.name} is missing")
        if action := chosen.pop(word.name, None):
            usual = (word.default, str(judge_words.number(word.default))) if word.default else ("{}",)
            check("the interpreter", str(action.default) in usual, f"{word.name}: {action.default!r}")
            few = {str(it) for it in action.choices or ()}
            if word.kind == "one":
                check("the interpreter", few == {*word.values}, f"{word.name}: {few}")
    check("the interpreter", not chosen, f"it alone has {list(chosen)}")


def main():
    program = str(Path(sys.argv[1]).resolve())
    with tempfile.TemporaryDirectory() as folder:
        count = try_lists(program, folder)
    check_usage()
    check_readme()
    check_reference()
    check_interpreter()
    check("the profiles", [*PROFILES] == WORDS["--profile"].values, list(PROFILES))
    print(f"words: {count} lists of words")
    return 1 if FAULTS else 0


if __name__ == "__main__":
    sys.exit(main())
