#!/usr/bin/env python3
"""Holds the documents to the judge: documents.py PROGRAM [WORD..].

A line of a document that is indented by four blanks, begins with bin/rvjudge judge, or with
bin/rvjudge-unproved, and names files in folders is run, in the top folder, and the indented lines
after it must be what the judge prints. Lines with one of the WORDs, which the judge does not know,
are left out. Each image and trace in examples/ must be named. After a paragraph that ends in
`FILE`: the whole text of that file must stand, indented by four blanks. Prints how many commands
were run; the status is 1 where anything is not so.
"""
import subprocess
import sys
from itertools import takewhile
from pathlib import Path

TOP = Path(__file__).resolve().parents[2]
DOCUMENTS = ("README.md", "docs/TRACES.md", "contrib/README.md")
COMMANDS = ("    bin/rvjudge judge ", "    bin/rvjudge-unproved judge ")
EXAMPLES = "contrib/tests/examples"


def runs(text):
    """The words of each command and the lines that stand after it."""
    lines = text.split("\n")
    return [(line.split()[1:], printed(lines[at + 1:])) for at, line in enumerate(lines)
            if line.startswith(COMMANDS) and all("/" in word for word in line.split()[2:4])]


def printed(lines):
    """The lines at the front that are indented and no command, without their indent."""
    shown = takewhile(lambda line: line.startswith("    ") and not line.startswith(COMMANDS), lines)
    return "\n".join(line.strip() for line in shown)


def shown_files(text):
    """Each file that is named before its text, and that text."""
    blocks = text.split("\n\n")
    for name, block in zip(blocks, blocks[1:]):
        file = name.split("`")[-2] if name.endswith("`:") else ""
        if "/" in file and block.startswith("    "):
            yield file, "".join(line[4:] + "\n" for line in block.split("\n"))


def faults(program, name, unknown):
    """What does not hold in a document, and how many lines were run in it."""
    text, found = (TOP / name).read_text(encoding="utf-8"), []
    commands = [it for it in runs(text) if unknown.isdisjoint(it[0])]
    for words, wanted in commands:
        ran = subprocess.run([program, *words], cwd=TOP, capture_output=True, text=True)
        if ran.stdout != wanted + "\n":
            found.append(f"{name}: {' '.join(words)}: {wanted!r} there, printed is {ran.stdout!r}")
    for file, shown in shown_files(text):
        path = TOP / file
        if not path.is_file() or path.read_text(encoding="utf-8") != shown:
            found.append(f"{name}: the text of {file} is not that of the file")
    return found, len(commands)


def main():
    program, found, count = str(Path(sys.argv[1]).resolve()), [], 0
    for name in DOCUMENTS:
        these, ran = faults(program, name, {*sys.argv[2:]})
        found, count = found + these, count + ran
    said = "".join((TOP / name).read_text(encoding="utf-8") for name in DOCUMENTS)
    for path in sorted((TOP / EXAMPLES).iterdir()):
        if f"{EXAMPLES}/{path.name}" not in said:
            found.append(f"{path.name} is in no document")
    for text in found:
        print(f"documents: {text}", file=sys.stderr)
    if not count:
        print("documents: no line is run", file=sys.stderr)
    print(f"documents: {count} commands as they are shown")
    return 1 if found or not count else 0


if __name__ == "__main__":
    sys.exit(main())
