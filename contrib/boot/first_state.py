#!/usr/bin/env python3
"""Tells make_state.py what a boot ROM has left in the hart.

    first_state.py WORDS <run.log >head.log
    make_state.py IMAGE --pc 0x80000000 $(cat WORDS) -o start.rvstate

The judge's hart begins with registers that are 0. qemu's comes to the firmware out of its boot ROM,
which has set a0 to the hart's number, a1 to the device tree, and others besides. Reads the log of
qemu up to the state at the firmware's first address (--pc), and passes on to standard output what
it has read. WORDS gets a word --set=NAME=VALUE for each register that is not as at reset. At the
end of a whole log qemu_log.py tells the same; this tells it at once, for a run that is judged live.
"""
import os
import re
import sys
from pathlib import Path

sys.path.insert(0, str(Path(__file__).resolve().parents[1]))
from common import Refused, ends, number_word, parser_of  # noqa: E402  # found by the line before
from core_registers import CSRS  # noqa: E402
from qemu_log import AT_RESET  # noqa: E402

MOST_OF_A_ROM = 1 << 20  # bytes of a log
STORED_OF_MIP = 0x22  # what no interrupt line has
VALUE = re.compile(r"^ (?:(x\d+)/\S+|(\w+)) +([0-9a-f]{16})$|(?<= )(x\d+)/\S+ +([0-9a-f]{16})\b",
                   re.MULTILINE)


def values_in(text, pc):
    """The values of the first state at pc by name; None where it is not there as a whole."""
    begin = text.find(f" pc       {pc:016x}\n")
    end = text.find(" x31/", begin)
    if begin < 0 or end < 0 or text.find("\n", end) < 0:
        return None
    found = {}
    for first, csr, value, other, value_of_other in VALUE.findall(
            text[begin:text.index("\n", end)]):
        found[first or csr or other] = int(value or value_of_other, 16)
    if not {f"x{it}" for it in range(32)} <= found.keys():
        raise Refused("the log shows a state without all registers")
    return found


def read_head(descriptor, pc):
    """The log up to its first state at pc, and the values there."""
    head, values = b"", None
    while values is None:
        if len(head) > MOST_OF_A_ROM:
            raise Refused(f"the boot ROM does not lead to 0x{pc:x}")
        if not (read := os.read(descriptor, 4096)):
            raise Refused(f"the log ends before 0x{pc:x}")
        head += read
        values = values_in(head.decode("latin-1"), pc)
    return head, values


def words_of(values):
    """The words of make_state.py for what is not as at reset."""
    kept = {name: value for name, value in values.items() if name[0] == "x" or name in CSRS}
    if "mip" in kept:
        kept["mip"] &= STORED_OF_MIP
    for name, value in kept.items():
        if value != AT_RESET.get(name, 0):
            yield f"--set={name}=0x{value:x}\n"


def main():
    parser = parser_of(__doc__)
    parser.add_argument("words", metavar="WORDS")
    parser.add_argument("--pc", type=number_word, default=0x80000000, metavar="A",
                        help="where the firmware begins (default 0x80000000)")
    words = parser.parse_args()

    def run():
        head, values = read_head(0, words.pc)
        with open(words.words, "w", encoding="ascii") as out:
            out.writelines(words_of(values))
        sys.stdout.buffer.write(head)
        sys.stdout.flush()
        return 0

    return ends("first_state.py", run)


if __name__ == "__main__":
    sys.exit(main())
