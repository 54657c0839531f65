#!/usr/bin/env python3
"""Saves the memory of a qemu that waits before its first instruction as the judge's image.

    qemu-system-riscv64 .. -S -qmp unix:SOCKET,server=on,wait=off
    memory_image.py SOCKET --ram 0x80000000:0x4000000 -o image.hex

Then it lets qemu go on. Where memory is 0 nothing is written: the judge's RAM has 0 there.
"""
import argparse
import json
import os
import socket
import sys
import tempfile
import time
from pathlib import Path

sys.path.insert(0, str(Path(__file__).resolve().parents[1]))
from common import Refused, ends, parser_of  # noqa: E402  # found by the line before

PAGE, LINE = 4096, 16  # bytes
SECONDS_TO_CONNECT = 60


class Control:
    """The control socket of qemu, as its QEMU Machine Protocol has it."""

    def __init__(self, path):
        end = time.monotonic() + SECONDS_TO_CONNECT
        self.socket = socket.socket(socket.AF_UNIX)
        while True:
            try:
                self.socket.connect(path)
                break
            except (FileNotFoundError, ConnectionRefusedError):
                if time.monotonic() > end:
                    raise Refused(f"qemu does not listen at {path}") from None
                time.sleep(0.05)
        self.lines = self.socket.makefile("r", encoding="utf-8")
        self.lines.readline()  # its greeting
        self.ask("qmp_capabilities")

    def ask(self, command, **words):
        text = json.dumps({"execute": command, "arguments": words})
        self.socket.sendall(f"{text}\n".encode())
        for line in self.lines:
            answer = json.loads(line)
            if "error" in answer:
                raise Refused(f"{command}: {answer['error']['desc']}")
            if "return" in answer:
                return
        raise Refused(f"qemu ended before it answered {command}")


def image_text(memory, base):
    """The lines of the image: sixteen bytes each, and none where all of them are 0."""
    after = None
    for page_at in range(0, len(memory), PAGE):
        page = memory[page_at:page_at + PAGE]
        if not any(page):
            continue
        for line_at in range(0, len(page), LINE):
            line, at = page[line_at:line_at + LINE], base + page_at + line_at
            if any(line):
                yield f"{line.hex(' ')}\n" if at == after else f"@{at:X}\n{line.hex(' ')}\n"
                after = at + len(line)


def base_and_size(text):
    try:
        base, size = (int(it, 0) for it in text.split(":"))
    except ValueError:
        raise argparse.ArgumentTypeError(f"{text} is no base:size") from None
    return base, size


def main():
    parser = parser_of(__doc__)
    parser.add_argument("socket", metavar="SOCKET")
    parser.add_argument("--ram", required=True, type=base_and_size, metavar="B:S",
                        help="the memory that is saved, as the judge's --ram")
    parser.add_argument("-o", required=True, metavar="FILE", help="the image")
    words = parser.parse_args()
    return ends("memory_image.py", lambda: save(words))


def save(words):
    base, size = words.ram
    control = Control(words.socket)
    with tempfile.TemporaryDirectory() as folder:
        path = os.path.join(folder, "memory")
        control.ask("pmemsave", val=base, size=size, filename=path)
        with open(path, "rb") as memory, open(words.o, "w", encoding="ascii") as image:
            image.writelines(image_text(memory.read(), base))
    control.ask("cont")
    return 0


if __name__ == "__main__":
    sys.exit(main())
