"""What an image says of the hart at its start: an ELF file, a saved state, or Verilog text."""
import re

import elf_image
from common import Refused

SAVED = b"rvstate 1\n"  # by which a saved state is told from other images
BLOCK = 16  # bytes of a line of a saved state
COMMENT = re.compile(r"/\*.*?\*/|//[^\n]*", re.DOTALL)
ADDRESS = re.compile(r"[0-9a-fA-F]{1,16}(?!\S)")


def registers_at(path):
    """The registers of each hart of a saved state by the names of its lines; none of another image,
    as all are 0 at reset."""
    harts = []
    with open(path, "rb") as file:
        if file.read(len(SAVED)) != SAVED:
            return harts
        for line in file:
            name, _, value = line.decode("latin-1").partition(" ")
            if name[0] == "@":
                break
            if name == "pc":
                harts.append({})
            elif re.fullmatch("x[0-9]+|csr_satp", name):
                harts[-1][name] = int(value, 16)
    return harts


def bytes_at(path, address, size):
    """Bytes of memory, 0 where the image has none; None each where it is no image."""
    found = [0] * size
    try:
        for at, part in parts_of(path, address + size):
            for it in range(max(address, at), min(address + size, at + len(part))):
                found[it - address] = part[it - at]
    except Refused:
        return [None] * size
    return found


def parts_of(path, end=None):
    """The address and the bytes of each part of an image; those from the end on may be left out."""
    with open(path, "rb") as file:
        front = file.read(len(SAVED))
        if front == SAVED:
            yield from blocks_of(file, end)
            return
        data = front + file.read()
    if data.startswith(elf_image.MAGIC):
        yield from elf_image.segments(data)
    else:
        yield from text_parts(data.decode("latin-1"))


def blocks_of(lines, end):
    """The blocks of a saved state that begin below an address."""
    for line in lines:
        if line.startswith(b"@"):
            at = int(line[1:17], 16)
            if end is not None and at >= end:
                return
            yield at, bytes.fromhex(line[18:18 + 2 * BLOCK].decode("latin-1"))


def text_parts(text):
    """The address and the bytes of each part of a Verilog text, as objcopy writes it, which may have
    comments."""
    front, *parts = re.split(r"(?<!\S)@", COMMENT.sub(" ", text))
    yield 0, bytes_of(front.split())
    for part in parts:
        if (found := ADDRESS.match(part)) is None:
            token = f"@{part}".split(maxsplit=1)[0]
            raise Refused(f"{token[:20]!r} is neither a byte nor an address")
        yield int(found[0], 16), bytes_of(part[found.end():].split())


def bytes_of(tokens):
    """The bytes of tokens of two digits."""
    try:
        if {*map(len, tokens)} <= {2}:
            return bytes.fromhex("".join(tokens))
    except ValueError:
        pass
    token = next(it for it in tokens if not re.fullmatch("[0-9a-fA-F]{2}", it))
    raise Refused(f"{token[:20]!r} is neither a byte nor an address")
