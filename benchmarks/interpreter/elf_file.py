"""Reads an executable as an image, and says why one is refused; a part of judge.py.

After the System V ABI, "Object Files"; the rules are those of docs/REFERENCE.md, written here a second time.
"""
import struct

from trace_text import Refused

FRONT = b"\x7fELF"  # by which an executable is told from other images
HEADER = struct.Struct("<4xBB10xHHxxxxQQ14xHH6x")  # class, data, type, machine, entry, table, its entries' size, number
SEGMENT = struct.Struct("<IxxxxQ8xQQQ8x")  # type, offset, physical address, sizes in the file and in memory
WIDE, LITTLE, EXECUTABLE, RISCV, LOADABLE = 2, 1, 2, 243, 1
MANY = 0xFFFF  # the number of segments stands elsewhere


def refuse(is_fault, why):
    if is_fault:
        raise Refused(f"image: elf {why}")


def read_elf(data, ram):
    """The bytes of an executable by their addresses, without those that are 0 for want of a byte in the file,
    and its entry point."""
    refuse(len(data) < HEADER.size, "cut short")
    *kind, entry, table, size, count = HEADER.unpack_from(data)
    refuse(kind != [WIDE, LITTLE, EXECUTABLE, RISCV], "of another kind")
    refuse((count and size != SEGMENT.size) or count == MANY, "table size")
    refuse(count and table + SEGMENT.size * count > len(data), "cut short")
    refuse(entry % 2, "entry odd")
    image, loaded = {}, []
    for number in range(count):
        kind, offset, place, in_file, in_memory = SEGMENT.unpack_from(data, table + SEGMENT.size * number)
        if kind != LOADABLE or not in_memory:
            continue
        named, segment = f"segment {number}:", range(place, place + in_memory)
        refuse(in_file > in_memory or (in_file and offset + in_file > len(data)), f"{named} bad size")
        refuse(place < ram.start or segment.stop > ram.stop, f"{named} outside RAM")
        refuse(any(place < other.stop and other.start < segment.stop for other in loaded), f"{named} overlap")
        loaded.append(segment)
        image.update(enumerate(data[offset : offset + in_file], place))
    return image, entry
