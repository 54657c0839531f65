"""A small ELF file, after the System V ABI, "Object Files": for tests without a linker."""
import struct

HEADER, ENTRY_OF_TABLE = 64, 56


def small_elf(address, data):
    """An executable for RISC-V of one segment, whose entry point is its first byte."""
    header = b"\x7fELF\2\1\1" + bytes(9) + struct.pack(
        "<HHIQQQIHHHHHH", 2, 243, 1, address, HEADER, 0, 0, HEADER, ENTRY_OF_TABLE, 1, 0, 0, 0)
    place = HEADER + ENTRY_OF_TABLE
    return header + struct.pack(
        "<IIQQQQQQ", 1, 7, place, address, address, len(data), len(data), 1) + data
