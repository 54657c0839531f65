"""An ELF file as the judge takes it for an image: what its loadable segments put where."""
import struct

MAGIC = b"\x7fELF"
LOADABLE = 1


def is_executable(data):
    """Whether it is one of 64 bits, little-endian, for RISC-V, at fixed addresses."""
    return data[4:6] == b"\2\1" and data[16:20] == struct.pack("<HH", 2, 243)


def entry_point(data):
    """The address of the first instruction."""
    return struct.unpack_from("<Q", data, 24)[0]


def segments(data):
    """The physical address and the bytes of each segment that is loaded. What else a segment has in
    memory is 0, as all of RAM is."""
    table, = struct.unpack_from("<Q", data, 32)
    size, count = struct.unpack_from("<HH", data, 54)
    for at in range(table, table + size * count, size or 1):
        kind, _, offset, _, address, length = struct.unpack_from("<IIQQQQ", data, at)
        if kind == LOADABLE:
            yield address, data[offset:offset + length]
