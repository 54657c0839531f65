"""Physical memory, and the way to it from virtual addresses: Sv39.

After the Privileged Architecture, version 20211203, chapter "Supervisor-Level ISA"; a part of
reference_hart.py. Nothing is cached. A walk to a page whose A is clear, or whose D is clear for a store, ends
in a page fault, or sets them in its leaf at once.
"""
from typing import NamedTuple

from hart_instructions import signed
from hart_registers import EXECUTE, MXR, READ, SATP_MODE_AT, SATP_PPN, SUM, SV39, WRITE, M, S, U

RAM = range(0x80000000, 0x88000000)
PAGE = 4096

# the bits of an entry of a page table; G and the two for software between D and the page's number say nothing
PTE_V, PTE_R, PTE_W, PTE_X, PTE_U, PTE_A, PTE_D = 1 << 0, 1 << 1, 1 << 2, 1 << 3, 1 << 4, 1 << 6, 1 << 7
PTE_PPN_AT, PTE_RESERVED_AT = 10, 54
ENTRY = 8  # bytes of an entry
VPN_BITS = 9  # of a virtual address, by which a table of one level is looked up
LEVELS = 3
VIRTUAL_BITS = 39


class Trap(Exception):
    """A synchronous trap: the code of its exception and its trap value."""

    def __init__(self, cause, value):
        super().__init__(f"exception {cause}, trap value 0x{value:x}")
        self.cause = cause
        self.value = value


class Kind(NamedTuple):
    """A kind of access: the right it needs of protection and of a page, and the codes of its exceptions."""

    right: int
    page_right: int
    misaligned: int
    access_fault: int
    page_fault: int


FETCH = Kind(EXECUTE, PTE_X, 0, 1, 12)  # what is fetched is never misaligned
LOAD = Kind(READ, PTE_R, 4, 5, 13)
STORE = Kind(WRITE, PTE_W, 6, 7, 15)


class Ranges(tuple):
    """Ranges of physical addresses, which answer by `in` whether one of them has an address."""

    def __contains__(self, address):
        return any(address in one for one in self)

    def meet(self):
        """Whether two of them have a byte in common."""
        ordered = sorted(self, key=lambda one: one.start)
        return any(below.stop > above.start for below, above in zip(ordered, ordered[1:]))


class Memory:
    """RAM: the pages that have a byte of the image or were written; all else is 0."""

    def __init__(self, image=(), ram=RAM):
        self.ram = ram
        self.pages = {}
        self.own = set()  # the numbers of the pages that no copy has too
        self.written = []  # what steps stored, as ranges of addresses, since this was emptied
        for address, byte in image:
            self.write(address, 1, byte)

    def copy(self):
        memory = Memory(ram=self.ram)
        memory.pages = dict(self.pages)
        self.own.clear()
        return memory

    def read(self, address, length):
        """The number that these bytes stand for; they lie in one page."""
        page = self.pages.get(address // PAGE)
        at = address % PAGE
        return int.from_bytes(page[at : at + length], "little") if page else 0

    def write(self, address, length, value):
        number, at = address // PAGE, address % PAGE
        if number not in self.own:
            self.pages[number] = bytearray(self.pages.get(number, PAGE))
            self.own.add(number)
        self.pages[number][at : at + length] = value.to_bytes(length, "little")

    def store(self, address, length, value):
        """Writes these bytes as a part of a step, and notes it."""
        self.written.append(range(address, address + length))
        self.write(address, length, value)


def read_image(path):
    """The addresses and bytes of a $readmemh text without comments."""
    with open(path, encoding="ascii") as text:
        tokens = text.read().split()
    address = 0
    for token in tokens:
        if token.startswith("@"):
            address = int(token[1:], 16)
        else:
            yield address, int(token, 16)
            address += 1


def translate(csrs, memory, kind, mode, address, marks):
    """The physical address that an access of this kind and mode has; a trap where it has none.

    A leaf that lacks A, or for a store D, and nothing else, is treated as this choice of marks says.
    """
    satp = csrs.values["satp"]
    if mode == M or satp >> SATP_MODE_AT != SV39:
        return address
    page_fault = Trap(kind.page_fault, address)
    if signed(address) != signed(address, VIRTUAL_BITS):
        raise page_fault
    table = (satp & SATP_PPN) * PAGE
    for level in reversed(range(LEVELS)):
        size = PAGE << VPN_BITS * level  # of the page, where this level has the leaf
        place = table + ENTRY * (address // size % (1 << VPN_BITS))
        if place not in memory.ram or not csrs.allows(S, place, ENTRY, READ):
            raise Trap(kind.access_fault, address)
        entry = memory.read(place, ENTRY)
        named = (entry >> PTE_PPN_AT) * PAGE
        if not entry & PTE_V or entry & (PTE_R | PTE_W) == PTE_W or entry >> PTE_RESERVED_AT:
            raise page_fault
        if entry & (PTE_R | PTE_X):
            if not admits(entry, kind, mode, csrs.values["mstatus"]) or named % size:
                raise page_fault
            needed = PTE_A | PTE_D if kind == STORE else PTE_A
            if entry & needed != needed:
                if marks == "fault":
                    raise page_fault
                # The entry is written as a store of S that has all its bytes.
                if not csrs.allows(S, place, ENTRY, WRITE):
                    raise Trap(kind.access_fault, address)
                memory.store(place, ENTRY, entry | needed)
            return named + address % size
        if entry & (PTE_U | PTE_A | PTE_D):  # reserved where an entry names a table
            raise page_fault
        table = named
    raise page_fault


def admits(leaf, kind, mode, status):
    """Whether a leaf lets an access of this kind happen in U or S under this mstatus, whatever A and D are."""
    if leaf & PTE_U:
        allowed = mode == U or (kind != FETCH and bool(status & SUM))
    else:
        allowed = mode == S
    rights = leaf | PTE_R if leaf & PTE_X and status & MXR else leaf
    return allowed and bool(rights & kind.page_right)
