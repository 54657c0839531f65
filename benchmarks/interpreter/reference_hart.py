#!/usr/bin/env python3
"""A hart of RV64IMAC with Zicsr, Zifencei and the modes M, S and U, as a plain interpreter.

Written after the RISC-V Unprivileged ISA and the Privileged Architecture, version 20211203 (chapters
"Control and Status Registers (CSRs)", "Machine-Level ISA" and "Supervisor-Level ISA"), and apart from
rvjudge, whose second opinion it is. What the standards leave to a core is asked of a Core, or stands in
Choices, which can add Zba, Zbb and Zbs. Its parts are hart_instructions.py, hart_bits.py, hart_registers.py,
hart_memory.py, hart_choices.py and hart_profile.py.

Every access is translated where satp says so, and held to the entries of physical memory protection.
Nothing is cached, so SFENCE.VMA has nothing to do.
"""
from typing import NamedTuple

from hart_bits import BITS, decode_bits
from hart_choices import Choices
from hart_instructions import ATOMIC, BRANCHES, INTEGER, LOADS, MASK, STORES, Instruction, decode, expand, signed
from hart_memory import FETCH, LOAD, PAGE, RAM, STORE, Trap, translate
from hart_registers import MPP_AT, MPRV, TSR, TVM, TW, ControlRegisters, M, S, U

# what instructions compute of their sources alone
COMPUTED = INTEGER | BITS

# codes of exceptions that no access raises
ILLEGAL, BREAKPOINT = 2, 3
CALL_FROM_U = 8  # and the mode's number more from S and M


class Access(NamedTuple):
    """The bytes that one instruction reads and writes; None where it does not. Its place is physical, that of
    its first byte."""

    address: int
    place: int
    length: int
    read: int | None
    written: int | None


class Retired(NamedTuple):
    """What one instruction did.

    bits and instruction are None where a trap came before they were known. loaded has the bytes of
    RAM that its own access read. written has all bytes of RAM that the step wrote, those of page
    tables too, also where it trapped. Both are ranges of physical addresses.
    """

    bits: int | None
    length: int
    instruction: Instruction | None
    pc: int
    next_pc: int
    source1: int
    source2: int
    value: int
    access: Access | None
    trap: Trap | None
    loaded: list
    written: list


class Core:
    """The choices that a core may make anew at each instruction; these are the plainest."""

    def stores(self, instruction):
        """Whether an SC stores whose bytes lie in the reserved block."""
        return True

    def decided(self, name, instruction):
        """The value of a counter or of a register of the core's identity."""
        return 0

    def lines(self, instruction):
        """The interrupt lines that a read of mip or sip finds up."""
        return 0

    def refuses(self, instruction):
        """Whether an access to time, or to a register that may be missing, or a WFI that may trap, is illegal."""
        return False

    def device_refuses(self, place, length):
        """Whether a device refuses an access at this place, where devices may."""
        return False

    def device_load(self, address, place, length):
        """What a device gives, at this place, to a load at this address."""
        return 0

    def device_store(self, place, length, value):
        """A store to a device."""


class Hart:
    """The registers, pc, the mode, memory, and the reservation, which is the number of a block or None.

    devices answers by `in` whether a physical address is theirs.
    """

    def __init__(self, memory, core=None, devices=range(0), pc=RAM.start, choices=Choices()):
        self.memory = memory
        self.choices = choices
        self.core = core or Core()
        self.devices = devices
        self.registers = [0] * 32
        self.pc = pc
        self.mode = M
        self.csrs = ControlRegisters(profile=choices.profile)
        self.reserved = None
        self.fetched = None  # the bits of the instruction at hand
        self.loaded = []  # the bytes of RAM that its own access read
        self.decoded = {}

    def copy(self):
        """A hart in the same state, with the same core and choices."""
        hart = Hart(self.memory.copy(), self.core, self.devices, choices=self.choices)
        hart.registers = list(self.registers)
        hart.pc, hart.mode, hart.reserved = self.pc, self.mode, self.reserved
        hart.csrs = self.csrs.copy()
        hart.decoded = self.decoded  # what words mean is the same for every hart of these choices
        return hart

    def take_interrupt(self, code):
        """Enters an interrupt ahead of the next instruction."""
        self.mode, self.pc = self.csrs.enter(self.mode, self.pc, code, 0, True)

    def lose(self, written):
        """Ends the reservation where a byte that another hart wrote lies in its block."""
        block = self.choices.block
        if any(byte // block == self.reserved for place in written for byte in place):
            self.reserved = None

    def fetch(self):
        """The bits at pc, 16 or 32 of them, and their length in bytes; each half is checked by itself."""
        bits = self.fetch_half(self.pc)
        if bits & 3 != 3:
            return bits, 2
        return bits | self.fetch_half(self.pc + 2 & MASK) << 16, 4

    def fetch_half(self, address):
        place = translate(self.csrs, self.memory, FETCH, self.mode, address, self.choices.marks)
        if not self.csrs.allows(self.mode, place, 2, FETCH.right) or place not in self.memory.ram:
            raise Trap(FETCH.access_fault, address)
        return self.memory.read(place, 2)

    def data_mode(self):
        """The mode that loads and stores have."""
        status = self.csrs.values["mstatus"]
        return status >> MPP_AT & 3 if self.mode == M and status & MPRV else self.mode

    def parts(self, address, length, kind, atomic=False, in_ram=False):
        """The parts of a data access, each a physical address and its bytes; a trap where one is refused.

        An access at a multiple of its length is one part, which must lie in RAM where in_ram is set. Any
        other one, where it is carried out, is split at the end of a page of virtual addresses, and each part
        goes to RAM alone. The parts are asked for in order, each translated and then checked, and the first
        refusal is that of the access.
        """
        if address % length == 0:
            return [(self.place(address, length, kind, in_ram), length)]
        if atomic or self.choices.misaligned == "trap":
            raise Trap(kind.misaligned, address)
        first = min(length, PAGE - address % PAGE)
        parts = [(self.place(address, first, kind, True), first)]
        if first < length:
            parts.append((self.place(address + first & MASK, length - first, kind, True), length - first))
        return parts

    def place(self, address, length, kind, in_ram):
        """The physical address of bytes in one page; a trap where they are refused or go nowhere."""
        mode = self.data_mode()
        place = translate(self.csrs, self.memory, kind, mode, address, self.choices.marks)
        answered = place in self.memory.ram or (place in self.devices and not in_ram)
        if not answered or not self.csrs.allows(mode, place, length, kind.right):
            raise Trap(kind.access_fault, address)
        if self.devices_may_refuse() and place in self.devices and self.core.device_refuses(place, length):
            raise Trap(kind.access_fault, address)
        return place

    def devices_may_refuse(self):
        """Whether a device may refuse an access; then devices take AMOs too."""
        return self.choices.profile.io_faults == "row"

    def step(self):
        """Carries out one instruction, or enters the trap that it runs into."""
        pc, bits, length, instruction = self.pc, None, 0, None
        source1 = source2 = 0
        self.loaded, self.memory.written = [], []
        try:
            bits, length = self.fetch()
            self.fetched = bits
            instruction = self.meaning(bits, length)
            source1 = self.registers[instruction.rs1] if instruction.rs1 else 0
            source2 = self.registers[instruction.rs2] if instruction.rs2 else 0
            value, next_pc, access = self.execute(instruction, source1, source2, pc + length & MASK)
        except Trap as trap:
            told = self.choices.told(trap)
            self.mode, self.pc = self.csrs.enter(self.mode, pc, trap.cause, told, False)
            return Retired(
                bits, length, instruction, pc, self.pc, source1, source2, 0, None, trap,
                [], self.memory.written)
        value = value & MASK if instruction.rd else 0
        if instruction.rd:
            self.registers[instruction.rd] = value
        self.pc = next_pc
        return Retired(
            bits, length, instruction, pc, next_pc, source1, source2, value, access, None,
            self.loaded, self.memory.written)

    def meaning(self, bits, length):
        """The instruction of these bits."""
        instruction = self.decoded.get(bits)
        if instruction is None:
            instruction = decode(bits) if length == 4 else expand(bits)
            if instruction is None and length == 4 and self.choices.bits == "on":
                instruction = decode_bits(bits)
            if instruction is None:
                raise Trap(ILLEGAL, bits)
            self.decoded[bits] = instruction
        return instruction

    def execute(self, instruction, source1, source2, after):
        """The value for rd, the next pc, and the access; after is the address after the instruction."""
        name, imm = instruction.name, instruction.imm
        if name in COMPUTED:
            other = imm & MASK if instruction.rs2 is None else source2
            return COMPUTED[name](source1, other), after, None
        if name in BRANCHES:
            return 0, self.pc + imm & MASK if BRANCHES[name](source1, source2) else after, None
        if name in LOADS:
            return self.execute_load(LOADS[name], source1 + imm & MASK, after)
        if name in STORES:
            return self.execute_store(STORES[name], source1 + imm & MASK, source2, after)
        match name:
            case "LUI":
                return imm, after, None
            case "AUIPC":
                return self.pc + imm, after, None
            case "JAL":
                return after, self.pc + imm & MASK, None
            case "JALR":
                return after, source1 + imm & MASK & ~1, None
            case "FENCE":
                return 0, after, None
        if name.startswith("CSRR"):
            return self.execute_csr(instruction, source1), after, None
        if "." in name:
            return self.execute_atomic(instruction, source1, source2, after)
        return 0, self.execute_system(instruction, after), None

    def execute_load(self, loaded_as, address, after):
        length, by_sign = loaded_as
        parts = self.parts(address, length, LOAD)
        place = parts[0][0]
        if place in self.memory.ram:
            loaded = 0
            for at, size in reversed(parts):
                loaded = loaded << 8 * size | self.memory.read(at, size)
            self.loaded = [range(at, at + size) for at, size in parts]
        else:
            loaded = self.core.device_load(address, place, length)
        value = signed(loaded, 8 * length) if by_sign else loaded
        return value, after, Access(address, place, length, loaded, None)

    def execute_store(self, length, address, source2, after):
        stored = source2 & ((1 << 8 * length) - 1)
        parts = self.parts(address, length, STORE)
        place = parts[0][0]
        if place in self.memory.ram:
            left = stored
            for at, size in parts:
                self.memory.store(at, size, left & ((1 << 8 * size) - 1))
                left >>= 8 * size
        else:
            self.core.device_store(place, length, stored)
        return 0, after, Access(address, place, length, None, stored)

    def execute_atomic(self, instruction, address, source2, after):
        operation, _, suffix = instruction.name.partition(".")
        length = 4 if suffix == "W" else 8
        source = source2 & ((1 << 8 * length) - 1)
        in_ram = operation in ("LR", "SC") or not self.devices_may_refuse()
        ((place, _),) = self.parts(address, length, LOAD if operation == "LR" else STORE, True, in_ram)
        if place not in self.memory.ram:
            return self.execute_at_device(instruction, address, place, length, source, after)
        block = place // self.choices.block
        old = self.memory.read(place, length)
        if operation != "SC":
            self.loaded = [range(place, place + length)]
        match operation:
            case "LR":
                self.reserved = block
                return signed(old, 8 * length), after, Access(address, place, length, old, None)
            case "SC":
                succeeds = self.reserved == block and self.core.stores(instruction)
                self.reserved = None
                if not succeeds:
                    return 1, after, None
                self.memory.store(place, length, source)
                return 0, after, Access(address, place, length, None, source)
        stored = ATOMIC[operation](old, source, 8 * length) & ((1 << 8 * length) - 1)
        self.memory.store(place, length, stored)
        return signed(old, 8 * length), after, Access(address, place, length, old, stored)

    def execute_at_device(self, instruction, address, place, length, source, after):
        """The same of an AMO at a device, which gives the old value as it does to a load."""
        operation = instruction.name.partition(".")[0]
        old = self.core.device_load(address, place, length)
        stored = ATOMIC[operation](old, source, 8 * length) & ((1 << 8 * length) - 1)
        self.core.device_store(place, length, stored)
        return signed(old, 8 * length), after, Access(address, place, length, old, stored)

    def illegal(self):
        """The trap of the instruction at pc that may not be carried out here."""
        return Trap(ILLEGAL, self.fetched)

    def execute_system(self, instruction, after):
        """The next pc of an instruction of the modes."""
        status = self.csrs.values["mstatus"]
        match instruction.name:
            case "ECALL":
                raise Trap(CALL_FROM_U + self.mode, 0)
            case "EBREAK":
                raise Trap(BREAKPOINT, self.pc)
            case "MRET" if self.mode == M:
                self.mode, next_pc = self.csrs.mret()
                return next_pc
            case "SRET" if self.mode == M or (self.mode == S and not status & TSR):
                self.mode, next_pc = self.csrs.sret()
                return next_pc
            case "SFENCE_VMA" if self.mode == M or (self.mode == S and not status & TVM):
                return after
            case "WFI":
                may_trap = self.mode == U or (self.mode == S and status & TW)
                if not (may_trap and self.core.refuses(instruction)):
                    return after
        raise self.illegal()

    def execute_csr(self, instruction, source1):
        """The value for rd of a CSR instruction, which writes the register too where it is to."""
        form = instruction.name[4]  # W writes, S sets, C clears
        operand = instruction.imm if instruction.name.endswith("I") else source1
        names_none = not (instruction.rs1 or instruction.imm)
        writes, reads = form == "W" or not names_none, form != "W" or instruction.rd != 0
        name = self.csrs.named(instruction.csr, self.mode, writes)
        may_lack = self.choices.profile.words.get(name) == "maybe"
        if name is None or (may_lack and self.core.refuses(instruction)):
            raise self.illegal()
        if self.csrs.is_decided(name):
            return self.core.decided(name, instruction) if reads else 0
        lines = self.core.lines(instruction) if reads and name in ("mip", "sip") else 0
        value = self.csrs.read(name, lines)
        if writes:
            # A line that is up is not stored by a set form: that one starts from what is held.
            base = self.csrs.read(name)
            self.csrs.write(name, {"W": operand, "S": base | operand, "C": base & ~operand}[form])
        return value
