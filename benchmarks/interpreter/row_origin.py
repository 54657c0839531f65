"""Where what a row works on came from: the rows that wrote it last. A part of judge.py.

The rules are those of its option --origin: the last earlier row whose step wrote a register of the
same hart, and the last one of any hart whose step wrote a byte of RAM.
"""


class Last:
    """The rows seen so far, by what their steps wrote last."""

    def __init__(self):
        self.registers = {}  # by the numbers of hart and register
        self.bytes = {}  # by the physical address

    def add(self, row, hart, retired):
        """Takes in what the step of a row did; one that trapped may have set A and D."""
        if retired.trap is None and retired.instruction.rd:
            self.registers[hart, retired.instruction.rd] = row
        for written in retired.written:
            self.bytes.update(dict.fromkeys(written, row))

    def lines(self, hart, retired):
        """Where the sources of this step and the bytes that its access read came from.

        None was stepped where the hart was halted; what a trapped one worked on is not told.
        """
        if retired is None or retired.trap:
            return
        instruction = retired.instruction
        for register in dict.fromkeys((instruction.rs1, instruction.rs2)):
            if register:
                row = self.registers.get((hart, register))
                yield f"origin x{register} " + (f"row {row}" if row else "reset")
        for byte in sorted(byte for loaded in retired.loaded for byte in loaded):
            row = self.bytes.get(byte)
            yield f"origin byte 0x{byte:016x} " + (f"row {row}" if row else "image")
