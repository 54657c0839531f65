"""What the standards leave to a core once and for all; a part of reference_hart.py.

What a core may choose anew at each instruction is asked of a Core instead.
"""
from dataclasses import dataclass

from hart_profile import Profile

# the values that some choices may have; trap_values may be a set of causes besides
VALUES = {
    "misaligned": ("trap", "done"),
    "trap_values": ("value", "zero"),
    "marks": ("fault", "set"),
    "block": tuple(8 << power for power in range(10)),  # up to a page
    "bits": ("off", "on"),
}
CAUSES_WITH_VALUE = frozenset((*range(1, 8), 12, 13, 15))  # those whose trap value can be other than 0


@dataclass(frozen=True)
class Choices:
    """The choices of a hart, which no step changes.

    misaligned: loads and stores at addresses that are no multiple of their length raise an exception, or are
    carried out (Unprivileged ISA, "RV32I Base Integer Instruction Set", section "Load and Store Instructions").
    LR, SC and AMOs raise it in any case, which "A" Standard Extension for Atomic Instructions allows.

    trap_values: mtval and stval tell what the Privileged Architecture names for each exception, or are 0 on
    every trap, or on those alone whose causes stand in a set (chapters "Machine-Level ISA" and
    "Supervisor-Level ISA", "Trap Value Register").

    marks: an access to a page whose A is clear, and a store to one whose D is, is a page fault, or sets them
    (chapter "Supervisor-Level ISA", section "Addressing and Memory Protection").

    block: the bytes of a reservation set, an aligned block of a size that is a power of two (Unprivileged
    ISA, section "Load-Reserved/Store-Conditional Instructions").

    bits: the hart lacks Zba, Zbb and Zbs of the Bit-Manipulation ISA-extensions, or has all three. misa tells
    nothing of them.

    profile: which registers, entries of protection, lines and devices the hart has, and of which kind.
    """

    misaligned: str = "trap"
    trap_values: str | frozenset = "value"
    marks: str = "fault"
    block: int = 64
    bits: str = "off"
    profile: Profile = Profile()

    def __post_init__(self):
        for name, values in VALUES.items():
            if not (getattr(self, name) in values or (name == "trap_values" and self.zeroes_some())):
                raise ValueError(f"{name} cannot be {getattr(self, name)}")

    def zeroes_some(self):
        """Whether trap_values is a set of causes that are told as 0."""
        causes = self.trap_values
        return isinstance(causes, frozenset) and bool(causes) and causes <= CAUSES_WITH_VALUE

    def told(self, trap):
        """What mtval or stval is on a trap."""
        if self.zeroes_some():
            return 0 if trap.cause in self.trap_values else trap.value
        return 0 if self.trap_values == "zero" else trap.value
