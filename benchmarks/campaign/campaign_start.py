"""Saved states of several harts, from which runs begin; a part of campaign.py."""
from hart_instructions import MASK
from hart_memory import PAGE, Memory
from hart_registers import MPRV, SATP_MODE_AT, SV39, ControlRegisters, M, S, U
from judge import Harts, Judge
from reference_hart import Hart
from saved_state import text_of

EVERYTHING = (1 << 54) - 1  # the address of an entry of protection that covers all, as NAPOT


def prepare(chance, runs, places):
    """Gives each hart a state of its own: some go through page tables, and some reserve these."""
    root = places.ram.start + PAGE * chance.below(len(places.ram) // PAGE)
    for number, run in enumerate(runs):
        hart, maker = run.hart, run.maker
        hart.pc = places.ram.start + chance.below(len(places.ram)) & ~1
        for register in range(1, 32):
            spot = chance.pick(places.spots) & MASK
            hart.registers[register] = chance.pick((0, chance.number(), spot))
        hart.csrs.write("mtvec", maker.code_address() & ~3)
        hart.csrs.write("pmpaddr15", EVERYTHING)
        hart.csrs.write("pmpcfg2", 0x1F << 56)
        if number % 2:
            walk(chance, hart, maker, root)
        elif chance.one_in(3):
            hart.reserved = chance.pick((root, *places.blocks)) // places.block
        run.trapped_last = chance.one_in(4)


def walk(chance, hart, maker, root):
    """Lets a hart go through the tables at this root, in S or U, or in M with accesses of these."""
    mode = chance.pick((S, U))
    hart.csrs.write("satp", SV39 << SATP_MODE_AT | root // PAGE)
    hart.csrs.write("mstatus", maker.status(mode) | MPRV)
    if chance.one_in(3):
        hart.mode, hart.pc = mode, maker.virtual() & ~1
        hart.csrs.write("mstatus", maker.status(M) & ~MPRV)


class Start:
    """The state that runs begin from, as it is now; what is in memory is known later."""

    def __init__(self, runs, setting):
        self.judges = [self.judge(run, setting) for run in runs]

    @staticmethod
    def judge(run, setting):
        hart = Hart(Memory(ram=setting.ram), choices=setting.choices, pc=run.hart.pc)
        hart.registers, hart.mode = list(run.hart.registers), run.hart.mode
        hart.reserved = run.hart.reserved
        hart.csrs = ControlRegisters(dict(run.hart.csrs.values), setting.choices.profile)
        judge = Judge(hart)
        judge.next_order = run.order if run.chance.one_in(2) else None
        judge.trapped_last = run.trapped_last
        return judge

    def text(self, image):
        """The text of the state with these bytes, by their addresses, in memory."""
        harts = Harts(self.judges)
        harts.load(Memory(image.items(), self.judges[0].hart.memory.ram))
        return text_of(harts).encode()
