"""Several harts that run through one memory and meet in some places; a part of campaign.py."""
import re
from collections import Counter

from campaign_code import encode
from campaign_plan import Maker
from campaign_run import Run
from campaign_start import Start, prepare
from hart_instructions import ATOMIC, LOADS, MASK, STORES
from hart_memory import ENTRY, FETCH, PTE_D, PTE_W, STORE
from judge import HART, MOST_HARTS

MHARTID = 0xF14
NOT_STORED = "rd_wdata expected 0x0000000000000001 found 0x0000000000000000"
NOT_THERE = re.compile(r"refused trace: row \d+: hart not there")


def pick_count(chance):
    """How many harts there are."""
    return chance.pick((1, 2, 2, 2, 3, 3, 4, 4, 5, 6, 7, 8))


def add_column(chance, columns):
    """Puts the column that names harts among the others, mostly."""
    if not chance.one_in(16):
        columns.insert(chance.below(len(columns) + 1), HART)


def alter_hart(chance, rows, harts):
    """Lets a row name another hart, or one that is not there; what was done."""
    row = chance.pick(rows)
    others = [number for number in range(harts) if number != row.get(HART)]
    row[HART] = chance.pick((
        chance.pick(others or [harts]), chance.pick(others or [None]), harts,
        chance.pick((harts + 1, 8, 1 << 32, MASK, None)),
    ))
    return "other hart"


class Places:
    """The places that harts share: a few blocks of reservations, and entries of page tables."""

    def __init__(self, chance, setting):
        self.ram, self.block = setting.ram, setting.choices.block
        count = len(setting.ram) // self.block
        self.blocks = [
            setting.ram.start + self.block * chance.below(count)
            for _ in range(chance.pick((1, 1, 2)))
        ]
        self.spots = [
            chance.pick(self.blocks) + chance.pick((0, 0, 8, self.block - 8, -8, self.block))
            for _ in range(4)
        ]
        self.entries, self.roots = [], []
        self.taken = {}  # the blocks that harts took from others, by the numbers of these
        self.is_saved = chance.one_in(3)  # whether the run begins from a saved state
        # A way apart is to be made where harts begin at one place, mostly.
        self.parts = not (self.is_saved or chance.one_in(3))
        self.share = chance.pick((0.2, 0.5, 0.8))  # of what they do, by which they meet

    def pick(self, chance, length, is_odd, is_virtual=False):
        """An address of data of this length in a block that is shared, or right beside it."""
        if self.entries and not is_virtual and chance.random() < (0.5 if self.is_saved else 0.2):
            address = chance.pick(self.entries)
        elif chance.one_in(6):
            address = chance.pick(self.blocks) + (chance.below(self.block) & -8)
        else:
            address = chance.pick(self.spots)
        if is_odd and chance.one_in(3):  # so that later bytes alone lie in the block
            return (address & -self.block) - chance.below(length) & MASK
        return address & MASK

    def note(self, address):
        """Notes that such an entry of a page table lies here."""
        self.entries = [*self.entries[-5:], address]


class SharingMaker(Maker):
    """A maker whose hart goes where others go as well."""

    def __init__(self, chance, setting, with_bits, places, number):
        self.places, self.number = places, number
        super().__init__(chance, setting, with_bits)

    def begin(self):
        super().begin()
        if self.places.is_saved:
            self.plan = []
        elif self.chance.one_in(2):
            self.plan = [self.set_vector]  # it stays in M, and meets others sooner
        if self.places.parts:
            self.plan.insert(0, self.part)

    def value(self, walk, address, length):
        value = super().value(walk, address, length)
        if walk and length == ENTRY and value & PTE_W and not value & PTE_D:
            self.places.note(address)  # a leaf in which D is still to be set
        return value

    def part(self):
        """Lets each hart that comes here go on elsewhere, by its number or a count in memory."""
        chance = self.chance
        if not self.places.parts:
            return  # another one has made it
        self.places.parts = False
        number, place = chance.sample(range(1, 32), 2)
        shift, jump = chance.pick((6, 9, 10)), 16 + 4 * chance.below(8)
        steps = [lambda: encode("CSRRS", number, 0, imm=MHARTID)]
        if "rd_wdata" not in self.hart.core.columns or chance.one_in(3):
            steps = [
                lambda: encode("AUIPC", place, imm=self.page_offset()),
                lambda: encode("ADDI", number, 0, imm=1),
                lambda: encode("AMOADD.W", number, place, number),
                lambda: encode("ANDI", number, number, imm=7),
            ]
        self.first(
            *steps, lambda: encode("SLLI", number, number, imm=shift),
            lambda: encode("AUIPC", place, imm=0), lambda: encode("ADD", place, place, number),
            lambda: encode("JALR", 0, place, imm=jump),
        )

    def another(self):
        if self.number in self.places.taken and self.chance.one_in(2):
            name = self.chance.pick(("SC.W", "SC.D"))
            return self.access_to(name, self.places.taken[self.number])
        if self.chance.random() < self.places.share:
            return self.meet()
        return super().another()

    def near(self, length, low, high):
        return None if self.chance.one_in(2) else super().near(length, low, high)

    def address(self, length):
        if self.chance.one_in(2):
            return self.shared_address(length)
        return super().address(length)

    def frame(self, size, offset, kind):
        if kind == STORE and self.chance.one_in(12):
            return self.ram.stop + size - 1 & -size  # outside, which is found out once D is set
        if kind != FETCH and self.chance.one_in(2):
            begin = self.chance.pick(self.places.blocks) & -size
            if begin + offset in self.ram:
                return begin
        return super().frame(size, offset, kind)

    def root(self):
        roots = self.places.roots
        if not roots or self.chance.one_in(2):
            roots.append(super().root())
        return self.chance.pick(roots)

    def meet(self):
        """LR and SC with something between them, an AMO, a store or a load, where others do so."""
        chance, suffix = self.chance, self.chance.pick("WD")
        address = self.places.pick(chance, 8, False, self.is_translated())
        kind = chance.below(8)
        if kind < 4:
            other = address + chance.pick((0, 0, 0, 0, 8, 4)) & MASK
            steps = [lambda: self.access_to(f"LR.{suffix}", address)]
            steps += [self.another] * chance.pick((0, 0, 1, 2))
            steps.append(lambda: self.access_to(f"SC.{suffix}", other))
            self.first(*steps)
            return None
        if kind == 4:
            return self.access_to(f"{chance.pick(list(ATOMIC))}.{suffix}", address)
        name = chance.pick(list(STORES if kind < 7 else LOADS))
        return self.access_to(name, self.shared_address(self.length_of(name)))

    def shared_address(self, length):
        return self.places.pick(self.chance, length, self.goes_anywhere(), self.is_translated())


class Runs:
    """Runs of harts over one memory, whose rows stand among each other."""

    def __init__(self, chance, setting, columns, reached, with_choices):
        self.chance, self.reached, self.block = chance, reached, setting.choices.block
        self.places, self.runs = Places(chance, setting), []
        for number in range(setting.harts):
            maker = SharingMaker(chance, setting, with_choices, self.places, number)
            beside = self.runs[0] if self.runs else None
            run = Run(chance, setting, columns, reached, maker, beside)
            run.core.number = number
            self.runs.append(run)
        first = self.runs[0]
        self.hart, self.columns = first.hart, first.columns
        self.rows, self.pcs, self.history = first.rows, first.pcs, first.history
        self.count = first.count + 16 * (setting.harts - 1)
        self.failed = []  # the rows of SCs whose block another hart took, with their steps
        self.calm = chance.pick((0.2, 0.5, 0.8))  # how often the same hart goes on
        reached["harts", f"{setting.harts} harts"] += 1
        self.start = None
        if self.places.is_saved:
            prepare(chance, self.runs, self.places)
            self.start = Start(self.runs, setting)

    def make(self):
        """Its rows, fewer where all harts come to the same places again and again, or halt."""
        chance, visits, at = self.chance, Counter(), 0
        ready = list(range(len(self.runs))) if HART in self.columns else [0]
        while ready and len(self.rows) < self.count:
            if at not in ready or chance.random() > (self.calm if self.is_free(at) else 0.2):
                at = chance.pick(ready)
            visits[at, self.runs[at].hart.pc] += 1
            self.step(at)
            if self.halts() or visits[at, self.runs[at].hart.pc] >= 4:
                ready.remove(at)
            self.runs[at].skip()

    def is_free(self, at):
        """Whether a hart has no reservation that another one could take."""
        return self.runs[at].hart.reserved is None

    def halts(self):
        """Whether the hart of the last row halts there."""
        if not self.chance.one_in(200):
            return False
        self.rows[-1]["halt"] = 1
        self.reached["harts", "a hart halts"] += 1
        return True

    def step(self, at):
        """A row of one hart, and what it takes from the others."""
        run = self.runs[at]
        run.hart.memory.maker = run.maker
        retired = run.step()
        self.rows[-1][HART] = at or self.chance.pick((0, 0, None))
        self.count_own(at, retired)
        for number, other in enumerate(self.runs):
            if number == at or other.hart.reserved is None:
                continue
            first = other.hart.reserved * self.block
            places = [place for place in retired.written if meets(place, first, self.block)]
            if places:
                other.hart.reserved = None
                self.places.taken[number] = first
                for place in places:
                    self.reached["harts", f"taken by {writer(retired, place, first)}"] += 1
            elif any(meets(place, first - 8, self.block + 16) for place in retired.written):
                self.reached["harts", "kept beside what was written"] += 1

    def count_own(self, at, retired):
        """Counts what a hart's step does to its own reservation, or with what others left of it."""
        run, name = self.runs[at], retired.instruction.name if retired.instruction else ""
        if name.startswith("SC") and not retired.trap:
            how = "stores" if retired.access else "fails"
            if self.places.taken.pop(at, None) is not None:
                self.reached["harts", f"SC {how} after another hart took it"] += 1
                self.failed.append((len(self.rows), retired))
        elif name.startswith("LR") and not retired.trap:
            self.places.taken.pop(at, None)
            others = [other for other in self.runs if other is not run]
            if any(other.hart.reserved == run.hart.reserved for other in others):
                self.reached["harts", "a block that two reserve"] += 1
        elif run.hart.reserved is not None:
            first = run.hart.reserved * self.block
            if any(meets(place, first, self.block) for place in retired.written):
                self.reached["harts", "kept by the hart that wrote"] += 1

    def show_store(self):
        """Lets an SC that fails show that it stores; what was done, and the line due if known."""
        number, retired = self.chance.pick(self.failed)
        row, length = self.rows[number - 1], 4 if retired.instruction.name.endswith("W") else 8
        row |= {
            "rd_wdata": 0, "mem_addr": retired.source1, "mem_wmask": (1 << length) - 1,
            "mem_wdata": retired.source2 & (1 << 8 * length) - 1,
        }
        is_known = retired.instruction.rd and "rd_wdata" in self.columns
        return "SC that stores", f"differs row {number}: {NOT_STORED}" if is_known else None

    def turned_bits(self):
        """The line that is due where the options turn bit manipulation on or off, if known."""
        found = [run for run in self.runs if run.first_bits]
        return min(found, key=lambda run: run.first_bits[0]).turned_bits() if found else None


def meets(place, first, size):
    """Whether a range of bytes has one of those from first on, of which there are so many."""
    return place.start < first + size and first < place.stop


def writer(retired, place, first):
    """What wrote these bytes, of a step that took the block which begins here."""
    if retired.trap:
        return "marks of a row that trapped"
    if retired.access is None or retired.access.written is None or not is_data(retired, place):
        return "marks"
    operation = retired.instruction.name.partition(".")
    if not operation[1]:
        return "a store's later bytes alone" if place.start < first else "a store"
    return "an SC" if operation[0] == "SC" else "an AMO"


def is_data(retired, place):
    """Whether these bytes are of the access itself, which come last, in one part or in two."""
    parts = 1 if len(retired.written[-1]) == retired.access.length else 2
    return any(part is place for part in retired.written[-parts:])


def count_harts(reached, said):
    """Counts answers that several harts alone have."""
    if NOT_THERE.fullmatch(said):
        reached["harts", "refused, not there"] += 1


def harts_to_reach():
    for count in range(1, MOST_HARTS + 1):
        yield "harts", f"{count} harts"
        yield "option", f"harts {count}"
    for what in (
        "a store", "a store's later bytes alone", "an SC", "an AMO", "marks",
    ):
        yield "harts", f"taken by {what}"
    for what in (
        "SC fails after another hart took it", "a block that two reserve", "a hart halts",
        "kept by the hart that wrote", "kept beside what was written", "refused, not there",
    ):
        yield "harts", what
    for what in ("other hart", "other number of harts", "SC that stores"):
        yield "altered", what
    yield "column", HART
