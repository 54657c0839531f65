"""The origins of a difference, by what a run kept of its steps; a part of campaign.py."""
import re
from typing import NamedTuple

ORIGIN = re.compile(r"origin (x\d+|byte 0x[0-9a-f]{16}) (row \d+|reset|image)")
# alterations of one field, after which the rows before it are stepped as they were
OF_A_FIELD = ("altered value", "emptied field")
# columns by which a row may lead its hart elsewhere
LEADING = ("valid", "intr", "pc_rdata", "trap", "hart", "csr_mip_rdata", "csr_mip_rmask")


class Record(NamedTuple):
    """What a run did.

    history has the hart of each row and what the step did, None of one that is not valid; shown the
    fields as the run showed them, and rows the same as they may be altered.
    """

    history: list
    shown: list
    rows: list

    @classmethod
    def of(cls, run):
        return cls(run.history, [dict(row) for row in run.rows], run.rows)

    def altered(self):
        """The number of the only altered row, where that leads its hart nowhere else; else None."""
        if len(self.shown) != len(self.rows):
            return None
        found = [at for at, row in enumerate(self.rows) if row != self.shown[at]]
        if len(found) != 1 or self.history[found[0]] is None:
            return None
        row, shown = self.rows[found[0]], self.shown[found[0]]
        if any(row.get(column) != shown.get(column) for column in LEADING):
            return None
        return found[0] + 1

    def steps(self, row):
        """The earlier rows that are valid: the number, the hart, and what the step did."""
        for at, kept in enumerate(self.history[: row - 1], 1):
            if kept:
                yield at, *kept

    def loading(self):
        """The rows whose step loaded a byte that an earlier row wrote."""
        written = set()
        for kept, row in zip(self.history, self.rows):
            if kept:
                _, retired = kept
                if not retired.trap and not written.isdisjoint(bytes_of(retired.loaded)):
                    yield row
                written.update(bytes_of(retired.written))

    def wrote_register(self, row, hart, register):
        """The numbers of the earlier rows that wrote a register of this hart."""
        for at, of, retired in self.steps(row):
            if of == hart and retired.trap is None and retired.instruction.rd == register:
                yield at

    def wrote_byte(self, row, byte):
        for at, _, retired in self.steps(row):
            if any(byte in place for place in retired.written):
                yield at

    def lines(self, row):
        """The lines that are due for a row whose step was not led elsewhere."""
        hart, retired = self.history[row - 1]
        if retired.trap:
            return []
        instruction, lines = retired.instruction, []
        sources = [instruction.rs1, instruction.rs2]
        for at, register in enumerate(sources):
            if register and register not in sources[:at]:
                last = max(self.wrote_register(row, hart, register), default=0)
                lines.append(f"origin x{register} " + (f"row {last}" if last else "reset"))
        for byte in sorted(bytes_of(retired.loaded)):
            last = max(self.wrote_byte(row, byte), default=0)
            lines.append(f"origin byte 0x{byte:016x} " + (f"row {last}" if last else "image"))
        return lines


def bytes_of(places):
    return (byte for place in places for byte in place)


def origins_due(case, said):
    """The lines of origin that are due where judge.py said this; None where they are not known."""
    if case.record is None or case.altered not in OF_A_FIELD or not said.startswith("differs row "):
        return None
    row = case.record.altered()
    differing = int(said.split(" ", 3)[2].rstrip(":"))
    return case.record.lines(row) if row == differing else None


def count_origins(reached, case, said):
    """Counts what an answer says of origins."""
    line, *lines = said.split("\n")
    if not case.setting.origin or not line.startswith("differs"):
        return
    signal = line.split()[3]
    if signal in ("order", "intr", "valid", "trap"):
        reached["origin", f"{signal}: {'lines' if lines else 'no line'}"] += 1
    kinds = [ORIGIN.fullmatch(it).groups() for it in lines]
    for what, where in kinds:
        reached["origin", f"{what.split()[0].rstrip('0123456789')} {where.split()[0]}"] += 1
    registers = sum(what.startswith("x") for what, _ in kinds)
    reached["origin", f"{registers} registers, {len(kinds) - registers} bytes"] += 1


def count_held(reached, case, said):
    """Counts answers that the record of a run has too, and what wrote last."""
    row = case.record.altered()
    hart, retired = case.record.history[row - 1]
    reached["origin", "as the run's record has it"] += 1
    if len(retired.loaded) == 2:
        reached["origin", "bytes of two parts"] += 1
    for what, where in ORIGIN.findall(said):
        if what.startswith("byte") and where.startswith("row"):
            of, writer = case.record.history[int(where.split()[1]) - 1]
            reached["origin", f"byte of {'the same' if of == hart else 'another'} hart"] += 1
            if writer.access is None or writer.access.written is None:
                trapped = " of a row that trapped" if writer.trap else ""
                reached["origin", f"byte of an entry that was set{trapped}"] += 1


def origins_to_reach():
    for what in ("x row", "x reset", "byte row", "byte image", "as the run's record has it"):
        yield "origin", what
    for count in (1, 2, 4, 8):
        yield "origin", f"1 registers, {count} bytes"
    for count in (4, 8):  # of an AMO
        yield "origin", f"2 registers, {count} bytes"
    for count in range(3):
        yield "origin", f"{count} registers, 0 bytes"
    for what in ("order: lines", "intr: lines", "valid: no line", "trap: lines", "trap: no line"):
        yield "origin", what
    yield "origin", "byte of the same hart"
