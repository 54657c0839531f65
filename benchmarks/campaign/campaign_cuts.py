"""Runs that go on from a saved state: traces that are cut in two; a part of campaign.py."""
import re

from campaign_plan import Chance
from judge import MOST_HARTS, Setting, foretell
from trace_text import MARK

LINE = re.compile(rb"[^\n]*\n|[^\n]+")
NUMBERED = re.compile(r"(differs row |refused trace: row |refused trace: line |agrees )(\d+)(.*)", re.DOTALL)
PC = re.compile(rb"^pc ([0-9a-f]{16})$", re.MULTILINE)
ORIGIN = re.compile(r"(origin (x|byte)[^\n]*) row (\d+)")
SAVED_FORMS = (
    "mode 0", "mode 1", "mode 3", "order none", "order H", "flags 00", "flags 01", "flags 10", "flags 11",
    "reserved none", "reserved H",
)


def is_blank(line, at):
    """Whether a line of a file, which is the one at this place, has no byte left."""
    line = line.removeprefix(MARK) if at == 0 else line
    return not line.removesuffix(b"\n").removesuffix(b"\r")


class Cut:
    """A trace in two, before one of its lines: the second has the header again."""

    def __init__(self, chance, trace):
        lines = LINE.findall(trace)
        shown = [at for at, line in enumerate(lines) if not is_blank(line, at)]
        self.is_made = len(shown) > 1  # else there is no line to cut before, or after
        if self.is_made:
            self.count = chance.below(len(shown))  # of lines with rows in the first part
            header, *rows = shown
            self.at = [*rows, len(lines)][self.count]
            self.front = b"".join(lines[: self.at])
            self.back = b"".join([lines[header], *lines[self.at :]])

    def after(self, said, rows, valid):
        """What is due for the second part, from the line for the whole trace.

        So many rows stand in the first part, and so many of these are valid.
        """
        kind, number, rest = NUMBERED.fullmatch(said).groups()
        less = {"agrees ": valid, "refused trace: line ": self.at - 1}.get(kind, rows)
        rest = ORIGIN.sub(lambda found: origin_after(found, rows), rest)
        return f"{kind}{int(number) - less}{rest}"


def origin_after(found, rows):
    """A line of origin, where so many rows stand before the image, which has what they wrote."""
    what, kind, row = found.groups()
    if int(row) > rows:
        return f"{what} row {int(row) - rows}"
    return f"{what} {'reset' if kind == 'x' else 'image'}"


def without(words, name):
    """The words of a command but an option that has a value."""
    words = iter(words)
    for word in words:
        if word == name:
            next(words)
        elif not word.startswith(f"{name}="):
            yield word


def others_of_harts(chance, back):
    """Commands that go on from a state of several harts otherwise, with what is due, if known."""
    count = 1 + chance.below(MOST_HARTS)
    if count != back.setting.harts:
        words = [*without(back.words, "--harts"), "--harts", str(count)]
        setting = back.setting._replace(harts=count)
        other = back._replace(words=words, setting=setting, altered="another number")
        yield other, "refused image: wrong number of harts"
    pc = int(chance.pick(PC.findall(back.image)), 16)
    setting = back.setting._replace(pc=pc)
    words = [*back.words, "--pc", f"0x{pc:x}"]
    yield back._replace(words=words, setting=setting, altered="another pc"), None


def count_state(reached, text):
    """Counts what a saved state says."""
    for line in re.findall(r"^(?:mode|order|flags|reserved) .*$", text, re.MULTILINE):
        reached["saved", re.sub(r"[0-9a-f]{16}$", "H", line)] += 1
    reached["saved", "translated" if "\ncsr_satp 8" in text else "not translated"] += 1
    reached["saved", "protected" if re.search(r"\ncsr_pmpcfg. \w*[1-9a-f]", text) else "not protected"] += 1


def cut_in_two(seed, at, case, said, reached):
    """Commands on the parts of a trace that is cut in two, and what is due for each: its case, the command,
    the text, and the same by another way, None where there is none."""
    limits = case.setting.most_image, case.setting.most_trace
    chance = Chance(f"{seed} {at} cut")
    cut = Cut(chance, case.trace)
    if limits != (Setting().most_image, Setting().most_trace) or not cut.is_made:
        return
    words = [word for word in case.words[1:] if word != "--origin"]
    asked, case = case, case._replace(foreknown=None, words=["state", *words])
    state, _ = foretell(case.image, cut.front, case.setting, "state")
    front = case._replace(trace=cut.front)
    whole = foretell(case.image, case.trace, case.setting, "state")[0]
    if not state.startswith("rvstate"):
        reached["cut", "the first part does not agree"] += 1
        yield front, "state", state, whole
        return
    yield front, "state", state, None
    count_state(reached, state)
    setting = case.setting._replace(pc=None)
    back = case._replace(
        image=f"{state}\n".encode(), trace=cut.back, setting=setting,
        words=list(without(case.words, "--pc")))
    valid = int(foretell(case.image, cut.front, case.setting)[0].split()[1])
    due = cut.after(said, cut.count * case.ports, valid)
    reached["cut", f"the second part {due.split()[0]}"] += 1
    judged = back._replace(words=["judge", *without(asked.words[1:], "--pc")])
    yield judged, "judge", foretell(back.image, back.trace, setting)[0], due
    if setting.harts > 1:
        for other, text in others_of_harts(chance, judged):
            told = foretell(other.image, other.trace, other.setting)[0]
            reached["cut", f"from several harts, {other.altered}"] += 1
            yield other, "judge", told, text
    told = foretell(back.image, back.trace, setting, "state")[0]
    yield back, "state", told, whole if due[0] == "a" else due.split("\n")[0]


def cuts_to_reach(with_harts):
    if with_harts:
        for what in ("pc", "number"):
            yield "cut", f"from several harts, another {what}"
    yield "cut", "the first part does not agree"
    for what in ("agrees", "differs", "refused"):
        yield "cut", f"the second part {what}"
    for form in SAVED_FORMS:
        yield "saved", form
    for what in ("translated", "protected"):
        yield "saved", what
        yield "saved", f"not {what}"
