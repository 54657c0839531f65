"""One case: an image, a trace, and the words of a command; a part of campaign.py."""
from dataclasses import replace
from typing import NamedTuple

from campaign_harts import Runs, add_column, alter_hart, pick_count
from campaign_origin import Record
from campaign_plan import Chance, Maker
from campaign_ports import in_ports, pick_ports
from campaign_profile import alter_profile, plant, profile_words, with_profile
from campaign_rows import alter_field, alter_image, alter_rows, pick_columns
from campaign_run import Run
from campaign_text import (
    Form, alter_lines, break_image, image_text, option, spelled, trace_lines, trace_text,
)
from hart_choices import VALUES, Choices
from hart_memory import PAGE, RAM, Ranges
from judge import CHOSEN, MOST_HARTS, Setting
from profile_words import PHYSICAL_END

MEGA, GIGA = 1 << 21, 1 << 30


class Case(NamedTuple):
    """A command's files and words, what they say, and what was altered, None where nothing was.

    foreknown is the line that is due, where it is known without judge.py; ports is how many a line
    has; record is what a run kept for origins, None where they are not asked for.
    """

    image: bytes
    trace: bytes
    words: list
    setting: Setting
    altered: str | None
    foreknown: str | None
    ports: int
    record: Record | None


def pick_ram(chance):
    kind = chance.below(20)
    if kind < 7:
        return RAM
    size = PAGE * chance.pick((1, 2, 16, 64, 512, 2048, 1 << 18))
    if kind < 12:
        return range(0, size)
    if kind < 15:
        base = PAGE * chance.getrandbits(20)
    elif kind < 17:
        base = MEGA * chance.getrandbits(20)
    elif kind < 18:
        base, size = GIGA - 8 * PAGE, 16 * PAGE
    else:
        base = PHYSICAL_END - size
    return range(base, base + size)


def pick_devices(chance, ram):
    """A range of devices, or none; it has no byte in common with RAM."""
    size = PAGE * chance.pick((1, 1, 4, 1 << 10))
    base = chance.pick(
        (0x10000000, ram.stop, ram.start - size, PAGE * chance.getrandbits(44), 1 << 30)
    )
    devices = range(base, base + size)
    is_apart = devices.stop <= ram.start or ram.stop <= base
    is_fit = base >= 0 and devices.stop <= PHYSICAL_END and is_apart
    return Ranges([devices] if is_fit and chance.one_in(2) else [])


def pick_setting(chance):
    ram = pick_ram(chance)
    kind = chance.below(12)
    if ram == RAM and kind < 6:
        pc = RAM.start
    elif kind < 7:
        pc = ram.start
    elif kind < 8:
        pc = ram.start + PAGE - 2  # an instruction there lies in two pages
    elif kind < 9 and chance.one_in(4):
        pc = chance.getrandbits(chance.pick((32, 64))) & ~1
    else:
        pc = ram.start + chance.below(min(len(ram), 64 * PAGE)) & ~1
    return Setting(pc, ram, pick_devices(chance, ram))


def pick_choices(chance):
    """What a core chose once and for all."""
    return Choices(**{name: chance.pick(values) for name, values in VALUES.items()})


def alter_choices(chance, choices):
    """Other choices than the core's, of bit manipulation alone or of all; what was done."""
    if chance.one_in(2):
        turned = "off" if choices.bits == "on" else "on"
        return replace(choices, bits=turned), f"bits turned {turned}"
    return pick_choices(chance), "other choices"


def choice_words(chance, choices, reached):
    """The options for a core's choices; the defaults are left out mostly."""
    for name, choice in CHOSEN.items():
        value = getattr(choices, choice)
        if value not in VALUES[choice]:
            continue  # a word of the profile says it
        reached["choice", f"{name} {value}"] += 1
        if value != getattr(Choices(), choice) or chance.one_in(4):
            text = spelled(chance, value) if isinstance(value, int) else value
            yield option(chance, name.removeprefix("--"), text)


def hart_words(chance, setting, reached, kinds):
    """The options for harts and origins, where cases have them."""
    if kinds.harts and (setting.harts > 1 or chance.one_in(2)):
        yield option(chance, "harts", spelled(chance, setting.harts))
        reached["option", f"harts {setting.harts}"] += 1
    if setting.origin:
        yield ["--origin"]
        reached["option", "origin"] += 1


def pick_words(chance, setting, reached, kinds):
    """The words of a command with this setting, in any order that is allowed."""
    pieces = [["IMAGE"], ["TRACE"]]
    # A part has a third of the window at most: in the widest one it has more than 64 segments of a row.
    is_wide = chance.one_in(8)
    for name, most, widest in (("workers", 3, None), ("segment", 7, 1), ("window", 3, 1024)):
        value = widest if is_wide and widest else 1 + chance.below(most)
        pieces.append(option(chance, name, spelled(chance, value)))
        reached["option", f"{name} {value}"] += 1
    for name, given, default in (("ram", (setting.ram,), (RAM,)), ("io", setting.devices, ())):
        if given != default or (name == "ram" and chance.one_in(8)):
            spans = [f"{spelled(chance, one.start)}:{spelled(chance, len(one))}" for one in given]
            pieces.append(option(chance, name, ",".join(spans)))
            reached["option", name] += 1
    for name, value, default in (
        ("pc", setting.pc, RAM.start), ("max-image", setting.most_image, 1 << 30),
        ("max-trace", setting.most_trace, 1 << 40),
    ):
        if value not in (default, None):
            pieces.append(option(chance, name, spelled(chance, value)))
            reached["option", name] += 1
    if kinds.choices:
        pieces += choice_words(chance, setting.choices, reached)
    if kinds.profiles:
        pieces += profile_words(chance, setting.choices, reached)
        reached["devices", f"{len(setting.devices)} ranges"] += 1
    pieces += hart_words(chance, setting, reached, kinds)
    files = pieces[:2]  # which stand in this order
    chance.shuffle(pieces)
    for piece, place in zip(files, sorted(map(pieces.index, files))):
        pieces[place] = piece
    return ["judge", *(word for piece in pieces for word in piece)]


def limited(chance, setting, image, trace):
    """The setting with a limit of bytes that one of the files reaches, or is one byte from."""
    text = image if chance.one_in(3) else trace
    most = max(1, len(text) + chance.pick((0, 1, -1, -chance.below(len(text) + 1))))
    return setting._replace(most_image=most) if text is image else setting._replace(most_trace=most)


class Kinds(NamedTuple):
    """What the cases have, by options of the campaign; with other options they are other cases."""

    choices: bool = True
    ports: bool = False
    harts: bool = False
    origin: bool = False
    profiles: bool = False

    def chance(self, seed, number):
        """The chance of the case of this number."""
        names = (name for name, has in self._asdict().items() if has)
        return Chance(" ".join((str(seed), str(number), *names)))


def alter_run(chance, kind, run, columns, setting, kinds, record):
    """Alters what a run shows, in some cases; what was done, and the line that is due, if known."""
    image, harts = run.hart.memory.image, setting.harts if kinds.harts else 0
    if kind < 0.37:
        if kinds.profiles and chance.one_in(3):
            planted = plant(chance, setting.choices.profile, run)
            if planted:
                return planted
        if harts and run.failed and chance.one_in(2):
            return run.show_store()
        if harts and chance.one_in(4):
            return alter_hart(chance, run.rows, harts), None
        loading = list(record.loading()) if record else []
        rows = loading if loading and chance.one_in(2) else run.rows
        return alter_field(chance, columns, rows), None
    if kind < 0.42:
        return alter_rows(chance, run.rows), None
    if kind < 0.46 and image:
        return alter_image(chance, image, run.pcs), None
    return None, None


def begin_run(chance, setting, columns, reached, kinds):
    """The run of one hart or, where that is asked for, of several."""
    if kinds.harts:
        return Runs(chance, setting, columns, reached, kinds.choices)
    return Run(chance, setting, columns, reached, Maker(chance, setting, kinds.choices))


def pick_options(chance, setting, kinds):
    """The setting with what is asked of cases of some kinds alone."""
    if kinds.choices:
        setting = setting._replace(choices=pick_choices(chance))
    if kinds.harts:
        setting = setting._replace(harts=pick_count(chance))
    if kinds.origin:
        setting = setting._replace(origin=chance.one_in(2))
    if kinds.profiles:
        setting = with_profile(chance, setting)
    return setting


def alter_command(chance, kind, setting, kinds, files, is_known):
    """Alters what the command says of its hart or its files, in some cases.

    Gives the setting, and what was altered of harts. The line that is due may be known already.
    """
    if kinds.choices and 0.5 <= kind < 0.53:
        choices, altered = alter_choices(chance, setting.choices)
        return setting._replace(choices=choices), altered
    if kinds.harts and 0.53 <= kind < 0.56:
        return setting._replace(harts=1 + chance.below(MOST_HARTS)), "other number of harts"
    if kinds.profiles and 0.56 <= kind < 0.6:
        return alter_profile(chance, setting), "other profile"
    if chance.one_in(40) and not is_known:
        setting = limited(chance, setting, *files)
    return setting, None


def start_text(chance, run, setting):
    """The image that a run begins from, and the setting that goes with it."""
    image = run.hart.memory.image
    if run.start:
        return run.start.text(image), setting._replace(pc=None)
    return image_text(chance, image), setting


def make_case(seed, number, reached, kinds):
    """The case of this number; what it reaches is counted."""
    chance = kinds.chance(seed, number)
    setting, columns, form = pick_setting(chance), pick_columns(chance), Form(chance)
    setting = pick_options(chance, setting, kinds)
    if kinds.harts:
        add_column(chance, columns)
    form.count(reached)
    run = begin_run(chance, setting, columns, reached, kinds)
    run.make()
    kind, record = chance.random(), Record.of(run) if setting.origin else None
    altered, foreknown = alter_run(chance, kind, run, columns, setting, kinds, record)
    ports = pick_ports(chance, form, reached) if kinds.ports else 1
    shown = in_ports(chance, columns, run.rows, ports) if kinds.ports else (columns, run.rows)
    lines = list(trace_lines(chance, form, *shown))
    if 0.46 <= kind < 0.49:
        altered = alter_lines(chance, lines)
    trace = trace_text(chance, form, lines)
    text, setting = start_text(chance, run, setting)
    if 0.49 <= kind < 0.5:
        text, altered = break_image(chance, text, setting.ram)
    else:
        is_known = foreknown is not None
        setting, told = alter_command(chance, kind, setting, kinds, (text, trace), is_known)
        altered = altered or told
        if told and told.startswith("bits"):
            foreknown = run.turned_bits()
    reached["rows"] += len(run.rows)
    for column in columns:
        reached["column", column] += 1
    words = pick_words(chance, setting, reached, kinds)
    return Case(text, trace, words, setting, altered, foreknown, ports, record)
