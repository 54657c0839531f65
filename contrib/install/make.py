#!/usr/bin/env python3
"""Makes what tells rvjudge's words from their table, bin/words.tsv: the options of bin/usage.txt, whose
other lines stay, the manual page from all of it, and the completions.

    make.py usage|man|bash|zsh [VERSION]
"""
import re
import sys
from pathlib import Path

BIN = Path(__file__).resolve().parents[2] / "bin"
sys.path.insert(0, str(BIN))
from words import COMMANDS, WORDS  # noqa: E402  # found by the line before

OPTIONS = [it for it in WORDS.values() if it.is_option]


def of(command):
    """The options of a command."""
    return [it for it in OPTIONS if command in it.commands]


def help_of(option):
    """An option's line of help, with its default."""
    default = f" (default {option.default})" if option.default else ""
    return option.help_text() + default


def parts():
    """The synopsis, a paragraph, the options as they stand, a paragraph, and the statuses."""
    return (BIN / "usage.txt").read_text(encoding="utf-8").strip("\n").split("\n\n")


def usage(_):
    synopsis, about, _, numbers, statuses = parts()
    width = max(len(f"{it.name} {it.value}") for it in OPTIONS)
    lines = [f"  {f'{it.name} {it.value}':<{width}}  {help_of(it)}" for it in OPTIONS]
    yield "\n\n".join([synopsis, about, "\n".join(lines), numbers, statuses])


def roff(text):
    return text.replace("\\", "\\e").replace("-", "\\-").replace("\n.", "\n\\&.")


def man(version):
    synopsis, about, _, numbers, statuses = parts()
    yield f'.TH RVJUDGE 1 "" "{version}" "User Commands"'
    yield ".SH NAME\nrvjudge \\- judges the trace of a RISC\\-V processor"
    yield ".SH SYNOPSIS"
    for line in synopsis.removeprefix("usage:").split("\n"):
        yield f".B {roff(line.strip())}\n.br"
    yield f".SH DESCRIPTION\n{roff(about)}"
    yield ".SH OPTIONS"
    for it in OPTIONS:
        label = f'.BI {roff(it.name)} " {roff(it.value)}"' if it.value else f".B {roff(it.name)}"
        yield f".TP\n{label}\n{roff(help_of(it))}"
    yield f".PP\n{roff(numbers.rpartition(' Status:')[0])}"
    yield ".SH EXIT STATUS"
    for line in statuses.split("\n"):
        number, text = line.strip().split("  ", 1)
        yield f".TP\n.B {number}\n{roff(text)}"
    yield ".SH EXAMPLE\n.nf\nrvjudge judge image.hex core.csv \\-\\-io 0x10000000:0x1000\n.fi"


def words_of(option):
    """The words that an option's value may be, where they are words."""
    few = option.values if option.kind in ("one", "causes") else []
    return " ".join(it for it in few if it.isalnum())


def names(options):
    return " ".join(it.name for it in options)


def bash(_):
    flags = "|".join(it.name for it in OPTIONS if it.is_flag)
    values = "\n".join(f"            {it.name}) values='{words_of(it)}' ;;"
                       for it in OPTIONS if words_of(it))
    yield f"""# Completion of rvjudge for bash, made by contrib/install/make.py.
_rvjudge() {{
    local word=${{COMP_WORDS[COMP_CWORD]}} before=${{COMP_WORDS[COMP_CWORD-1]}}
    COMPREPLY=()
    if [ "$COMP_CWORD" -eq 1 ]; then
        mapfile -t COMPREPLY < <(compgen -W '{' '.join(COMMANDS)}' -- "$word")
    elif [[ $word == -* ]]; then
        local names='{names(of("judge"))}'
        [ "${{COMP_WORDS[1]}}" != state ] || names='{names(of("state"))}'
        [ "${{COMP_WORDS[1]}}" != make ] || names='{names(of("make"))}'
        mapfile -t COMPREPLY < <(compgen -W "$names" -- "$word")
    elif [ "${{COMP_WORDS[1]}}" != make ] && [[ $before == -* && ! $before =~ ^({flags})$ ]]; then
        local values=
        case $before in
{values}
        esac
        mapfile -t COMPREPLY < <(compgen -W "$values" -- "$word")
    elif [ "${{COMP_WORDS[1]}}" != make ]; then
        compopt -o filenames
        mapfile -t COMPREPLY < <(compgen -f -- "$word")
    fi
}}
complete -F _rvjudge rvjudge rvjudge-unproved"""


def zsh_specs(options):
    for it in options:
        text = re.sub(r"[\[\]':]", " ", help_of(it))
        words = f"({words_of(it)})" if words_of(it) else ""
        value = f"=[{text}]:{it.value.replace(':', ' and ')}:{words}" if it.value else f"[{text}]"
        yield f"        '{it.name}{value}'"


def zsh(_):
    yield f"""#compdef rvjudge rvjudge-unproved
# Completion of rvjudge for zsh, made by contrib/install/make.py.
local -a options
if (( CURRENT == 2 )); then
    compadd {' '.join(COMMANDS)}
elif [[ $words[2] != make ]]; then
    options=("""
    yield from zsh_specs(of("state"))
    yield """    )
    [[ $words[2] == state ]] || options+=("""
    yield from zsh_specs(it for it in of("judge") if it not in of("state"))
    yield """    )
    _arguments $options ':command:' ':image:_files' ':trace:_files'
else
    options=("""
    yield from zsh_specs(of("make"))
    yield """    )
    _arguments $options ':command:' ':number:' ':rows:'
fi"""


def main():
    what = sys.argv[1] if len(sys.argv) > 1 else ""
    makers = {"usage": usage, "man": man, "bash": bash, "zsh": zsh}
    if what not in makers:
        print(__doc__.strip(), file=sys.stderr)
        return 2
    print("\n".join(makers[what](sys.argv[2] if len(sys.argv) > 2 else "rvjudge")))
    return 0


if __name__ == "__main__":
    sys.exit(main())
