#!/usr/bin/env python3
"""Makes the completions and the manual's synopsis of what the program says of its use.

    interface.py PROGRAM            compares them with the files that are there, and tries them
    interface.py --write PROGRAM    writes the files

Run it at the top of the repository. Each command of `PROGRAM --help` has to stand in the manual
with its arguments, and at each place of a command bash and zsh have to offer what its argument
names. The manual is judged by `mandoc -T lint`. A tool that is not there is passed over, and the
last lines say which.
"""

import os
import re
import shutil
import subprocess
import sys
import tempfile

MANUAL = "man/dugnatsew.1"
BASH = "completions/dugnatsew.bash"
ZSH = "completions/_dugnatsew"
FILE = "a-file"  # the one file of the folder in which completions are tried
FORMS = ("CPU", "KIND", "FAMILY", "COMMAND", "N")  # the arguments that are no file
OPTIONS = ("--help", "-h", "--version")

IN_BASH = """
compopt() { :; }
source "$1"; shift
COMP_WORDS=("$@"); COMP_CWORD=$(($# - 1))
_dugnatsew
printf '%s\\n' "${COMPREPLY[@]}"
"""

IN_ZSH = """
compadd() { [[ $1 == -S ]] && shift 2; print -l -- "$@" }
_describe() { print -l -- ${(@)${(P)4}%%:*} }
_files() { print -l -- * }
file=$1; shift
words=("$@"); CURRENT=$#
source $file
"""

BASH_TEXT = """\
# Completion of dugnatsew's arguments for bash: source this file, or install it where bash looks.
# It is made by tools/interface.py.

_dugnatsew() {
    local word=${COMP_WORDS[COMP_CWORD]} words=""
    COMPREPLY=()
    case $(_dugnatsew_form "${COMP_WORDS[1]}" "$COMP_CWORD") in
        COMMAND) words="%(commands)s" ;;
        CPU) words="arm riscv" ;;
        KIND) words="normal bootsel update=0x" ;;
        FAMILY) words="%(families)s" ;;
        FILE)
            compopt -o filenames 2> /dev/null
            mapfile -t COMPREPLY < <(compgen -f -- "$word")
            ;;
    esac
    if [ -n "$words" ]; then
        mapfile -t COMPREPLY < <(compgen -W "$words" -- "$word")
    fi
    # eight digits follow
    if [ "${COMPREPLY[*]}" = "update=0x" ]; then
        compopt -o nospace 2> /dev/null
    fi
}

# What stands at a place of the arguments that begin with this command.
_dugnatsew_form() {
    local -a forms=(COMMAND)
    case $1 in
%(cases)s
    esac
    echo "${forms[$2 - 1]}"
}

complete -F _dugnatsew dugnatsew
"""

ZSH_TEXT = """\
#compdef dugnatsew
# Completion of dugnatsew's arguments for zsh: put this file into a folder of $fpath.
# It is made by tools/interface.py.

_dugnatsew() {
    local -a commands forms
    commands=(
%(commands)s
    )
    case $words[2] in
%(cases)s
    esac
    if (( CURRENT == 2 )); then
        _describe -t commands command commands
        return
    fi
    case $forms[CURRENT-2] in
        (COMMAND) compadd ${commands%%%%:*} ;;
        (CPU) compadd arm riscv ;;
        (KIND)
            compadd normal bootsel
            compadd -S '' update=0x # eight digits follow
            ;;
        (FAMILY) compadd %(families)s ;;
        (FILE) _files ;;
    esac
}

_dugnatsew "$@"
"""


def lines_of(words, **how):
    ran = subprocess.run(words, capture_output=True, text=True, check=False, **how)
    return ran.stdout.splitlines()


class Command:
    """A command of the usage: its name, its arguments, and what it does."""

    def __init__(self, line):
        match = re.match(r"(\S+)((?: [A-Z0-9]+)*)\s{2,}(.*)", line)
        self.name = match.group(1)
        self.arguments = match.group(2).split()
        self.does = match.group(3)

    def forms(self):
        return [it if it in FORMS else "FILE" for it in self.arguments]


def usage(program):
    """The commands, and the families."""
    lines = lines_of([program, "--help"])
    commands = [Command(it) for it in lines[:lines.index("")]]
    families = next(it for it in lines if it.startswith("FAMILY "))
    return commands, re.split(r",? +(?:or )?", families)[1:]


def names_of(commands):
    """The names, each once, in the order of the usage."""
    return list(dict.fromkeys(it.name for it in commands))


def is_longest(command, commands):
    """Whether no command of this name has more arguments; those of a shorter one are its first."""
    return all(len(it.arguments) <= len(command.arguments) for it in commands if it.name == command.name)


def cases(commands, line):
    """A line for each form of arguments, with the commands that have it."""
    by_form = {}
    for it in commands:
        if it.arguments and is_longest(it, commands):
            by_form.setdefault(tuple(it.forms()), []).append(it.name)
    return "\n".join(line(names, " ".join(forms)) for forms, names in by_form.items())


def bash_text(commands, families):
    return BASH_TEXT % {
        "commands": " ".join(names_of(commands)),
        "families": " ".join(families),
        "cases": cases(commands, lambda names, forms: f"        {' | '.join(names)}) forms+=({forms}) ;;"),
    }


def zsh_text(commands, families):
    seen, described = set(), []
    for it in commands:
        if it.name not in seen:
            seen.add(it.name)
            does = it.does.replace("'", "").replace(":", ",")
            described.append(f"        '{it.name}:{does}'")
    return ZSH_TEXT % {
        "commands": "\n".join(described),
        "families": " ".join(families),
        "cases": cases(commands, lambda names, forms: f"        ({'|'.join(names)}) forms=({forms}) ;;"),
    }


def synopsis(commands):
    """The manual's section SYNOPSIS."""
    made = [".Sh SYNOPSIS"]
    for it in commands:
        if it.name in OPTIONS:
            continue
        arguments = f" Ar {' '.join(it.arguments)}" if it.arguments else ""
        made += [".Nm", f".Cm {it.name}{arguments}"]
    made += [".Nm", ".Fl h | -help | -version"]
    return "\n".join(made) + "\n"


def manual_text(manual, commands):
    begin, end = manual.index(".Sh SYNOPSIS\n"), manual.index(".Sh DESCRIPTION\n")
    return manual[:begin] + synopsis(commands) + manual[end:]


def read(path):
    with open(path, encoding="utf-8") as file:
        return file.read()


def made_files(commands, families):
    """Each file that is made, with its text."""
    return {
        BASH: bash_text(commands, families),
        ZSH: zsh_text(commands, families),
        MANUAL: manual_text(read(MANUAL), commands),
    }


def write(files):
    for path, text in files.items():
        with open(path, "w", encoding="utf-8") as file:
            file.write(text)


def compare(files):
    """The number of files that are not as they are made."""
    wrong = [path for path, text in files.items() if read(path) != text]
    for path in wrong:
        print(f"{path} is not as tools/interface.py --write makes it")
    return len(wrong)


def offers(word, families, names):
    """What a shell offers for an argument of the usage."""
    values = {
        "CPU": ["arm", "riscv"],
        "KIND": ["normal", "bootsel", "update=0x"],
        "FAMILY": families,
        "COMMAND": names,
        "N": [],
    }
    return values.get(word, [FILE])


def tries(commands, families):
    """Words to complete the last of, with what has to be offered."""
    names = names_of(commands)
    yield ["dugnatsew", ""], names
    for it in commands:
        if not is_longest(it, commands):
            continue
        typed = ["dugnatsew", it.name]
        for word in it.arguments:
            yield [*typed, ""], offers(word, families, names)
            typed.append("x")
        yield [*typed, ""], []


def completed(shell, script, file, words, folder):
    ran = lines_of([shell, "-c", script, shell, os.path.abspath(file), *words], cwd=folder)
    return [it for it in ran if it]


def check_shell(shell, script, file, wanted):
    if not shutil.which(shell):
        return 0
    wrong = 0
    with tempfile.TemporaryDirectory() as folder:
        with open(os.path.join(folder, FILE), "w", encoding="utf-8"):
            pass
        for words, offered in wanted:
            got = completed(shell, script, file, words, folder)
            if sorted(got) != sorted(offered):
                wrong += 1
                print(f"{file}: {' '.join(words)}\n  got    {got}\n  wanted {offered}")
    return wrong


def check_manual(commands):
    manual, wrong = read(MANUAL), 0
    for it in commands:
        arguments = f" Ar {' '.join(it.arguments)}" if it.arguments else ""
        line = f".It Fl {it.name[1:]}" if it.name in OPTIONS else f".It Cm {it.name}{arguments}"
        if f"\n{line}\n" not in manual:
            wrong += 1
            print(f"{MANUAL} does not have: {line}")
    if not shutil.which("mandoc"):
        return wrong
    said = lines_of(["mandoc", "-T", "lint", "-W", "style", MANUAL])
    print("\n".join(said), end="\n" if said else "")
    return wrong + len(said)


def main():
    words = sys.argv[1:]
    writes = words[:1] == ["--write"]
    words = words[1:] if writes else words
    if len(words) != 1:
        sys.exit(__doc__)
    commands, families = usage(words[0])
    files = made_files(commands, families)
    if writes:
        write(files)
        return
    wanted = list(tries(commands, families))
    wrong = compare(files) + check_manual(commands)
    wrong += check_shell("bash", IN_BASH, BASH, wanted)
    wrong += check_shell("zsh", IN_ZSH, ZSH, wanted)
    missing = [it for it in ("mandoc", "zsh") if not shutil.which(it)]
    if missing:
        print(f"Not there, so not tried: {', '.join(missing)}")
    print(f"{len(commands)} commands, {len(wanted)} places, {wrong} wrong")
    sys.exit(1 if wrong else 0)


main()
