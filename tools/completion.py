#!/usr/bin/env python3
"""Prints the completion of mstplan for a shell, made of the program's help: its commands, behind `-` the flags that go with the command, words
that a command takes, such as `pairs` of sweep, and else files.

usage: completion.py PROGRAM bash|fish|zsh

The packages have all three where these shells look for them. From source, for example:
completion.py mstplan zsh > ~/.zfunc/_mstplan
"""

import re
import sys

sys.dont_write_bytecode = True

import mstplan  # noqa: E402
from command import OK, guarded, write  # noqa: E402

TOOL = "completion.py"
PARTS = "{part}/2 {part}/4 {part}/8 {part}/16"
# Behind how many words what else is offered, PART standing for the number that begins a part: the command, that count, the last word, if it
# matters, the words, and whether a file may stand there, too, as the policy whose risks `sweep` goes through.
OFFERED = [
    ("advise", 2, None, "root forward", False),
    ("dot", 2, None, "vlan", False),
    ("path", 5, None, "always", False),
    ("sweep", 2, None, f"pairs {PARTS}", True),
    ("sweep", 3, "pairs", PARTS, False),
]
# How a single quote stands in a text in single quotes.
QUOTE_IN_ZSH, QUOTE_IN_FISH = r"'\''", r"\'"
BASH = """# Completion of mstplan for bash, made of its help.
_mstplan()
{{
    local word=${{COMP_WORDS[COMP_CWORD]}} command= last= at place=0 flags="--help --version" words= files= part=1 IFS=$' \\t\\n'
    COMPREPLY=()
    for (( at = 1; at < COMP_CWORD; at++ )); do
        last=${{COMP_WORDS[at]}}
        if [[ $last != -?* ]]; then
            command=${{command:-$last}}
            (( place++ ))
        fi
    done
    case $command in
{flags}
    esac
    if [[ $word =~ ^([0-9]+)/ ]]; then
        part=${{BASH_REMATCH[1]}}
    fi
    case $command:$place:$last in
        :*) words="{commands}" ;;
{offered}
    esac
    if [[ $word == -?* ]]; then
        COMPREPLY=( $(compgen -W "$flags" -- "$word") )
    elif [[ -n $words ]]; then
        COMPREPLY=( $(compgen -W "$words" -- "$word") )
        IFS=$'\\n'
        COMPREPLY+=( ${{files:+$(compgen -f -- "$word")}} )
    fi
}}
complete -o default -F _mstplan mstplan
"""
ZSH = """#compdef mstplan
# Completion of mstplan for zsh, made of its help.
_mstplan() {{
    local word=$words[CURRENT] command= last= files= part=1
    local -i at place=0
    local -a flags offered commands
    flags=(--help --version)
    commands=(
{commands}
    )
    for (( at = 2; at < CURRENT; at++ )); do
        last=$words[at]
        if [[ $last != -?* ]]; then
            command=${{command:-$last}}
            (( place++ ))
        fi
    done
    case $command in
{flags}
    esac
    if [[ $word == <->/* ]]; then
        part=${{word%%/*}}
    fi
    case $command:$place:$last in
{offered}
    esac
    if [[ $word == -?* ]]; then
        compadd -- $flags
    elif [[ -z $command ]]; then
        _describe -t commands command commands
    elif (( $#offered )); then
        compadd -- $offered
        [[ -n $files ]] && _files
    else
        _files
    fi
}}
_mstplan "$@"
"""
FISH = """# Completion of mstplan for fish, made of its help.
function __mstplan_words
    for word in (commandline -opc)[2..]
        string match -qr -- '^-.' $word; or echo -- $word
    end
end
function __mstplan_is_first
    set -l words (__mstplan_words)
    test -z "$words[1]"
end
function __mstplan_is_of
    set -l words (__mstplan_words)
    test -z "$words[1]"; or contains -- $words[1] $argv
end
function __mstplan_is_behind
    set -l words (__mstplan_words)
    test (count $words) = $argv[2]; and test "$words[1]" = $argv[1]; and test -z "$argv[3]" -o "$words[-1]" = "$argv[3]"
end
function __mstplan_parts
    set -l part (string match -r -- '^[0-9]+(?=/)' (commandline -ct)); or set part 1
    printf '%s\\n' {parts}
end
complete -c mstplan -l help -s h -d 'Print help'
complete -c mstplan -l version -s V -d 'Print version'
{flags}
{commands}
{offered}
"""


def commands_in(page):
    """The program's commands, each with what its help says of it."""
    block = re.search(r"^Commands:\n((?:  .*\n)+)", page, re.MULTILINE)
    return dict(re.findall(r"^  ([a-z]+) +(.*)", block[1], re.MULTILINE)) if block else {}


def flags_in(page):
    """The flags, each with its commands and what it does. A flag of which the page names no command goes with each."""
    commands, flags = commands_in(page), {}
    for flag, text in re.findall(r"^  (--[a-z-]+) (.+\n(?: {4,}.+\n)*)", page, re.MULTILINE):
        its = re.findall(r"[a-z]+", text.rpartition("(")[2])
        flags[flag] = [it for it in commands if it in its] or list(commands), " ".join(re.split("[,(]", text)[0].split())
    return flags


def flags_by_command(page):
    flags = flags_in(page)
    by_command = {it: [flag for flag, (its, _) in flags.items() if it in its] for it in commands_in(page)}
    return {"": sorted(flags), **dict(sorted((it, its) for it, its in by_command.items() if its))}


def bash(page):
    flags = [f'        {it or chr(34) * 2}) flags+=" {" ".join(its)}" ;;' for it, its in flags_by_command(page).items()]
    offered = [f'        {command}:{count}:{last or "*"}) words="{words.format(part="$part")}"{" files=1" * files} ;;' for command, count, last, words, files in OFFERED]
    return BASH.format(flags="\n".join(flags), commands=" ".join(commands_in(page)), offered="\n".join(offered))


def quoted(text, mark):
    """A text in single quotes: in a shell a quote of its own stands as this mark."""
    return "'" + text.replace("'", mark) + "'"


def zsh(page):
    commands = [f"        {quoted(f'{it}:{text}', QUOTE_IN_ZSH)}" for it, text in commands_in(page).items()]
    flags = [f"        ({it or chr(39) * 2}) flags+=({' '.join(its)}) ;;" for it, its in flags_by_command(page).items()]
    offered = [f'        ({command}:{count}:{last or "*"}) offered=({words.format(part="$part")}){" files=1" * files} ;;' for command, count, last, words, files in OFFERED]
    return ZSH.format(commands="\n".join(commands), flags="\n".join(flags), offered="\n".join(offered))


def fish(page):
    commands = [f"complete -c mstplan -n __mstplan_is_first -f -a {it} -d {quoted(text, QUOTE_IN_FISH)}" for it, text in commands_in(page).items()]
    flags = [f"complete -c mstplan -n '__mstplan_is_of {' '.join(its)}' -l {it[2:]} -d {quoted(text, QUOTE_IN_FISH)}"
             for it, (its, text) in flags_in(page).items()]
    offered = []
    for command, count, last, words, files in OFFERED:
        behind = " ".join(filter(None, (command, str(count), last)))
        alone = "" if files else " -f"
        offered.append(f"complete -c mstplan -n '__mstplan_is_behind {behind}'{alone} -a '{words.replace(PARTS, '(__mstplan_parts)')}'")
    return FISH.format(parts=PARTS.format(part="$part"), flags="\n".join(flags), commands="\n".join(commands), offered="\n".join(offered))


SHELLS = {"bash": bash, "fish": fish, "zsh": zsh}


def main():
    words = sys.argv[1:]
    if words[:1] in (["--help"], ["-h"]):
        print(__doc__.strip())
        return OK
    if len(words) != 2 or words[1] not in SHELLS:
        print(__doc__.splitlines()[3], file=sys.stderr)
        return 2
    page = mstplan.Program(words[0]).text("--help")
    if not commands_in(page):
        raise mstplan.Failed(f"{words[0]}: the program's help names no commands")
    write(SHELLS[words[1]](page))
    return OK


if __name__ == "__main__":
    guarded(TOOL, main)
