"""The completions of a program for bash, zsh and fish, from its table.

PLATFORM and TO are one of three words, the name of a file is completed, and no other operand or value is.
"""

import re
from typing import Callable

from program_pages import PLATFORMS, Option, Program

# Operands that are platforms, and operands and values that are names of files.
OF_PLATFORMS = ("PLATFORM", "TO")
FILES = ("FILE", "BASE", "DIR")
BASH = """\
# bash completion of %(name)s(1)
_%(name)s() {
    local word=${COMP_WORDS[COMP_CWORD]} command='' words='' count=0 i at=$((COMP_CWORD - 1))
    COMPREPLY=()
    # bash takes = as a word of its own
    [ "$word" != = ] || word=
    [ "${COMP_WORDS[at]}" != = ] || at=$((at - 1))
    case ${COMP_WORDS[at]} in
%(values)s    esac
    for ((i = 1; i < COMP_CWORD; i++)); do
        case ${COMP_WORDS[i]} in
%(skipped)s            =) ((i++)) ;;
            -*) ;;
            *) command=${command:-${COMP_WORDS[i]}}; ((count++)) ;;
        esac
    done
    case $command:$count:$word in
%(words)s    esac
    mapfile -t COMPREPLY < <(compgen -W "$words" -- "$word")
}
complete -F _%(name)s %(name)s
"""
BY_FILES = "compopt -o default 2>/dev/null; return"
ZSH = """\
#compdef %(name)s
# zsh completion of %(name)s(1)
local curcontext=$curcontext state line
typeset -A opt_args
_arguments -C %(alone)s'1:command:((%(commands)s))' '*::operand:->operands' && return
case $words[1] in
%(operands)sesac
"""


def spellings(options: list[Option], between: str = " ") -> str:
    return between.join(word for it in options for word in it.spellings)


def arms(indent: int, rows: list[tuple[str, str]]) -> str:
    """Returns arms of a `case` of a shell, each from its patterns and its commands; none where there is no pattern."""
    return "".join(f"{' ' * indent}{patterns}) {done} ;;\n" for patterns, done in rows if patterns)


def in_bash(of: Program) -> str:
    valued = [it for it in of.options if it.value]
    files, others = (spellings([it for it in valued if (it.value in FILES) == wanted], "|") for wanted in (True, False))
    skipped = '[ "${COMP_WORDS[i + 1]}" != = ] || ((i++)); ((i++))'
    names = [it.name for it in of.commands]
    rows = [(f"{name}:*:-*", f"words='{spellings(of.options_of(name))}'") for name in [*names, ""] if of.options_of(name)]
    rows.append((":0:*", f"words='{' '.join(names)}'"))
    for at in range(max(len(it.kinds) for it in of.commands)):
        for kinds, done in ((OF_PLATFORMS, f"words='{PLATFORMS}'"), (FILES, BY_FILES)):
            rows.append(("|".join(f"{it.name}:{at + 1}:*" for it in of.commands if it.kinds[at:] and it.kinds[at] in kinds), done))
    values, skips = arms(8, [(files, BY_FILES), (others, "return")]), arms(12, [(spellings(valued, "|"), skipped)])
    return BASH % {"name": of.name, "values": values, "skipped": skips, "words": arms(8, rows)}


def zsh_text(text: str) -> str:
    """Returns a text as a description in a specification of _arguments, within single quotes."""
    return re.sub(r"([\\\[\]:])", r"\\\1", text).replace("'", "'\\''")


def zsh_option(option: Option) -> str:
    """Returns the specifications of an option for _arguments, one for each spelling."""
    before = "(- *)" if option.is_alone else "*" if option.value else ""
    value = f":{option.value}:{'_files' if option.value in FILES else ''}" if option.value else ""
    return "".join(f"'{before}{it}[{zsh_text(option.short)}]{value}' " for it in option.spellings)


def in_zsh(of: Program) -> str:
    rows = []
    for command in of.commands:
        by = [f"({PLATFORMS})" if kind in OF_PLATFORMS else "_files" if kind in FILES else "" for kind in command.kinds]
        operands = " ".join(f"'{at}:{kind}:{done}'" for at, (kind, done) in enumerate(zip(command.kinds, by), 1))
        rows.append((command.name, f"_arguments {''.join(map(zsh_option, of.options_of(command.name)))}{operands}"))
    alone = "".join(map(zsh_option, of.options_of("")))
    commands = " ".join(f'{it.name}\\:"{zsh_text(it.short)}"' for it in of.commands)
    return ZSH % {"name": of.name, "alone": alone, "commands": commands, "operands": arms(4, rows)}


def in_fish(of: Program) -> str:
    first, seen = "__fish_use_subcommand", "__fish_seen_subcommand_from"
    one, two = ([it.name for it in of.commands if ("TO" in it.kinds) == wanted] for wanted in (False, True))
    files = [it.name for it in of.commands if set(it.kinds) & set(FILES)]
    rows = [("", "-f", ""), *((first, f"-a {it.name}", it.short) for it in of.commands)]
    rows.append((f"{seen} {' '.join(one)}; and not {seen} {PLATFORMS}", f"-a '{PLATFORMS}'", ""))
    rows += [(f"{seen} {' '.join(two)}", f"-a '{PLATFORMS}'", "")] if two else []
    rows += [(f"{seen} {' '.join(files)}; and {seen} {PLATFORMS}", "-F", "")] if files else []
    for option in of.options:
        when = first if option.is_alone else f"{seen} {' '.join(option.commands)}" if option.commands else ""
        value = [] if not option.value else ["-rF"] if option.value in FILES else ["-x"]
        letter = [f"-s {option.letter}"] if option.letter else []
        rows.append((when, " ".join([*letter, f"-l {option.name}", *value]), option.short))
    lines = [f"# fish completion of {of.name}(1)"]
    for when, words, about in rows:
        quoted = about.replace("\\", "\\\\").replace("'", "\\'")
        lines.append(f"complete -c {of.name}" + (f" -n '{when}'" if when else "") + f" {words}" + (f" -d '{quoted}'" if about else ""))
    return "\n".join([*lines, ""])


# What prints the completions of a program, by the shell.
SHELLS: dict[str, Callable[[Program], str]] = {"bash": in_bash, "zsh": in_zsh, "fish": in_fish}
