"""The table of each program, docs/programs/NAME.toml, and the man page that is made of it.

A table has the program's commands, its options with the commands that take them, and examples with what they print.
An operand is a word in capitals. tools/documents/programs prints the completions, and what the sources have of a table.
"""

import re
import tomllib
from functools import cache
from typing import NamedTuple

from roff import as_roff, as_shown, page
from sources import ROOT

PROGRAMS = ("names", "paths", "osbytes")
PLATFORMS = "unix windows wasm"
TABLES = ROOT / "docs" / "programs"
STATUSES = {
    0: "success",
    1: "invalid input; a message has the number of the first invalid item, counted from 1; without a message: nothing printed, with `names --exit-status`",
    2: "usage, or an invalid pattern",
    3: "out of memory",
    4: "a read or write failed, or a file can't be read; no message if the reader closed the pipe",
}


# What --help has after the operands of a command that takes options.
OPTIONS = "[OPTION..]"


class Command(NamedTuple):
    """A command: its name, its operands, what it does, short and in full, and its forms in --help with their texts."""

    name: str
    operands: list[str]
    short: str
    text: str
    forms: list[tuple[str, str]]

    @property
    def case(self) -> str:
        """Returns the case of the command in its enum."""
        return "".join(part.capitalize() for part in self.name.split("-"))

    @property
    def kinds(self) -> list[str]:
        """Returns the operands without the marks of those that may be missing or repeated, and without options."""
        return re.sub(r"--\S+ \S+|[\[\].]", "", " ".join(self.operands)).split()


class Option(NamedTuple):
    """An option: its name, its letter and value if any, the commands that take it (none means all), and what it does:
    short, in --help and in full."""

    name: str
    letter: str
    value: str
    commands: list[str]
    short: str
    help: str
    text: str
    is_alone: bool

    @property
    def case(self) -> str:
        """Returns the case of the option in its enum."""
        return "".join(part.capitalize() for part in self.name.split("-"))

    @property
    def spellings(self) -> list[str]:
        return [*([f"-{self.letter}"] if self.letter else []), f"--{self.name}"]

    @property
    def tag(self) -> str:
        """Returns the option as --help lists it: `-i, --ignore-case`, `--max N`."""
        return f"{', '.join(self.spellings)} {self.value}".rstrip()


class Example(NamedTuple):
    """An example: what it is for, the files that are there, the commands, what they print, and the status."""

    text: str
    files: list[bytes]
    run: str
    prints: str
    status: int


class Program(NamedTuple):
    """What a table has of a program."""

    name: str
    summary: str
    text: str
    columns: dict[str, int]
    commands: list[Command]
    options: list[Option]
    sections: dict[str, str]
    examples: list[Example]

    def takers(self, option: Option) -> list[Command]:
        """Returns the commands that take an option."""
        return [it for it in self.commands if not option.commands or it.name in option.commands]

    def options_of(self, command: str) -> list[Option]:
        """Returns the options that a command takes, or those that need none."""
        return [it for it in self.options if (not it.commands and not (command and it.is_alone)) or command in it.commands]


def flowed(text: str) -> str:
    """Returns a text with each paragraph as one line."""
    return "\n\n".join(" ".join(part.split()) for part in text.strip().split("\n\n"))


def option_of(row: dict) -> Option:
    """Returns an option. Without a text for --help, its short text is printed there, too."""
    said = row.get("help", row["short"])
    letter, value, commands = row.get("letter", ""), row.get("value", ""), row.get("commands", [])
    return Option(row["name"], letter, value, commands, row["short"], said, flowed(row["text"]), row.get("alone", False))


def command_of(row: dict) -> Command:
    name, *operands = row["synopsis"].replace(OPTIONS, "").split()
    forms = [(it["synopsis"], it.get("help", row["short"])) for it in [row, *row.get("forms", [])]]
    return Command(name, operands, row["short"], flowed(row["text"]), forms)


def example_of(row: dict) -> Example:
    """Returns an example; what it prints ends with a newline."""
    files = [re.sub(rb"\\x([0-9A-F]{2})", lambda it: bytes.fromhex(it[1].decode()), name.encode()) for name in row.get("files", [])]
    prints = row["prints"] if row["prints"].endswith("\n") else row["prints"] + "\n"
    return Example(flowed(row["text"]), files, row["run"].strip("\n"), prints, row.get("status", 0))


@cache
def program(name: str) -> Program:
    """Returns what the table of a program has."""
    table = tomllib.loads((TABLES / f"{name}.toml").read_text(encoding="utf-8"))
    made = Program(
        name,
        table["summary"],
        flowed(table["text"]),
        table.get("columns", {}),
        [command_of(row) for row in table["commands"]],
        [option_of(row) for row in table.get("options", [])],
        {row["title"]: flowed(row["text"]) for row in table.get("sections", [])},
        [example_of(row) for row in table["examples"]],
    )
    known = {it.name for it in made.commands}
    if unknown := [f"--{it.name} of {of}" for it in made.options for of in it.commands if of not in known]:
        raise ValueError(f"docs/programs/{name}.toml: no such command: {', '.join(unknown)}")
    return made


# Man pages.


def in_roff(text: str) -> str:
    """Returns a text in roff, with what is in backticks in bold."""
    return re.sub(r"`([^`]+)`", r"\\fB\1\\fR", as_roff(text))


def tagged(rows: list[tuple[str, str]]) -> str:
    """Returns texts in roff, each after what it is about."""
    return "\n".join(f".TP\n{tag}\n{text}" for tag, text in rows)


def in_bold(*words: str) -> str:
    """Returns words in roff: operands in italics, others in bold."""
    return " ".join(rf"\fI{as_roff(it)}\fR" if re.fullmatch(r"[\[\]A-Z.=]+", it) else rf"\fB{as_roff(it)}\fR" for it in words)


def spelled(option: Option) -> str:
    """Returns how an option is given, in roff."""
    return ", ".join(in_bold(it, *filter(None, [option.value])) for it in option.spellings)


def of_commands(option: Option) -> str:
    """Returns which commands take an option, as the words before its text."""
    names = [f"`{it}`" for it in option.commands]
    return f"For {', '.join(names[:-2] + [' and '.join(names[-2:])])}. " if names else ""


def synopsis(of: Program) -> str:
    """Returns the forms of a program's arguments, in roff: each command, and the options that need none."""
    lines = []
    for command in of.commands:
        has = [in_bold("[OPTIONS]")] if of.options_of(command.name) else []
        lines.append(" ".join([in_bold(of.name, command.name), *has, in_bold(*command.operands)]))
    lines += [in_bold(of.name, f"--{it.name}") for it in of.options if it.is_alone]
    return "\n.br\n".join(lines)


def example_in_roff(example: Example) -> str:
    """Returns an example in roff: what it is for, its commands and what they print."""
    lines = example.run.splitlines()
    prompts = ["$", *(">" if it.endswith("|") else "$" for it in lines)]
    shown = "\n".join([*(f"{prompt} {it}" for prompt, it in zip(prompts, lines)), example.prints.rstrip("\n")])
    return f".PP\n{in_roff(example.text)}\n.PP\n.RS 4\n{as_shown(shown)}\n.RE"


def man_page(of: Program) -> str:
    """Returns the man page of a program."""
    return page(of.name, 1, {
        "NAME": f"{of.name} \\- {as_roff(of.summary)}",
        "SYNOPSIS": synopsis(of),
        "DESCRIPTION": in_roff(of.text),
        "COMMANDS": tagged([(in_bold(it.name, *it.operands), in_roff(it.text)) for it in of.commands]),
        "OPTIONS": tagged([(spelled(it), in_roff(of_commands(it) + it.text)) for it in of.options]),
        **{title: in_roff(text) for title, text in of.sections.items()},
        "EXIT STATUS": tagged([(rf"\fB{number}\fR", in_roff(text)) for number, text in STATUSES.items()]),
        "EXAMPLES": "\n".join(example_in_roff(it) for it in of.examples),
        "SEE ALSO": ",\n".join(f".BR {it} (1)" for it in PROGRAMS if it != of.name),
    })


# Where a completion is below share/, by its shell. tools/documents/programs prints them.
COMPLETIONS = {"bash": "bash-completion/completions/{}", "zsh": "zsh/site-functions/_{}", "fish": "fish/vendor_completions.d/{}.fish"}


def files_of(name: str) -> dict[str, str]:
    """Returns the man page and the completions of a program, by where they are below share/."""
    texts = {shell: (TABLES / "completions" / f"{name}.{shell}").read_text(encoding="utf-8") for shell in COMPLETIONS}
    return {f"man/man1/{name}.1": man_page(program(name)), **{COMPLETIONS[shell].format(name): text for shell, text in texts.items()}}
