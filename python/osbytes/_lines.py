"""Words of a shell, and command lines of Windows."""

# mypy: disable-error-code="no-any-return"
from __future__ import annotations

import os
from typing import AnyStr, Iterable, overload

from . import _core
from ._strings import AnyOsName, OsName, OsString

__all__ = [
    "fish_quote", "powershell_quote", "shell_join", "shell_quote", "shell_quote_line", "shell_words", "windows_arguments",
    "windows_command_line", "windows_quote",
]  # fmt: skip


def shell_quote(name: OsName[AnyStr]) -> AnyStr:
    """Returns a name of Unix as a word that every POSIX shell reads as this name, as an argument.

    The shell's locale may be C or of UTF-8, GBK, Big5, Shift-JIS, an EUC or a charset of one byte. In GB18030 bash with
    the GNU C library misreads a quote after a byte from 0x81 on and a digit that begin no character. First on a line
    `if` or `time` is a reserved word, which `shell_join` quotes. Raises `NulError` if the name has a NUL.

    The word is for scripts, `eval` and `sh -c`. It has the control characters of the name, and a terminal acts on these, in
    quotes too, so that a part of the name may run as a command. At a prompt paste only words of `shell_quote_line`.

    >>> shell_quote("it's")
    "'it'\\\\''s'"
    """
    return _core.shell_quote(name)


def shell_quote_line(name: OsName[AnyStr]) -> AnyStr:
    """Returns a name as such a word on one line, for bash, zsh, ksh93, mksh and busybox, which read `$'..'`.

    It has no control character, and may be pasted at a prompt. The locales are those of `shell_quote`: no backslash
    follows a byte from 0x80 on. Raises as `shell_quote` does.

    >>> shell_quote_line("a\\n")
    "$'a\\\\n'"
    """
    return _core.shell_quote_line(name)


def fish_quote(name: OsName[AnyStr]) -> AnyStr:
    """Returns a name as a word of fish, in the locales of `shell_quote` and in GB18030. Raises as `shell_quote` does.

    >>> fish_quote("it's")
    "'it\\\\'s'"
    """
    return _core.fish_quote(name)


def powershell_quote(name: AnyOsName) -> str:
    """Returns a name of Windows as a single-quoted string of PowerShell.

    Write a script with it as UTF-16 or with a byte order mark (`utf-8-sig`), or pass it by `-EncodedCommand`. Windows
    PowerShell 5.1 reads a script without the mark as Windows-1252, in which letters such as U+0412 end the string.

    Raises `FaultError` if it isn't a text, as with a lone surrogate, and `NulError` if it has a NUL.

    >>> powershell_quote("it's")
    "'it''s'"
    """
    return _core.powershell_quote(name)


@overload
def shell_join(names: Iterable[str | os.PathLike[str]]) -> str: ...


@overload
def shell_join(names: Iterable[bytes | os.PathLike[bytes]]) -> bytes: ...


@overload
def shell_join(names: Iterable[OsString]) -> OsString: ...


def shell_join(names: Iterable[AnyOsName]) -> OsString:
    """Returns a line of the words of names of Unix, with a space between them, which a shell reads as these names.

    A first name that is a reserved word, or an alias that a shell begins with, is quoted, so that it is run as a command.
    The names are all `str` or all `bytes`; without any the line is the empty `str`. Raises `NulError`, with `which` and
    `index`, if a name has a NUL. A line with control characters isn't safe to paste at a prompt (`shell_quote`).

    >>> shell_join(["cp", "a b", ""])
    "cp 'a b' ''"
    """
    return _core.shell_join(names)


def shell_words(line: OsName[AnyStr], *, specials: bool = False, dollar_quotes: bool = False) -> list[AnyStr]:
    """Returns the words of a line as a POSIX shell reads it, where nothing is expanded.

    A character by which some POSIX shell in C or UTF-8 expands or does something else is rejected, or means itself if
    `specials` is true. These are ``| & ; < > ( ) $ * ? [ { } ~ ! ` `` and a carriage return outside quotes, `# = ^` first in a
    word, and ``$ ! ` `` in double quotes. Blanks beyond ASCII are part of a word, but yash takes them for blanks. `$'..'` is
    read if `dollar_quotes` is true. A line with control characters may be read differently where it is typed at a prompt.

    Raises `LineError` if the line isn't a list of words, and `NulError` if it has a NUL.

    >>> shell_words("cc -DNAME='a b' \\"c d\\"e")
    ['cc', '-DNAME=a b', 'c de']
    """
    return _core.shell_words(line, bool(specials) | bool(dollar_quotes) << 1)


def windows_quote(argument: OsName[AnyStr]) -> AnyStr:
    """Returns the text of an argument in a command line of Windows, from which a program reads this argument.

    Programs of the C runtime and most others read it so, but `cmd.exe` reads lines by rules of its own. A program that is
    linked with `setargv.obj` expands `*` and `?` in an argument without quotation marks, as `*.txt`. Raises `NulError` if it
    has a NUL.

    >>> windows_quote("a b\\\\")
    '"a b\\\\\\\\"'
    """
    return _core.windows_quote(argument)


def windows_command_line(program: OsName[AnyStr], arguments: Iterable[OsName[AnyStr]] = ()) -> AnyStr:
    """Returns the command line of a program with these arguments.

    Raises `NulError` if the name or an argument has a NUL, and `QuoteError` if the name has a quotation mark. `which` of
    the program is 0, and that of the first argument 1.

    >>> windows_command_line("E", ["a b", "", "-x"])
    '"E" "a b" "" -x'
    """
    return _core.windows_command_line(program, arguments)


def windows_arguments(line: OsName[AnyStr]) -> list[AnyStr]:
    """Returns the program's name and the arguments of a command line of Windows, as the C runtime of 2008 and later reads it.

    `CommandLineToArgvW` reads some lines differently: there two quotation marks within a quoted part end it, and a program's
    name that begins with a quotation mark ends at the next one.

    Raises `NulError` if it has a NUL.

    >>> windows_arguments(r'"my E" a "b c" \\"d')
    ['my E', 'a', 'b c', '"d']
    """
    return _core.windows_arguments(line)
