"""Options and operands of a command line."""

# mypy: disable-error-code="no-any-return"
from __future__ import annotations

from enum import IntEnum
from typing import Any, AnyStr, Generic, Iterable, Iterator

from . import _core
from ._errors import MissingValueError, UnexpectedValueError
from ._strings import UNIX, OsName, OsString, Platform

__all__ = [
    "Option", "OptionKind", "Options",
]  # fmt: skip


class OptionKind(IntEnum):
    """What is read from a word."""

    LONG = 1
    LONG_BYTES = 2
    SHORT = 3
    SHORT_BYTES = 4
    OPERAND = 5


class Option(Generic[AnyStr]):
    """An option or an operand: its `kind`, and its `text` without dashes and without a value."""

    __slots__ = ("kind", "text")
    kind: OptionKind
    text: AnyStr

    def __init__(self, kind: OptionKind, text: AnyStr) -> None:
        self.kind = kind
        self.text = text

    @property
    def name(self) -> str | None:
        """The option as it is written, as `-o` or `--output`. None for an operand, and for a name that isn't text.

        >>> Option(OptionKind.LONG, "output").name
        '--output'
        """
        dashes = {OptionKind.LONG: "--", OptionKind.SHORT: "-"}.get(self.kind)
        text: OsString = self.text
        if dashes is None:
            return None
        return dashes + (text.decode() if isinstance(text, bytes) else text)

    def __iter__(self) -> Iterator[Any]:
        return iter((self.kind, self.text))

    def __eq__(self, other: object) -> bool:
        return isinstance(other, Option) and (self.kind, self.text) == (other.kind, other.text)

    def __hash__(self) -> int:
        return hash((self.kind, self.text))

    def __repr__(self) -> str:
        return f"Option({self.kind!r}, {self.text!r})"


_UNEXPECTED = 10


class Options(Iterator[Option[AnyStr]]):
    """The options and operands of a command line, without the program's name, one by one.

    `--name` and `--name=value` are long options, whose name ends at the first `=`. `-abc` is three short ones, a
    character each. `--` is skipped, and each word after it is an operand. So is `-`, the empty word, one that doesn't
    begin with a dash, and one that begins with `-` or `-.` and a digit if `numbers` is true.

    A step raises `UnexpectedValueError` if the last option has `=value` in its word and nothing took it. The next step
    goes on after it. Only one thread at a time may use an object. A copy goes on alone.

    >>> options, output, names = Options(["-o=a", "--verbose", "b"]), None, []
    >>> for option in options:
    ...     if option.name in ("-o", "--output"):
    ...         output = options.value()
    ...     elif option.kind == OptionKind.OPERAND:
    ...         names.append(option.text)
    >>> output, names
    ('a', ['b'])
    """

    def __init__(self, words: Iterable[OsName[AnyStr]], platform: Platform = UNIX, *, numbers: bool = False) -> None:
        self._state = _core.options_new(words, platform, numbers)

    def __copy__(self) -> Options[AnyStr]:
        other: Options[AnyStr] = object.__new__(type(self))
        other._state = _core.options_copy(self._state)
        return other

    def __deepcopy__(self, _: object) -> Options[AnyStr]:
        return self.__copy__()

    def __next__(self) -> Option[AnyStr]:
        found = _core.options_next(self._state)
        if found is None:
            raise StopIteration
        kind, text = found
        if kind == 0:
            raise UnexpectedValueError(f"{_core.status_text(_UNEXPECTED)}: {text!r}", value=text)
        return Option(OptionKind(kind), text)

    def value(self) -> AnyStr:
        """Takes the value of the last option: the rest of its word without the `=` it begins with, else the next word.

        Raises `MissingValueError` if no word is left.

        >>> options = Options(["--name=a=b", "c"])
        >>> next(options).name, options.value(), options.value()
        ('--name', 'a=b', 'c')
        """
        value: AnyStr | None = _core.options_value(self._state)
        if value is None:
            raise MissingValueError("the option needs a value, and no argument is left")
        return value

    def optional_value(self) -> AnyStr | None:
        """Takes the value of the last option if it is in the option's own word. Else returns None, and the next word stays.

        >>> options = Options(["-n", "a"])
        >>> next(options).name, options.optional_value()
        ('-n', None)
        """
        return _core.options_optional_value(self._state)
