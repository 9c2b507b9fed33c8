"""Words that are typed at the prompt of an interactive shell on a pseudo-terminal.

The shell runs a script with each word, which writes what it got into a file and then prints DONE and a number. The
next command is typed after that mark and a prompt after it came out, so nothing depends on how fast a shell is. A shell
that doesn't come so far within WAIT seconds is killed, and what it printed last is the reason.
"""

from __future__ import annotations

import os
import pty
import select
import signal
import tempfile
import time
from pathlib import Path
from typing import Callable, Sequence

# names by which an interactive bash takes words of its history: `^` first on a line, and `!`
TYPED = (
    *(b"a\n^b^c", b"\n^", b"^a^b", b"it's\n^x", b'"\n^', b"\\\n^b^c\n^d", b"\n\n^a^b", b"\n'^b", b"a^\n^^\n^"),
    *(b"!", b"!!", b"a\n!b", b"!\n^!", b"\n!!:s^a^b"),
)
# ^U, ^C, ^D, ^V, ^W and ESC, which a terminal or a line editor reads: no word may have them as they are
CONTROLS = tuple(b"a%ctouch PWNED\nb" % control for control in b"\x15\x03\x04\x16\x17\x1b")
# The prompt, and what the script prints. Neither is in what is typed, which the terminal echoes. mksh wants a `#` of root.
PROMPT = b"<ready#>"
DONE = b"<done-%d>"
SCRIPT = """#!/bin/sh
n=$1
shift
printf '%s\\0' "$@" >"got-$n"
printf '<%s-%s>\\n' done "$n"
"""
WAIT = 60.0


class NoAnswer(Exception):
    """A shell that ended, or came to no prompt in time."""


class Prompt:
    """An interactive shell that runs in a folder of its own."""

    def __init__(self, command: Sequence[str], folder: Path, environment: dict[str, str]):
        self.folder, self.seen, self.count = folder, b"", 0
        script = folder / "show"
        script.write_text(SCRIPT, encoding="ascii")
        script.chmod(0o755)
        given = {**environment, "PS1": PROMPT.decode(), "PS2": "", "TERM": "dumb"}
        self.process, self.terminal = pty.fork()
        if self.process == 0:
            try:
                os.chdir(folder)
                os.execvpe(command[0], [*command, "-i"], given)
            finally:
                os._exit(127)

    def __enter__(self) -> Prompt:
        return self

    def __exit__(self, *_: object) -> None:
        os.kill(self.process, signal.SIGKILL)
        os.waitpid(self.process, 0)
        os.close(self.terminal)

    def wait_for(self, mark: bytes, start: int) -> int:
        """Reads what the shell prints until a mark comes at or after an index, and returns the index after it."""
        until = time.monotonic() + WAIT
        while (at := self.seen.find(mark, start)) < 0:
            ready, _, _ = select.select([self.terminal], [], [], max(0.0, until - time.monotonic()))
            try:
                read = os.read(self.terminal, 65536) if ready else b""
            except OSError:
                read = b""
            if not read:
                raise NoAnswer(f"no {mark.decode()} after {self.seen[-300:]!r}")
            self.seen += read
        return at + len(mark)

    def read_of(self, word: bytes) -> bytes:
        """Types a command with a word, and returns the argument that its program gets."""
        if not self.count:
            self.wait_for(PROMPT, 0)
        self.count += 1
        os.write(self.terminal, b"./show %d %s\n" % (self.count, word))
        at = self.wait_for(DONE % self.count, len(self.seen))
        self.wait_for(PROMPT, at)
        return (self.folder / f"got-{self.count}").read_bytes().removesuffix(b"\0")


def misread(
    command: Sequence[str], names: Sequence[bytes], words: Sequence[bytes], environment: Callable[..., dict[str, str]]
) -> list[str]:
    """Types words at the prompt of a shell, and returns a line for each that isn't read as its name.

    `environment` makes a shell's environment of a locale, the shell's folder, and a folder of locales.
    """
    lines = []
    with tempfile.TemporaryDirectory(prefix="prompt-") as own:
        try:
            with Prompt(command, Path(own), environment("C", own, Path(own))) as prompt:
                for name, word in zip(names, words):
                    if (got := prompt.read_of(word)) != name:
                        lines.append(f"{name!r}, quoted {word!r}, was read as {got!r}")
        except NoAnswer as silent:
            lines.append(str(silent))
        return lines + ["a command ran that a name has"] * Path(own, "PWNED").exists()
