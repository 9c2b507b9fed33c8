"""Starts a program of this checkout, as ./names, ./paths and ./osbytes do.

The arguments, the streams and the status are the program's. If crates/NAME/out/NAME is newer than everything that it
is built from, as `./test --all` and `tools/prove/prove NAME` leave it, that proved program is started. Otherwise the
program is compiled with checks and without a proof. This takes about a minute once, since the program is kept in
out/unproved until one of its sources changes. A line on standard error reports which program was started. If it can't
be compiled, the status is 125, or 128 and the number of the signal that interrupted it, and nothing is kept.

./osbytes --help prints the commands, since the program has no such option.
"""

import os
import signal
import sys

from kept import CRATES, is_proved, kept, report

NO_RESULT = 125
ENDINGS = (signal.SIGINT, signal.SIGTERM, signal.SIGHUP)
HELP = """\
usage: ./osbytes units unix|windows|wasm      prints the code units of a string, one on each line
       ./osbytes raw unix|windows|wasm        reads code units, one on each line, and prints the string
       ./osbytes find unix|windows|wasm PAT   prints the first index of PAT in a string, or `none`
       ./osbytes split unix|windows|wasm PAT  prints the pieces of a string between PAT, one on each line
       ./osbytes chunks unix|windows|wasm     prints the chunks of a string, invalid part and text on each line
       ./osbytes quote unix|windows|wasm      prints the escape of a string
       ./osbytes unquote unix|windows|wasm    reads an escape, and prints the string
       ./osbytes --help

A string is read from standard input. Units, pieces and chunks are lower-case hexadecimal, and `-` is an empty one. The
exit status is 1 for invalid input, 2 for a usage error, 3 if memory runs out, and 4 if a read or write fails.
"""


class Interrupted(BaseException):
    """A signal came, with this number, before the program was compiled."""


def interrupted(number: int, _: object) -> None:
    """Ends at a signal. Another one doesn't interrupt the removal of what was begun."""
    for it in ENDINGS:
        signal.signal(it, signal.SIG_IGN)
    raise Interrupted(number)


def words_of(name: str) -> list[str]:
    """Returns the words that start a program."""
    if is_proved(name):
        report(f"{name}: proved, crates/{name}/out/{name}")
        return [str(CRATES / name / "out" / name)]
    # those that are ignored stay so, as `nohup` wants it
    caught = [it for it in ENDINGS if signal.getsignal(it) != signal.SIG_IGN]
    for it in caught:
        signal.signal(it, interrupted)
    words = kept(name)
    for it in caught:
        signal.signal(it, signal.SIG_DFL)
    report(f"{name}: not proved, compiled with checks; tools/prove/prove {name} proves and builds it")
    return words


def start(name: str) -> int:
    """Starts a program with the arguments of this one, and returns a status if it can't be started."""
    if name == "osbytes" and sys.argv[1:] == ["--help"]:
        print(HELP, end="")
        return 0
    try:
        words = words_of(name)
        # Python ignores these signals, and so would what it starts
        for it in (signal.SIGPIPE, signal.SIGXFSZ):
            signal.signal(it, signal.SIG_DFL)
        os.execv(words[0], [*words, *sys.argv[1:]])
    except Interrupted as why:
        report(f"{name}: interrupted before it was compiled, and nothing is kept")
        return 128 + why.args[0]
    except SystemExit as why:
        report(f"{name}: {str(why).removeprefix(f'{name}: FAILED: ')}")
    except (OSError, MemoryError) as why:
        report(f"{name}: it can't be compiled, kept in out/unproved and started: {why or 'memory ran out'}")
    return NO_RESULT
