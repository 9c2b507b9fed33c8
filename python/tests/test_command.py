"""Tests of `python -m osbytes`: python test_command.py"""

from __future__ import annotations

import os
import subprocess
import sys
import unittest
from typing import Any

import osbytes

COMMAND = [sys.executable, "-m", "osbytes"]


def run(*words: bytes | str, given: bytes = b"", **how: Any) -> subprocess.CompletedProcess[bytes]:
    return subprocess.run([*COMMAND, *words], input=given, stdout=subprocess.PIPE, stderr=subprocess.PIPE, **how)


class Names(unittest.TestCase):
    def printed(self, *words: bytes | str, given: bytes = b"") -> bytes:
        ran = run(*words, given=given)
        self.assertEqual((ran.returncode, ran.stderr), (0, b""))
        return ran.stdout

    def test_names(self) -> None:
        self.assertEqual(self.printed(b"a\xff", b"\n"), b"a\\xFF\n\\u000A\n")
        self.assertEqual(self.printed("--", "join", "--help"), b"join\n--help\n")
        self.assertEqual(self.printed(given=b"a\xff\0b\0"), b"a\\xFF\nb\n")
        self.assertEqual(self.printed(given=b"a\0b"), b"a\nb\n")
        self.assertEqual(self.printed(given=b"\0\0"), b"\n\n")
        self.assertEqual(self.printed(given=b""), b"")
        many = [b"%d\xff" % number for number in range(50000)]
        self.assertEqual(self.printed(given=b"".join(name + b"\0" for name in many)).count(b"\\xFF\n"), 50000)
        long = b"a" * 1_000_000
        self.assertEqual(self.printed(given=long + b"\0" + long), long + b"\n" + long + b"\n")

    def test_join(self) -> None:
        names = b"".join(bytes(byte for byte in (1, 10, 34, 92, number) if byte) + b"\0" for number in range(256))
        self.assertEqual(self.printed("join", given=self.printed(given=names)), names)
        self.assertEqual(self.printed("join", given=b"a\nb"), b"a\0b\0")
        for given, number in ((b"a\n\\q\n", 2), (b"\xff", 1), (b"a\nb\n\\x61", 3)):
            ran = run("join", given=given)
            self.assertEqual(ran.returncode, 1)
            self.assertRegex(ran.stderr.decode(), rf"\Aosbytes: line {number}: .*\n\Z")
            self.assertEqual(ran.stdout, b"".join(line + b"\0" for line in given.split(b"\n")[: number - 1]))

    def test_help(self) -> None:
        self.assertEqual(self.printed("--version").decode(), f"osbytes {osbytes.__version__}\n")
        for word in ("--help", "-h"):
            self.assertIn(b"usage: python -m osbytes [NAME ..]", self.printed(word))
        for words, unexpected in ((["--foo"], "--foo"), (["join", "a"], "a"), (["a", "-b\n"], "-b\\u000A")):
            ran = run(*words)
            self.assertEqual((ran.returncode, ran.stdout), (2, b""))
            self.assertEqual(ran.stderr.decode(), f"osbytes: unexpected argument {unexpected} (see --help)\n")

    def test_platform(self) -> None:
        """Names are printed as strings of the platform, as the arguments are on Windows."""
        code = "import osbytes, osbytes.__main__ as it; it.list_names(iter([[b'a\\xed\\xa0\\xbd']]), osbytes.%s)"
        for platform, printed in (("WINDOWS", b"a\\uD83D\n"), ("UNIX", b"a\\xED\\xA0\\xBD\n")):
            ran = subprocess.run([sys.executable, "-c", code % platform], stdout=subprocess.PIPE, check=True)
            self.assertEqual(ran.stdout, printed)

    def test_streams(self) -> None:
        """Each name is printed when it has arrived, and not when the input ends."""
        for words, first, shown, second, after in (
            ((), b"a\xff\0", b"a\\xFF\n", b"b\0", b"b\n"),
            (("join",), b"a\\xFF\n", b"a\xff\0", b"b\n", b"b\0"),
        ):
            with subprocess.Popen([*COMMAND, *words], stdin=subprocess.PIPE, stdout=subprocess.PIPE, bufsize=0) as ran:
                assert ran.stdin is not None and ran.stdout is not None
                ran.stdin.write(first)
                self.assertEqual(ran.stdout.read(len(shown)), shown)
                ran.stdin.write(second)
                self.assertEqual(ran.stdout.read(len(after)), after)
                ran.stdin.close()
                self.assertEqual(ran.wait(), 0)

    def ended(self, command: str) -> tuple[int, str]:
        ran = subprocess.run(["sh", "-c", command, "sh", *COMMAND], stdin=subprocess.DEVNULL, stdout=subprocess.PIPE, stderr=subprocess.PIPE)
        return ran.returncode, ran.stderr.decode()

    def test_input_and_output_errors(self) -> None:
        """Each ends with status 4, and with one line or, if the output has no reader, with none."""
        for command in (
            'printf "a\\0" | "$@" > /dev/full',
            '"$@" a > /dev/full',
            '"$@" --help > /dev/full',
            '"$@" <&-',
            '"$@" join <&-',
            '"$@" a >&-',
            'printf "a\\n" | "$@" join >&-',
        ):
            status, said = self.ended(command)
            self.assertEqual(status, 4, command)
            self.assertRegex(said, r"\Aosbytes: [^\n]+\n\Z", command)
        for command in ('"$@" a 2>&- > /dev/full', '"$@" <&- >&- 2>&-'):
            self.assertEqual(self.ended(command), (4, ""))
        reader, writer = os.pipe()
        os.close(reader)
        try:
            ran = subprocess.run(COMMAND, input=b"a\0", stdout=writer, stderr=subprocess.PIPE)
        finally:
            os.close(writer)
        self.assertEqual((ran.returncode, ran.stderr), (4, b""))


if __name__ == "__main__":
    unittest.main()
