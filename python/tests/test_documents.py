"""Tests of the package's documents and types: python test_documents.py

The README is that of the folder above, or the one that OSBYTES_README names.
"""

from __future__ import annotations

import inspect
import os
import re
import shutil
import subprocess
import sys
import unittest
from importlib.metadata import PackageNotFoundError, distribution
from pathlib import Path
from tempfile import TemporaryDirectory

import osbytes

README = Path(os.environ.get("OSBYTES_README") or Path(__file__).resolve().parent.parent / "README.md")
FILES = {
    ".gitignore": "*.o\n/target/\nbuild/\n!keep.o\n**/cache\n# a comment\n!d.both\n",
    "src/.gitignore": "*.tmp\n!a.o\n/gen\n",
    "src/deep/.gitignore": "!b.tmp\n",
}
NAMES = ["a.o", "keep.o", "a.c", "target/x", "src/target/x", "src/a.o", "src/b.o", "src/b.tmp", "src/gen/x", "src/deep/gen/x"]
NAMES += ["a.user", "b.user", "src/a.user", "src/c.both", "d.both"]
NAMES += ["src/deep/b.tmp", "src/deep/c.tmp", "x/build/y", "x/cache/y", "x/#a", "x/b\nc", "x/d e", "b.tmp"]
# A file of a user, whose types are checked, too.
USER = '''
from __future__ import annotations

import pathlib
from typing import Iterator

import osbytes
from osbytes import UNIX, WINDOWS, OsString, Platform, UnixPath, WindowsPath

text: str = osbytes.shell_quote("a")
raw: bytes = osbytes.shell_quote(b"a")
quoted: str = osbytes.shell_quote(pathlib.Path("a"))
line: str = osbytes.shell_join(["a", "b"])
mixed_line: str = osbytes.shell_join(["a", pathlib.Path("b")])
words: list[bytes] = osbytes.shell_words(b"a b")
parent: str | None = osbytes.path_parent("a/b", WINDOWS)
joined: bytes = osbytes.path_join(b"a", b"b", platform=UNIX)
from_path: str = osbytes.path_join(pathlib.Path("a"), "b")
converted: str = osbytes.path_convert("a", to=WINDOWS)
kinds: list[osbytes.Kind] = [part.kind for part in osbytes.path_components("a")]
texts: list[str] = [part.text for part in osbytes.path_components("a")]
path: WindowsPath = WindowsPath("a") / "b"
name: str = path.parent.with_suffix(".x").name
other: UnixPath = path.convert(UnixPath)
globs = osbytes.GlobSet(["*.c", "*.h"], osbytes.GlobFlag.SLASH)
answers: list[bool] = globs.matches([pathlib.Path("a"), "b"])
verdict: osbytes.Verdict = osbytes.Ignore("*.o").verdict("a.o")
platform: Platform = osbytes.WASM
value: str = osbytes.Options(["-a", "b"]).value()


def joined_names(base: OsString, name: OsString) -> list[OsString]:
    return [osbytes.path_join(base, name), osbytes.path_join_checked(base, name)]


def joined_line(names: list[OsString]) -> OsString:
    return osbytes.shell_join(names)


def reason_of(error: osbytes.JoinError) -> osbytes.JoinReason | None:
    return error.reason


def shown(names: Iterator[OsString]) -> list[str]:
    return [osbytes.escape_line(name) for name in names]


try:
    osbytes.check(b"a")
except osbytes.FaultError as error:
    place: int | None = error.index
'''
WRONG = {
    "osbytes.path_relative('a', b'b')": "AnyStr",
    "text: str = osbytes.path_join('a', b'b')": "assignment",
    "len(osbytes.path_join_checked(b'a', 'b'))": "arg-type",
    "def f(base: osbytes.OsString) -> osbytes.OsString: return osbytes.path_join(base, 'b')": "return-value",
    "osbytes.find('a', 'b')": "arg-type",
    "osbytes.path_convert('a', osbytes.WINDOWS)": "call-arg|misc",
    "value: bytes = osbytes.shell_quote('a')": "assignment|arg-type",
}


class Readme(unittest.TestCase):
    def setUp(self) -> None:
        self.text = README.read_text(encoding="utf-8")

    def test_examples(self) -> None:
        lines = re.findall(r"^(osbytes\..*?)  +# (.*)$", self.text, re.M)
        self.assertGreater(len(lines), 9)
        for call, wanted in lines:
            try:
                found = ascii(eval(call, {"osbytes": osbytes}))
            except osbytes.OsBytesError as error:
                found = f"{type(error).__name__}: {error}"
            self.assertEqual(found, wanted, call)

    def test_calls(self) -> None:
        """The table of calls has each, and no other."""
        table = self.text.split("## Calls")[1].split("\n## ")[0]
        listed = set(re.findall(r"`(\w+)`", table)) - {"bytes", "str"}
        public = {name for name in osbytes.__all__ if inspect.isfunction(getattr(osbytes, name))}
        self.assertEqual(public - listed - {"version"}, set())
        self.assertEqual(listed - set(osbytes.__all__), set())
        errors = set(re.findall(r"\b\w+Error\b", self.text.split("| Error |")[1].split("\n## ")[0]))
        named = {name for name in osbytes.__all__ if name.endswith("Error")}
        self.assertEqual(errors, named - {"OsBytesError"})

    def test_it_stands_by_itself(self) -> None:
        self.assertEqual([link for link in re.findall(r"\]\(([^)]*)\)", self.text) if ":" not in link], [])
        self.assertIn(f"osbytes-{osbytes.__version__}-cp39-abi3", self.text)
        try:
            installed = distribution("osbytes")
        except PackageNotFoundError:
            return
        self.assertEqual(installed.version, osbytes.__version__)
        self.assertTrue((installed.read_text("METADATA") or "").endswith(self.text))

    def programs(self) -> list[str]:
        return re.findall(r"<!-- run beside git.*?-->\n```python\n(.*?)```", self.text, re.S)

    @unittest.skipUnless(shutil.which("git"), "there is no git")
    def test_walkers(self) -> None:
        ours, plain = self.programs()
        code = [line for line in ours.splitlines() if line.strip()]
        self.assertLessEqual(len(code), 30)
        with TemporaryDirectory() as top, TemporaryDirectory() as home:
            for name in NAMES:
                Path(top, name).parent.mkdir(parents=True, exist_ok=True)
                Path(top, name).touch()
            for name, text in FILES.items():
                Path(top, name).write_text(text)
            for words in (["init", "-q"], ["config", "core.excludesFile", f"{home}/user"]):
                subprocess.run(["git", "-C", top, *words], check=True)
            Path(home, "user").write_text("*.user\n!*.both\n")
            Path(top, ".git/info/exclude").write_text("!b.user\n*.both\n")
            listed = subprocess.run(["git", "-C", top, "ls-files", "-coz", "--exclude-standard"], check=True, stdout=subprocess.PIPE)
            wanted = sorted(osbytes.escape_line(name) for name in listed.stdout.split(b"\0")[:-1])
            self.assertGreater(len(wanted), 8)
            self.assertEqual(sorted(self.run_program(ours, top)), wanted)
            theirs = self.run_program(plain, top)
            self.assertNotEqual(sorted(theirs), wanted)
            self.assertIn("c", theirs)
            Path(os.fsdecode(os.path.join(os.fsencode(top), b"\xff.c"))).touch()
            self.assertIn("\\xFF.c", self.run_program(ours, top))

    def run_program(self, code: str, top: str) -> list[str]:
        ran = subprocess.run([sys.executable, "-c", code, top], check=True, stdout=subprocess.PIPE, stderr=subprocess.PIPE)
        return ran.stdout.decode().splitlines()


MYPY = shutil.which("mypy") or shutil.which("mypy", path="/usr/bin")


@unittest.skipUnless(MYPY, "there is no mypy")
class Typed(unittest.TestCase):
    """By mypy, where it is installed, on the package and on a user's file."""

    cache: TemporaryDirectory[str]

    @classmethod
    def setUpClass(cls) -> None:
        cls.cache = TemporaryDirectory()

    @classmethod
    def tearDownClass(cls) -> None:
        cls.cache.cleanup()

    def checked(self, *words: str) -> tuple[int, str]:
        environment = {**os.environ, "MYPYPATH": str(Path(osbytes.__file__).parent.parent)}
        environment.pop("PYTHONPATH", None)
        command = [str(MYPY), "--strict", "--no-error-summary", "--cache-dir", self.cache.name, *words]
        ran = subprocess.run(
            command, env=environment, cwd=self.cache.name, stdout=subprocess.PIPE, stderr=subprocess.STDOUT, text=True
        )
        return ran.returncode, ran.stdout

    def test_package(self) -> None:
        self.assertEqual(self.checked("-p", "osbytes"), (0, ""))

    def test_user(self) -> None:
        self.assertEqual(self.checked("-c", USER), (0, ""))

    def test_wrong_users(self) -> None:
        status, said = self.checked("-c", "\n".join(["import osbytes", *WRONG]))
        self.assertEqual(status, 1)
        for number, (line, error) in enumerate(WRONG.items(), 2):
            self.assertRegex(said, rf"<string>:{number}: error: .*({error})", line)


if __name__ == "__main__":
    unittest.main()
