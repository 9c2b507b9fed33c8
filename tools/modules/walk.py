"""The crates that changed, proved over kept work. A crate above goes on over a library whose interface is unchanged.

A library is used where it was built last: where `rt ci` or tools/prove/prove left it, or in out/quick/rlib if it was
built over the libraries that are used now. Its interface is what the crates above can name: the heads of its functions,
its types, definitions and lemma files, as the prover writes them beside the proofs.
"""

import hashlib
import json
import os
import re
import shutil
import subprocess
import threading
import time
from concurrent.futures import FIRST_COMPLETED, Future, ThreadPoolExecutor, wait
from pathlib import Path
from typing import Iterable, NamedTuple

from compiling import CRATES, below, build_of, built, files_of, hold, is_archive, is_built, is_current, is_library
from compiling import over_libraries, own_sum, processors, uses
from laid_in import kit
from sources import ROOT

ROOM = ROOT / "out" / "quick"
PLACES_FILE = ROOM / "places.json"
PROVED_FILE = ROOM / "proved.json"
# The files of proofs/ that belong to one function: no other crate names them.
OWN = ("Answers.antt", "Invariants.antt", "Proof.antt")
OVER = re.compile(r"^over (\w+) (\w+)$", re.M)
COUNTS = re.compile(r"^crate \w+: modules (loaded=\d+ checked=\d+)", re.M)
EMPTY = re.compile(r"^warning: no call of .*", re.M)


class Ran(NamedTuple):
    """What a command came to: its status, what it printed, and its seconds of processor time."""

    status: int
    said: str
    seconds: float


class Outcome(NamedTuple):
    """What came of a crate: whether it was proved now, and what keeps it from being proved."""

    name: str
    is_new: bool
    fault: str = ""


def run(words: list[str], folder: Path, env: dict[str, str] | None = None) -> Ran:
    """Runs a command."""
    pipes = {"stdin": subprocess.DEVNULL, "stdout": subprocess.PIPE, "stderr": subprocess.STDOUT}
    with subprocess.Popen(words, cwd=folder, env=env, text=True, errors="replace", **pipes) as process:
        said = process.stdout.read()
        _, status, used = os.wait4(process.pid, 0)
        process.returncode = os.waitstatus_to_exitcode(status)
    return Ran(process.returncode, said, used.ru_utime)


def sum_of(parts: Iterable[object]) -> str:
    """Returns the sum of texts, and of files by their paths and contents."""
    sum = hashlib.sha256()
    for part in parts:
        value = (str(part.relative_to(ROOT)), part.read_bytes()) if isinstance(part, Path) else part
        sum.update(repr(value).encode())
    return sum.hexdigest()


def format_of(library: Path) -> str:
    form = library / "format"
    return form.read_text(encoding="utf-8") if form.exists() else ""


def sum_in(library: Path) -> str:
    """Returns the sum of a built library, by which those above state over what they were built."""
    return hashlib.sha256((library / "format").read_bytes()).hexdigest()


def over_of(library: Path) -> dict[str, str]:
    """Returns over what a library was built, as its statements or a note beside it state."""
    return dict(OVER.findall(format_of(library))) or noted_in(library.with_suffix(".over"))


def interface_of(library: Path) -> str:
    """Returns the sum of the interface of a built library."""
    sum = hashlib.sha256()
    for part in ("interface", "lang"):
        for path in sorted(path for path in (library / part).rglob("*") if path.is_file()):
            if path.name not in OWN and path != library / "lang" / "antt" / "made.json":
                sum.update(repr((str(path.relative_to(library)), path.read_bytes())).encode())
    return sum.hexdigest()


class Walk:
    """The crates, lowest first: which were proved as they are, and where each library is taken from."""

    def __init__(self) -> None:
        # by the names of crates the sums of what they were proved of
        self.proved = noted_in(PROVED_FILE)
        self.own = {name: own_sum(name) for name in uses()}
        self.noted = {name: Path(place) for name, place in noted_in(PLACES_FILE).items()}
        self.places: dict[str, Path] = {}
        self.writing = threading.Lock()
        self.seconds = 0.0

    def key(self, name: str) -> str:
        """Returns the sum of a crate's own sources, of the kit and of the libraries that are taken below it."""
        return sum_of([self.own[name], build_of(kit() / "rlibs" / "std.rlib"), *(sum_in(self.places[it]) for it in below(name))])

    def fits(self, library: Path, name: str) -> bool:
        """Returns whether a library is there, of this kit, and over the libraries that are taken below it."""
        if build_of(library) != build_of(kit() / "rlibs" / "std.rlib"):
            return False
        if (over := over_of(library)) or not below(name):
            return all(over.get(it) == sum_in(self.places[it]) for it in below(name))
        # `rt` notes nothing of what it has built with its proofs
        return library == built(name) and all(self.places[it] == built(it) for it in below(name))

    def is_own(self, name: str) -> bool:
        """Returns whether a library was built of its sources as they are, whatever is below it now."""
        noted = built(name).with_name("own")
        return noted.exists() and noted.read_text(encoding="utf-8") == self.own[name]

    def take(self, name: str) -> bool:
        """Returns whether a crate was proved with its present sources, and uses it from there, if it is a library."""
        if not is_library(name):
            return self.proved.get(name) == self.key(name)
        if is_built(name) and self.fits(built(name), name) and (self.is_own(name) or is_current(name)):
            self.places[name] = built(name)
            self.proved[name] = self.key(name)
            return True
        if self.proved.get(name) == self.key(name) and name in self.noted and self.fits(self.noted[name], name):
            self.places[name] = self.noted[name]
            return True
        return False

    def words(self, name: str, made: Path) -> list[str]:
        """Returns the command that proves a crate over kept work, and builds it if it is a library."""
        what = ["build"] if is_library(name) else ["check"]
        how = ["-o", str(made)] if is_library(name) else ["--crate-type", "staticlib"] if is_archive(name) else []
        how += ["--jobs", "1", "--empty-contracts", "--incremental", "out/incremental"]
        return [f"{kit()}/bin/rattle", *what, *over_libraries(name, lambda it: self.places[it]), *how]

    def prove(self, name: str) -> Outcome:
        """Proves a crate and prints that. A library is used from where the crates above have it, if they can."""
        began, made = time.time(), ROOM / "new" / f"{name}.rlib"
        shutil.rmtree(made, ignore_errors=True)
        made.parent.mkdir(parents=True, exist_ok=True)
        (CRATES / name / "out").mkdir(exist_ok=True)
        key = self.key(name)
        faults = unformatted(name)
        if faults:
            return Outcome(name, True, f"not in the layout of rt fmt: {faults}")
        ran = run(self.words(name, made), CRATES / name)
        self.seconds += ran.seconds
        empty = EMPTY.findall(ran.said)
        if ran.status or empty:
            return Outcome(name, True, "\n".join(empty) if empty and not ran.status else ran.said)
        if own_sum(name) != self.own[name]:
            return Outcome(name, True, "its sources have changed meanwhile")
        is_same = is_library(name) and self.settle(name, made)
        self.proved[name] = key
        self.note()
        counts = COUNTS.search(ran.said)
        interface = (", its interface as it was" if is_same else ", its interface new") if is_library(name) else ""
        print(
            f"quick: {name}: proved, {counts[1] if counts else 'modules unknown'}{interface}; "
            f"{time.time() - began:.0f} s by the clock, {ran.seconds:.0f} of a processor", flush=True,
        )
        return Outcome(name, True)

    def settle(self, name: str, made: Path) -> bool:
        """Uses an existing library with the same interface, else the one built now; returns whether one existed."""
        kept = ROOM / "rlib" / f"{name}.rlib"
        interface = interface_of(made)
        for place in dict.fromkeys([self.noted.get(name, built(name)), built(name), kept]):
            if self.fits(place, name) and interface_of(place) == interface:
                self.places[name] = place
                shutil.rmtree(made)
                return True
        kept.parent.mkdir(exist_ok=True)
        shutil.rmtree(kept, ignore_errors=True)
        made.rename(kept)
        over = {it: sum_in(self.places[it]) for it in below(name)}
        kept.with_suffix(".over").write_text(json.dumps(over), encoding="utf-8")
        self.places[name] = kept
        return False

    def work(self, name: str) -> Outcome:
        """Uses a crate that was proved before, or proves it."""
        held = hold([name])
        try:
            return Outcome(name, False) if self.take(name) else self.prove(name)
        finally:
            for it in held:
                os.close(it)

    def go(self) -> list[Outcome]:
        """Goes over all crates, one on each processor, and returns the outcome of those that were tried."""
        waiting, done = list(uses()), {}
        with ThreadPoolExecutor(processors()) as pool:
            at_work: dict[Future[Outcome], str] = {}
            while waiting or at_work:
                ready = [name for name in waiting if all(it in done for it in below(name))]
                for name in ready:
                    waiting.remove(name)
                    if lacking := [it for it in below(name) if done[it].fault]:
                        done[name] = Outcome(name, False, f"not tried, since {lacking[0]} isn't proved")
                    else:
                        at_work[pool.submit(self.work, name)] = name
                if at_work:
                    finished, _ = wait(at_work, return_when=FIRST_COMPLETED)
                    done.update({at_work.pop(it): it.result() for it in finished})
        self.note()
        return list(done.values())

    def note(self) -> None:
        """Writes what was proved, and where the libraries are taken from."""
        with self.writing:
            ROOM.mkdir(parents=True, exist_ok=True)
            places = {**self.noted, **self.places}
            PROVED_FILE.write_text(json.dumps(self.proved, indent=1), encoding="utf-8")
            PLACES_FILE.write_text(json.dumps({it: str(place) for it, place in places.items()}, indent=1), encoding="utf-8")


def noted_in(path: Path) -> dict[str, str]:
    """Returns what a run has noted in a file."""
    return json.loads(path.read_text(encoding="utf-8")) if path.exists() else {}


def unformatted(name: str) -> str:
    """Returns the files of a crate that are not in their layout."""
    files = [path for path in files_of(name) if path.suffix in (".rt", ".antt")]
    ran = run([f"{kit()}/bin/rattle", "fmt", "--check", *map(str, files)], CRATES / name)
    return ran.said.strip() if ran.status else ""
