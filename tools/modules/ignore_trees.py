"""What git prints for trees and ignore files made by rule, as a result file.

Each tree has directories and files three levels deep, a .gitignore at the top, and others below it. Their lines have
everything that git's document names: blanks and tabs at a line's end, `\\ `, `#`, `!`, slashes in all positions, `*`,
`**`, `?`, classes, backslashes, carriage returns, NULs, a byte order mark, bytes that aren't text. Many lines are made
of names in the tree, so that they match. `git check-ignore -v -n --no-index` runs on the top of each tree and on each
path in it, with no other ignore file: 5,000 paths. A second file has what git prints with `core.ignorecase`, for 5,000
paths too. There each letter of a name or a line is small or capital by chance, and more classes have letters.
"""

import os
import random
import shutil
import subprocess
import tempfile
from pathlib import Path
from typing import Callable, Iterator

from left_out import leave_out

PATHS = 5000
KINDS = {False: "ignore_trees", True: "ignore_cases"}
NAMES = [b"a", b"b", b"c", b"ab", b"abc", b"a.c", b"b.c", b".a", b"-", b"a b", b"x[y", b"a]", b"#a", b"!a", b"\xff", b"\xc3\xa9", b"a\\", b"A"]
CLASSES = [b"[ab]", b"[!a]", b"[^b]", b"[a-c]", b"[c-a]", b"[]a]", b"[!]]", b"[[:alpha:]]", b"[[:punct:]x]", b"[[:foo:]]", b"[a", b"[\\]a]", b"[a/b]", b"[-a]", b"[a-]", b"[\\a-\\c]", b"[[:a]", b"[a-b-c]", b"[[:space:]]"]
PARTS = [b"*", b"**", b"***", b"?", b"*.c", b"a*", b"*b", b"a**", b"**b", b"\\a", b"\\*", b"\\", b"?b", b"*a*c", b"a?c"]
CASED = [b"[A]", b"[!A]", b"[^a]", b"[A-C]", b"[a-c]", b"[Z-a]", b"[@-B]", b"[a-Z]", b"[\\A]", b"[\\A-\\Z]", b"[b-z]", b"[B-z]", b"[[:upper:]]", b"[[:lower:]]", b"[![:upper:]]", b"[[:xdigit:]]", b"[[:alnum:]]", b"[[:punct:]A]", b"[!A-Z]", b"[a-]", b"[A-[:upper:]]", b"\\A", b"\\a", b"*A", b"*\\A", b"*.C", b"?B"]
PREFIXES = [b"", b"", b"", b"", b"/", b"/", b"!", b"!", b"!/", b"\\!", b"#", b"\\#", b" ", b"//"]
SUFFIXES = [b"", b"", b"", b"", b"/", b"/", b"/**", b"/*", b" ", b"\\ ", b"\t", b"  ", b"/ ", b"\\ \\ ", b"\r", b" \r", b"\0x", b"\\/"]
ENDS = [b"\n", b"\n", b"\n", b"\r\n", b"\n\n"]


def mixed(text: bytes, folds: bool) -> bytes:
    """Returns the text; if case doesn't matter, each letter is small or capital by chance."""
    return bytes(random.choice((text[at : at + 1].swapcase(), text[at : at + 1]))[0] for at in range(len(text))) if folds else text


def line(names: list[bytes], folds: bool) -> bytes:
    """Returns a line, most often of names that a tree has."""
    def part() -> bytes:
        if folds and random.random() < 0.2:
            return random.choice(CASED)
        kind = random.choices([names, PARTS, CLASSES, NAMES], [9, 3, 1, 1])[0]
        return random.choice(kind) if kind is CLASSES else mixed(random.choice(kind), folds)

    parts = [part() + (part() if random.random() < 0.2 else b"") for _ in range(random.choice([1, 1, 1, 2, 2, 3]))]
    return random.choice(PREFIXES) + random.choice([b"/", b"/", b"/", b"\\/", b"/**/"]).join(parts) + random.choice(SUFFIXES)


def ignore_file(names: list[bytes], folds: bool) -> bytes:
    lines = b"".join(line(names, folds) + random.choice(ENDS) for _ in range(random.randrange(2, 16)))
    lines = lines[:-1] if random.random() < 0.3 else lines
    return random.choice([b"", b"", b"", b"\xef\xbb\xbf"]) + lines


def make_tree(top: bytes, depth: int, folds: bool) -> None:
    for name in random.sample(NAMES, random.randrange(1, 5)):
        path = os.path.join(top, mixed(name, folds))
        if depth and random.random() < 0.6 and not os.path.isfile(path):
            os.makedirs(path, exist_ok=True)
            make_tree(path, depth - 1, folds)
        elif not os.path.exists(path):
            open(path, "wb").close()


def paths_of(top: bytes) -> Iterator[tuple[bytes, bool]]:
    for folder, folders, files in os.walk(top):
        for name in sorted(folders + files):
            path = os.path.join(folder, name)
            yield os.path.relpath(path, top), os.path.isdir(path)


def is_text(path: bytes) -> bool:
    return path.decode(errors="replace").encode() == path


def make_files(
    top: bytes, may_have: Callable[[bytes], bool], folds: bool
) -> tuple[list[tuple[bytes, bool]], list[tuple[bytes, bytes]]]:
    """Makes a tree and its ignore files, in folders that may have one, and an empty repository beside it.

    Returns the paths, with whether each is a folder, and the folders with the ignore file of each.
    """
    os.mkdir(top)
    make_tree(top, 3, folds)
    paths = list(paths_of(top))
    names = [os.path.basename(path) for path, _ in paths]
    directories = [b""] + [path for path, is_dir in paths if is_dir and random.random() < 0.4 and may_have(path)]
    random.shuffle(directories)
    files = [(directory, ignore_file(names, folds)) for directory in directories]
    for directory, content in files:
        with open(os.path.join(top, directory, b".gitignore"), "wb") as file:
            file.write(content)
    subprocess.run(["git", "init", "-q", "--template=", "--bare", top + b".git"], check=True)
    return paths, files


def ask_git(top: bytes, paths: list[bytes], folds: bool) -> Iterator[tuple[bytes, bytes, bytes] | None]:
    """Yields for each path the ignore file that decides it, the number of the line and its pattern, if one does."""
    words = ["git", "-c", f"core.ignorecase={str(folds).lower()}", "-c", "core.excludesFile=/dev/null"]
    words += ["check-ignore", "-v", "-n", "-z", "--stdin", "--no-index"]
    given = b"".join(path + b"\0" for path in paths)
    env = {**os.environ, "GIT_DIR": os.fsdecode(top) + ".git", "GIT_WORK_TREE": os.fsdecode(top)}
    ran = subprocess.run(words, input=given, stdout=subprocess.PIPE, cwd=top, env={**env, "GIT_CONFIG_NOSYSTEM": "1", "HOME": "/"})
    if ran.returncode not in (0, 1):
        raise SystemExit(f"check-ignore: git ended with status {ran.returncode}")
    fields = ran.stdout.split(b"\0")
    for source, number, pattern, _ in zip(*[iter(fields[:-1])] * 4):
        yield (source, number, pattern) if source else None


def rows_of(room: Path, number: int, folds: bool) -> Iterator[str]:
    """Yields a row of a result file for the top of a tree, whose path is empty and for git `.`, and for each path in it."""
    top = os.fsencode(room / f"tree{number}")
    paths, files = make_files(top, lambda path: True, folds)
    sources = {os.path.join(directory, b".gitignore"): index for index, (directory, _) in enumerate(files)}
    given = ",".join(f"{directory.hex() or '-'}:{content.hex() or '-'}" for directory, content in files)
    asked = [(b"", False), (b"", True), *paths]
    for (path, is_dir), reason in zip(asked, ask_git(top, [path or b"." for path, _ in asked], folds)):
        answer = "-"
        if reason:
            source, line, pattern = reason
            answer = f"{sources[source]}:{'w' if pattern.startswith(b'!') else 'i'}{line.decode()}"
        yield "\t".join([given, path.hex() or "-", "01"[is_dir], answer])


def answer_file(seed: str, room: Path, folds: bool) -> Path:
    """Writes a row for each path of trees into a result file in a folder."""
    random.seed(seed)
    rows: list[str] = []
    with tempfile.TemporaryDirectory(prefix="ignored-") as name:
        while len(rows) < PATHS:
            rows += rows_of(Path(name), len(rows), folds)
    decided = sum(not row.endswith("-") for row in rows)
    print(f"git: {len(rows)} paths, {decided} of them decided by a line of an ignore file, core.ignorecase {str(folds).lower()}")
    made = room / f"{KINDS[folds]}.tsv"
    made.write_text("\n".join([f"# {made.name} (git); rows: {len(rows)}; seed: {seed}", *rows, ""]), encoding="utf-8")
    return made


def answer_files(seed: str, room: Path) -> list[Path]:
    """Writes a result file of trees in which case matters, and one of trees in which it doesn't."""
    return [answer_file(seed, room, folds) for folds in KINDS]


def has_git() -> bool:
    """Returns whether git is installed, and prints a line if it isn't."""
    if not shutil.which("git"):
        leave_out("ignore files", "git", "what it prints for trees")
        return False
    return True
