"""Files and folders of a repository, replaced all or none."""

from __future__ import annotations

import os
import shutil
import signal
import tempfile
from contextlib import contextmanager
from pathlib import Path
from typing import Iterable, Iterator

ENDINGS = (signal.SIGINT, signal.SIGTERM)


@contextmanager
def room_in(target: Path) -> Iterator[Path]:
    """Gives an empty folder on the disk of a target, and removes it.

    The target is made if it is missing, and removed after a failure.
    """
    is_new = not target.exists()
    target.mkdir(exist_ok=True)
    room = Path(tempfile.mkdtemp(prefix=".use-", dir=target))
    try:
        yield room
        is_new = False
    finally:
        shutil.rmtree(room, ignore_errors=True)
        if is_new:
            target.rmdir()


def copy_folder(folder: Path, to: Path) -> None:
    """Copies a folder, and stops at the first file that can't be written."""
    to.mkdir(parents=True)
    for path in sorted(folder.iterdir()):
        copy_folder(path, to / path.name) if path.is_dir() else shutil.copyfile(path, to / path.name)


def replace(moves: Iterable[tuple[Path | None, Path]], aside: Path) -> None:
    """Moves files and folders to their places, on one disk, and what is there to an empty folder.

    A place without a new file is only emptied. If one can't be moved, all are moved back.
    Signals wait meanwhile.
    """
    done: list[tuple[Path, Path]] = []
    made: list[Path] = []

    def move(one: Path, other: Path) -> None:
        os.rename(one, other)
        done.append((one, other))

    waiting = signal.pthread_sigmask(signal.SIG_BLOCK, ENDINGS)
    try:
        for at, (new, place) in enumerate(moves):
            if not place.parent.exists():
                place.parent.mkdir()
                made.append(place.parent)
            if os.path.lexists(place):
                move(place, aside / str(at))
            if new:
                move(new, place)
    except BaseException:
        for one, other in reversed(done):
            os.rename(other, one)
        for folder in reversed(made):
            folder.rmdir()
        raise
    finally:
        signal.pthread_sigmask(signal.SIG_SETMASK, waiting)
