"""Builds the Python package, as pip calls it (PEP 517), with nothing but Python.

A wheel has the sources, the shared library, and the extension module, for which a C compiler and Python's headers are needed.
The library is that of lib/PROCESSOR in an unpacked source distribution, or the one that OSBYTES_LIBRARY names. CC names the
compiler, and CFLAGS has more words for it.
"""

from __future__ import annotations

import base64
import gzip
import hashlib
import io
import os
import platform
import re
import shutil
import subprocess
import sys
import sysconfig
import tarfile
import tempfile
import zipfile
from pathlib import Path
from typing import Any, Iterable

HERE = Path(__file__).resolve().parent
# In a source distribution these are beside this file, and in the repository not.
HEADERS = (HERE / "osbytes.h", HERE.parent / "c" / "include" / "osbytes.h")
LICENSE_FILES = ("LICENSE.md", "LICENSE-APACHE", "LICENSE-MIT", "NOTICE")
LICENSES = tuple(folder / name for folder in (HERE, HERE.parent) for name in LICENSE_FILES)
# A fixed time, so that the same sources give the same files.
MADE = (2026, 1, 1, 0, 0, 0)
FLAGS = ("-std=gnu11", "-O2", "-Wall", "-Wextra", "-Wno-unused-parameter", "-Wno-missing-field-initializers")
# The module finds libosbytes beside it. It names no C library, as libosbytes doesn't, so it runs with glibc and with musl.
LINKED = ("-shared", "-nostdlib", "-Wl,-rpath,$ORIGIN")
# What pyconfig.h of a Python for Windows has of what the stable ABI needs.
SIZES = {"VOID_P": 8, "SIZE_T": 8, "LONG": 4, "LONG_LONG": 8, "WCHAR_T": 2, "TIME_T": 8, "PID_T": 4, "OFF_T": 4}
ON_WINDOWS = ("Py_PYCONFIG_H", "MS_WINDOWS", "MS_WIN64", "HAVE_DECLSPEC_DLL", "Py_ENABLE_SHARED")
FOR_WINDOWS = (*(f"-D{name}" for name in ON_WINDOWS), *(f"-DSIZEOF_{name}={size}" for name, size in SIZES.items()))
# Whether this Python has the ABI that those from 3.10 on have in common.
IS_STABLE = sys.version_info >= (3, 10) and not sysconfig.get_config_var("Py_GIL_DISABLED")
FIELD = re.compile(r'^(name|version|description|requires-python|license) = "(.*)"$', re.M)
CLASSIFIER = re.compile(r'^    "(.* :: .*)",$', re.M)


def fields() -> dict[str, str]:
    """Returns the fields of the project that have one line."""
    return dict(FIELD.findall((HERE / "pyproject.toml").read_text(encoding="utf-8")))


def metadata(label: str = "", note: str = "") -> str:
    """Returns what an index shows of the package, with a label after the version and a note before its page."""
    project = fields()
    classifiers = CLASSIFIER.findall((HERE / "pyproject.toml").read_text(encoding="utf-8"))
    lines = [
        "Metadata-Version: 2.4",
        f"Name: {project['name']}",
        f"Version: {project['version']}{label}",
        f"Summary: {project['description']}",
        *(f"Classifier: {classifier}" for classifier in classifiers),
        f"Requires-Python: {project['requires-python']}",
        f"License-Expression: {project['license']}",
        *(f"License-File: {path.name}" for path in licenses()),
        "Description-Content-Type: text/markdown",
    ]
    return "\n".join(lines) + "\n\n" + note + (HERE / "README.md").read_text(encoding="utf-8")


def licenses() -> list[Path]:
    """Returns the license files, once each."""
    return list({path.name: path for path in reversed(LICENSES) if path.exists()}.values())


def sources() -> list[Path]:
    """Returns the files of the package that are in the repository."""
    return sorted(path for path in (HERE / "osbytes").iterdir() if path.suffix in (".py", ".pyi", ".typed", ".c"))


def compiler_for(processor: str) -> str:
    """Returns the name of the C compiler for a processor."""
    return os.environ.get("CC", "cc") if processor == platform.machine() else f"{processor}-linux-gnu-gcc"


def includes() -> list[Path]:
    """Returns the folders of Python's headers, if they are installed."""
    folders = {Path(sysconfig.get_path(of)) for of in ("include", "platinclude")}
    return sorted(folders) if any((folder / "Python.h").exists() for folder in folders) else []


def has_compiler(compiler: str) -> bool:
    """Returns whether the extension module can be compiled here."""
    return bool(shutil.which(compiler) and includes())


def extension(compiler: str, library: Path, source: Path = HERE / "osbytes" / "_core.c") -> bytes:
    """Returns the extension module, which is linked to a library: of Linux, or else the DLL."""
    header = next(path for path in HEADERS if path.exists())
    if not has_compiler(compiler):
        raise SystemExit(f"osbytes: there is no {compiler} with Python's headers, which compile the extension module")
    is_windows = library.suffix == ".dll"
    with tempfile.TemporaryDirectory() as name:
        module, made, imported = Path(name, "module.o"), Path(name, "module.so"), Path(name, "python3.def")
        words = [*FLAGS, *os.environ.get("CFLAGS", "").split(), *(f"-I{include}" for include in (header.parent, *includes()))]
        words += FOR_WINDOWS if is_windows else ("-fPIC",)
        ran(compiler, *words, "-c", source, "-o", module)
        linked = [*LINKED, library]
        if is_windows:
            # the import library of Python's DLL that has the stable ABI, of the names that the module takes
            taken = re.findall(r"__imp_(_?Py\w+)", ran(compiler.replace("gcc", "nm"), "-u", module))
            imported.write_text("\n".join(["LIBRARY python3.dll", "EXPORTS", *taken]), encoding="utf-8")
            ran(compiler.replace("gcc", "dlltool"), "-d", imported, "-l", imported.with_suffix(".a"))
            # no time, and an address that isn't made of the folder's name
            linked = ["-shared", "-s", "-Wl,--no-insert-timestamp", "-Wl,--image-base,0x190000000", imported.with_suffix(".a"), library]
        ran(compiler, module, *linked, "-o", made)
        return made.read_bytes()


def ran(*words: str | Path) -> str:
    """Runs a command, and returns what it prints. What a compiler warns of is shown."""
    run = subprocess.run([str(word) for word in words], stdout=subprocess.PIPE, stderr=subprocess.PIPE, text=True)
    if run.returncode:
        raise SystemExit(f"osbytes: the extension module isn't compiled: {run.stderr.strip()[-2000:]}")
    print(run.stderr, end="", file=sys.stderr)
    return run.stdout


def make_wheel(folder: Path, library: Path, tag: str, compiler: str, label: str = "", note: str = "") -> Path:
    """Makes a wheel with a library, for the platforms of a tag, which dots divide. Label and note are those of `metadata`."""
    project = fields()
    name = f"osbytes-{project['version']}{label}"
    info = f"{name}.dist-info"
    entries = {f"osbytes/{path.name}": path.read_bytes() for path in sources() if path.suffix != ".c"}
    is_windows = tag.endswith("-win_amd64")
    shared = f"libosbytes.so.{project['version'].rpartition('.')[0]}"
    entries[f"osbytes/{'osbytes.dll' if is_windows else shared}"] = library.read_bytes()
    entries[f"osbytes/{'_core.pyd' if is_windows else module_name()}"] = extension(compiler, library)
    entries.update({f"{info}/licenses/{path.name}": path.read_bytes() for path in licenses()})
    entries[f"{info}/METADATA"] = metadata(label, note).encode()
    before, _, platforms = tag.rpartition("-")
    tags = "".join(f"Tag: {before}-{platform}\n" for platform in platforms.split("."))
    entries[f"{info}/WHEEL"] = f"Wheel-Version: 1.0\nGenerator: osbytes\nRoot-Is-Purelib: false\n{tags}".encode()
    records = "".join(record_of(path, content) for path, content in entries.items())
    entries[f"{info}/RECORD"] = f"{records}{info}/RECORD,,\n".encode()
    file = folder / f"{name}-{tag}.whl"
    with zipfile.ZipFile(file, "w", zipfile.ZIP_DEFLATED) as made:
        for path, content in entries.items():
            made.writestr(zipfile.ZipInfo(path, MADE), content, zipfile.ZIP_DEFLATED)
    return file


def module_name() -> str:
    """Returns the name of the extension module's file."""
    return "_core.abi3.so" if IS_STABLE else f"_core{sysconfig.get_config_var('EXT_SUFFIX')}"


def record_of(path: str, content: bytes) -> str:
    sum = base64.urlsafe_b64encode(hashlib.sha256(content).digest()).decode().rstrip("=")
    return f"{path},sha256={sum},{len(content)}\n"


def make_sdist(folder: Path, libraries: Iterable[tuple[str, Path]]) -> Path:
    """Makes a source distribution with the library of each of these processors."""
    top = f"osbytes-{fields()['version']}"
    tests = sorted(path for form in ("*.py", "cpython-*.tsv") for path in (HERE / "tests").glob(form))
    entries = {path.relative_to(HERE).as_posix(): path.read_bytes() for path in [*sources(), *tests]}
    entries.update({name: (HERE / name).read_bytes() for name in ("pyproject.toml", "build_backend.py", "README.md")})
    entries.update({path.name: path.read_bytes() for path in licenses()})
    entries["osbytes.h"] = next(path for path in HEADERS if path.exists()).read_bytes()
    entries.update({f"lib/{processor}/libosbytes.so": path.read_bytes() for processor, path in libraries})
    entries["PKG-INFO"] = metadata().encode()
    file = folder / f"{top}.tar.gz"
    packed = io.BytesIO()
    with tarfile.open(fileobj=packed, mode="w") as members:
        for path, content in entries.items():
            member = tarfile.TarInfo(f"{top}/{path}")
            member.size = len(content)
            members.addfile(member, io.BytesIO(content))
    file.write_bytes(gzip.compress(packed.getvalue(), 9, mtime=0))
    return file


def library_of(processor: str) -> Path:
    """Returns the shared library for a processor."""
    named = os.environ.get("OSBYTES_LIBRARY")
    path = Path(named) if named else HERE / "lib" / processor / "libosbytes.so"
    if not path.exists():
        raise SystemExit(f"osbytes: no libosbytes.so for {processor}: set OSBYTES_LIBRARY to its path")
    return path


def build_wheel(wheel_directory: str, config_settings: Any = None, metadata_directory: Any = None) -> str:
    """Makes the wheel of this machine, as pip requires it."""
    processor, version = platform.machine(), f"cp{sys.version_info[0]}{sys.version_info[1]}"
    tag = f"{version}-{'abi3' if IS_STABLE else version + sys.abiflags}-linux_{processor}"
    return make_wheel(Path(wheel_directory), library_of(processor), tag, compiler_for(processor)).name


def build_sdist(sdist_directory: str, config_settings: Any = None) -> str:
    """Makes a source distribution with the library of this machine, as build tools want it."""
    processor = platform.machine()
    return make_sdist(Path(sdist_directory), [(processor, library_of(processor))]).name
