"""Strings of operating systems, of any platform on any platform.

A name on Unix is any bytes. One on Windows is a sequence of 16-bit code units, some of which can be lone surrogates. One
in wasm is UTF-8. The calls take such strings as `bytes` (of Windows as WTF-8, which is UTF-8 that can have lone
surrogates) or as the `str` that Python makes of them: of Unix and wasm by `surrogateescape`, as `os.fsdecode` does, of
Windows by `surrogatepass`. What is made of a `str` is a `str`, and what is made of `bytes` is `bytes`.

>>> import osbytes
>>> osbytes.escape_line(b"caf\\xe9\\n")
'caf\\\\xE9\\\\u000A'
>>> osbytes.unescape_line('caf\\\\xE9\\\\u000A')
b'caf\\xe9\\n'
>>> osbytes.check(b"ab\\xff", osbytes.WASM)
Traceback (most recent call last):
...
osbytes.FaultError: invalid utf-8 sequence of 1 bytes from index 2

The work is done by libosbytes, whose results are proved. A value that a call can't work with raises an `OsBytesError`,
which is a `ValueError`; a wrong type raises `TypeError`, and an allocation failure `MemoryError`.
"""

from __future__ import annotations

try:
    from . import _core
except ImportError as why:
    raise ImportError(
        f"osbytes can't be loaded: {why}. An installed wheel has its extension module and libosbytes: "
        "`tools/release/release --only python FOLDER` makes one in a checkout"
    ) from None

from . import _calls, _errors, _globs, _ignore, _lines, _options, _path_building, _path_classes, _paths, _strings
from ._calls import *
from ._errors import *
from ._globs import *
from ._ignore import *
from ._lines import *
from ._options import *
from ._path_building import *
from ._path_classes import *
from ._paths import *
from ._strings import *

__version__ = "0.3.0"

__all__ = ["__version__"]
__all__ += _calls.__all__
__all__ += _errors.__all__
__all__ += _globs.__all__
__all__ += _ignore.__all__
__all__ += _lines.__all__
__all__ += _options.__all__
__all__ += _path_building.__all__
__all__ += _path_classes.__all__
__all__ += _paths.__all__
__all__ += _strings.__all__
