"""The files by which pkg-config and CMake find the C library, for archives that can be moved.

usage: python3 found_by.py FOLDER    writes those for Linux below FOLDER, where lib/ is
"""

from __future__ import annotations

import sys
from pathlib import Path

from handed_on import version

CONFIG = """\
# find_package(osbytes) gives the targets osbytes::osbytes, the shared library, and osbytes::static.
if(TARGET osbytes::osbytes)
  return()
endif()
get_filename_component(_osbytes "${CMAKE_CURRENT_LIST_DIR}/../../.." ABSOLUTE)
add_library(osbytes::osbytes SHARED IMPORTED)
add_library(osbytes::static STATIC IMPORTED)
foreach(_target osbytes::osbytes osbytes::static)
  set_property(TARGET ${_target} PROPERTY INTERFACE_INCLUDE_DIRECTORIES "${_osbytes}/include")
endforeach()
set_property(TARGET osbytes::static PROPERTY IMPORTED_LOCATION "${_osbytes}/lib/libosbytes.a")
"""
SHARED = {
    "Linux": """\
set_target_properties(osbytes::osbytes PROPERTIES
  IMPORTED_LOCATION "${_osbytes}/lib/@SONAME@" IMPORTED_SONAME @SONAME@)
""",
    "Windows": """\
set_property(TARGET osbytes::osbytes PROPERTY IMPORTED_LOCATION "${_osbytes}/bin/osbytes.dll")
if(MSVC)
  set_property(TARGET osbytes::osbytes PROPERTY IMPORTED_IMPLIB "${_osbytes}/lib/osbytes.lib")
else()
  set_property(TARGET osbytes::osbytes PROPERTY IMPORTED_IMPLIB "${_osbytes}/lib/libosbytes.dll.a")
endif()
""",
}
# Before 1.0 the second number changes with the interface, as in the shared library's name.
VERSION = """\
set(PACKAGE_VERSION @WHOLE@)
if(PACKAGE_FIND_VERSION VERSION_EQUAL PACKAGE_VERSION)
  set(PACKAGE_VERSION_EXACT TRUE)
endif()
if(NOT PACKAGE_FIND_VERSION VERSION_LESS @FIRST@ AND NOT PACKAGE_FIND_VERSION VERSION_GREATER PACKAGE_VERSION)
  set(PACKAGE_VERSION_COMPATIBLE TRUE)
endif()
if(NOT "${CMAKE_SIZEOF_VOID_P}" MATCHES "^8?$")
  set(PACKAGE_VERSION_UNSUITABLE TRUE)
endif()
"""
PKG_CONFIG = """\
prefix=${pcfiledir}/../..
Name: osbytes
Description: strings of operating systems, of any platform on any platform
Version: @WHOLE@
Cflags: -I${prefix}/include
Libs: -L${prefix}/lib -losbytes
"""


def found_by(system: str) -> dict[str, str]:
    """Returns the files for a library on Linux or Windows, by paths in its archive."""
    whole = version()
    interface = whole.rpartition(".")[0]
    texts = {
        "pkgconfig/osbytes.pc": PKG_CONFIG,
        "cmake/osbytes/osbytes-config.cmake": CONFIG + SHARED[system] + "unset(_osbytes)\nunset(_target)\n",
        "cmake/osbytes/osbytes-config-version.cmake": VERSION,
    }
    words = {"SONAME": f"libosbytes.so.{interface}", "WHOLE": whole, "FIRST": f"{interface}.0"}
    for word, value in words.items():
        texts = {path: text.replace(f"@{word}@", value) for path, text in texts.items()}
    return {f"lib/{path}": text for path, text in texts.items()}


if __name__ == "__main__":
    for path, text in found_by("Linux").items():
        file = Path(sys.argv[1], path)
        file.parent.mkdir(parents=True, exist_ok=True)
        file.write_text(text, encoding="utf-8")
