#!/usr/bin/env python3
"""Writes what lets pkg-config and CMake find an installed library: lughemra.pc, lughemra-config.cmake and its version file.

    scripts/tools/library_files.py PREFIX

writes them below PREFIX/lib, where scripts/tools/build-c-library --prefix has put the library. The packages have them, too.
"""

import pathlib
import sys

sys.dont_write_bytecode = True
from program_list import version  # noqa: E402

ROOT = pathlib.Path(__file__).resolve().parents[2]

PKG_CONFIG = """\
prefix={prefix}
includedir=${{prefix}}/include
libdir=${{prefix}}/{libraries}

Name: lughemra
Description: BSON 1.1 documents and messages of OP_MSG, checked and shown over bytes of the caller's
Version: {version}
Cflags: -I${{includedir}}
Libs: -L${{libdir}} -llughemra
"""

# The folder of the file is told by its real path: CMake may have found it by a link, as /lib is one of Debian's to /usr/lib.
CONFIG = """\
# Makes the imported target lughemra::lughemra.
get_filename_component(_lughemra_libraries "${{CMAKE_CURRENT_LIST_DIR}}/../.." REALPATH)
get_filename_component(_lughemra_prefix "${{_lughemra_libraries}}/{up}" REALPATH)
if(NOT TARGET lughemra::lughemra)
  add_library(lughemra::lughemra SHARED IMPORTED)
  set_target_properties(lughemra::lughemra PROPERTIES
    IMPORTED_LOCATION "${{_lughemra_libraries}}/{shared}"
    IMPORTED_SONAME "{soname}"
    INTERFACE_INCLUDE_DIRECTORIES "${{_lughemra_prefix}}/include")
endif()
unset(_lughemra_libraries)
unset(_lughemra_prefix)
"""

CONFIG_VERSION = """\
# Before 1.0 each version may lay out structs anew, so a program that asks for one gets that one.
set(PACKAGE_VERSION "{version}")
string(LENGTH "${{PACKAGE_FIND_VERSION}}." _lughemra_length)
string(SUBSTRING "{version}." 0 ${{_lughemra_length}} _lughemra_front)
if(_lughemra_front STREQUAL "${{PACKAGE_FIND_VERSION}}.")
  set(PACKAGE_VERSION_COMPATIBLE TRUE)
endif()
if(PACKAGE_FIND_VERSION STREQUAL PACKAGE_VERSION)
  set(PACKAGE_VERSION_EXACT TRUE)
endif()
if(CMAKE_SIZEOF_VOID_P AND NOT CMAKE_SIZEOF_VOID_P EQUAL 8)
  set(PACKAGE_VERSION_UNSUITABLE TRUE)
endif()
unset(_lughemra_length)
unset(_lughemra_front)
"""


def names_of_shared(told):
    """Returns the names of the shared object of a version: its file's, by which programs find it, and by which they are linked."""
    return f"liblughemra.so.{told}", f"liblughemra.so.{told.split('.')[0]}", "liblughemra.so"


def library_files(told, prefix, libraries):
    """Returns the text of each file by its path below the prefix, for a library of this version in the folder `libraries` of it.
    pkg-config tells programs this prefix."""
    shared, soname, _ = names_of_shared(told)
    up = "/".join(".." for _ in libraries.split("/"))
    return {
        f"{libraries}/pkgconfig/lughemra.pc": PKG_CONFIG.format(prefix=prefix, libraries=libraries, version=told),
        f"{libraries}/cmake/lughemra/lughemra-config.cmake": CONFIG.format(up=up, shared=shared, soname=soname),
        f"{libraries}/cmake/lughemra/lughemra-config-version.cmake": CONFIG_VERSION.format(version=told),
    }


def main():
    if len(sys.argv) != 2:
        sys.exit(__doc__.strip())
    prefix = pathlib.Path(sys.argv[1]).resolve()
    for path, text in library_files(version(ROOT), prefix, "lib").items():
        (prefix / path).parent.mkdir(parents=True, exist_ok=True)
        (prefix / path).write_text(text, encoding="utf-8")


if __name__ == "__main__":
    main()
