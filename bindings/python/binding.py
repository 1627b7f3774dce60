"""Declares all that pg_message.h declares, by cffi, and says what the extension module is built of.

pkg-config finds the library: PKG_CONFIG_PATH names PREFIX/lib/pkgconfig of `packaging/library --install PREFIX`.
"""

import os
import pathlib
import shlex
import subprocess
import tempfile

from cffi import FFI

# What the header includes, whose types cffi knows.
KNOWN = ("stdbool.h", "stddef.h", "stdint.h")


def folder_of(part):
    """A folder of the library that is installed."""
    asked = ["pkg-config", f"--variable={part}", "pg_message"]
    return pathlib.Path(subprocess.run(asked, check=True, stdout=subprocess.PIPE, text=True).stdout.strip())


def preprocessed(header):
    """The declarations of a header."""
    with tempfile.TemporaryDirectory() as empty:
        for name in KNOWN:
            pathlib.Path(empty, name).touch()
        words = [*shlex.split(os.environ.get("CC", "cc")), "-E", "-P", "-nostdinc", f"-I{empty}", str(header)]
        return subprocess.run(words, check=True, stdout=subprocess.PIPE, text=True).stdout


include, lib = folder_of("includedir"), folder_of("libdir")

builder = FFI()
builder.cdef(preprocessed(include / "pg_message.h"))
builder.set_source(
    "pgmsg._binding", '#include "pg_message.h"', sources=["fast.c"], include_dirs=[str(include)],
    extra_objects=[str(lib / "libpg_message.a")])
