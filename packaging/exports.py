"""Lays out the crate of which the library for C is built: each of its functions calls that of crates/pg_c of its name, and
promises what that one does.

A crate that exports functions to C can't be called by others, nor proved once for all that is built of it. So crates/pg_c
is a library, proved and tried by wrong bodies as the others, and what it marks as exported is exported by this crate.
"""

import re
import shutil
import sys

import crates

NAME = "pg_exports"

MARK = "#[unsafe(no_mangle)]"

# A function that is exported, up to its body: what it takes and returns, and its clauses. Other attributes, which say how it
# is proved, are left out.
EXPORT = re.compile(
    r'^#\[unsafe\(no_mangle\)\]\n(?:#\[.*\]\n)*(?P<head>pub extern "C" fn (?P<name>\w+)\((?P<params>[^)]*)\).*(?:\n    .*)*?)\s\{$', re.MULTILINE)

GHOST_USE = re.compile(r"^ghost use [^;]*;$", re.MULTILINE)

STRUCT = re.compile(r"^pub (?:struct|type) (Pgmsg\w+)", re.MULTILINE)


def laid_out():
    """The crate of the exports, whose files are written where they are not as they should be."""
    called = crates.known()["pg_c"]
    folder = called.folder / "out/exports"
    files = files_of(called)
    src = folder / "src"
    if not src.exists() or {file.name: file.read_text() for file in src.iterdir()} != files:
        shutil.rmtree(src, ignore_errors=True)
        src.mkdir(parents=True)
        for name, text in files.items():
            (src / name).write_text(text)
    return crates.Crate(NAME, True, [*called.names, called.name], folder)


def files_of(called):
    """The sources of the crate, by name: one for each module that has exports."""
    src = called.folder / "src"
    texts = {path_of(file.relative_to(src)): file.read_text() for file in sorted(src.rglob("*.rt"))}
    places = {struct: path for path, text in texts.items() for struct in STRUCT.findall(text)}
    modules = {path.replace("::", "_"): module(path, text, places) for path, text in texts.items() if MARK in text}
    root = "#![tactic(auto)]\n\n" + "".join(f"mod {name};\n" for name in modules)
    return {"lib.rt": root, **{f"{name}.rt": text for name, text in modules.items()}}


def path_of(file):
    """The path of a source's module."""
    return "::".join(part for part in file.with_suffix("").parts if part != "mod")


def module(path, text, places):
    """The exports of a module."""
    exports = list(EXPORT.finditer(text))
    if len(exports) != text.count(MARK):
        sys.exit(f"packaging/exports.py: {path} marks a function in a form that isn't known")
    structs = sorted({struct for export in exports for struct in re.findall(r"\bPgmsg\w+", export["head"])})
    uses = [f"use pg_c::{places[struct]}::{struct};" for struct in structs]
    if any("Global" in export["params"] for export in exports):
        uses.append("use std::alloc::Global;")
    return "\n".join([*GHOST_USE.findall(text), "", *uses, *(calling(path, export) for export in exports)])


def calling(path, export):
    """An export, whose body is a call."""
    arguments = ", ".join(re.findall(r"(\w+): ", export["params"]))
    return f"\n{MARK}\n{export['head']}\n{{\n    pg_c::{path}::{export['name']}({arguments})\n}}\n"
