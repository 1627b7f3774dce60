#!/usr/bin/env python3
"""Prints where the fields of each struct of pg_message.h are, as C: what lies between them is no part of its value."""

import argparse
import pathlib
import re

STRUCT = re.compile(r"^typedef struct \{\n(?P<fields>.*?)^\} (?P<name>\w+);$", re.MULTILINE | re.DOTALL)

FIELD = re.compile(r"^    (?P<type>[\w ]+?) ?\*?(?P<name>\w+)(?:\[\w+\])?;$", re.MULTILINE)

SCALARS = ["uint8_t", "uint16_t", "int16_t", "uint32_t", "bool"]


def places(structs, name, at=""):
    """The places of a struct's fields, by the paths of the fields; those of a struct in it are places of their own."""
    for field in FIELD.finditer(structs[name]):
        path = f"{at}{field['name']}"
        if field["type"] in structs:
            yield from places(structs, field["type"], f"{path}.")
        else:
            yield path


def main():
    parser = argparse.ArgumentParser(description=__doc__)
    parser.add_argument("header", type=pathlib.Path, metavar="HEADER")
    header = parser.parse_args().header.read_text()
    structs = {found["name"]: found["fields"] for found in STRUCT.finditer(header)}
    for name in SCALARS:
        print(f"static const struct layout layout_{name} = {{1, {{{{0, sizeof({name})}}}}}};")
    for name in structs:
        found = [f"{{offsetof({name}, {path}), sizeof((({name} *)0)->{path})}}" for path in places(structs, name)]
        print(f"static const struct layout layout_{name} = {{{len(found)}, {{{', '.join(found)}}}}};")


if __name__ == "__main__":
    main()
