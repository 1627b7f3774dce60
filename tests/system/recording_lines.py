"""Checks exported lines against the schema of a recording, up to 30 of each kind and shape; or changes them one way after
the other, and checks that pg_tape names the fault with its line; or runs it on a terminal, and checks that it shows a bar;
or looks for secrets in files, in clear, in hexadecimal digits and in Base64:

    recording_lines.py schema SCHEMA LINES
    recording_lines.py faults PG_TAPE LINES TAPE
    recording_lines.py bar PG_TAPE COMMAND FILE OUTPUT
    recording_lines.py secrets FILES SECRET..

TAPE and OUTPUT are files that may be written, and FILES are names with `:` between them. Prints how many lines and kinds, or
how many changes, it checked, or what the bar showed last, or each secret that it finds, by how it is written. Ends with 3 where there is no jsonschema.
"""

import base64
import collections
import fcntl
import json
import os
import pathlib
import pty
import random
import re
import struct
import subprocess
import sys
import termios

MOST = 30

# What stands behind a bar: what is done and all there is, the rate, and the time that is left.
BAR = r"\[[^]]*\] ([\d.]+ ?\wiB/[\d.]+ ?\wiB [\d.]+ ?\w*B/s \w+)"

CHANGES = {
    "a field is missing": lambda line: {name: line[name] for name in list(line)[:-1]},
    "a field more": lambda line: {**line, "more": 1},
    "another kind": lambda line: {**line, "kind": "Nonsense"},
    "a number as text": lambda line: {**line, "connection": "one"},
    "no object": lambda line: [line],
    "another side": lambda line: {**line, "side": "nobody"},
}


def check_schema(schema, lines):
    """Holds lines against a schema."""
    try:
        import jsonschema
    except ImportError:
        sys.exit(3)
    with open(schema, encoding="utf-8") as file:
        schema = json.load(file)
    jsonschema.Draft202012Validator.check_schema(schema)
    validator = jsonschema.Draft202012Validator(schema)
    seen = collections.Counter()
    with open(lines, encoding="utf-8") as file:
        for text in file:
            line = json.loads(text)
            kind = line.get("side"), line["kind"]
            seen[kind] += 1
            if seen[kind] <= MOST and not validator.is_valid(line):
                sys.exit(f"the schema has no such line: {text}")
    for wrong in ({}, {"kind": "Sync"}, {"kind": "Recording", "version": 1, "begun": 0, "more": 1}):
        if validator.is_valid(wrong):
            sys.exit(f"the schema takes {wrong}")
    print(f"{sum(min(count, MOST) for count in seen.values())} lines of {len(seen)} kinds")


def fault(program, lines, source, tape):
    """What the program says of some lines, or nothing where it takes them."""
    source.write_text("".join(lines), encoding="utf-8")
    run = subprocess.run([program, "import", source, "-o", tape], capture_output=True, text=True, check=False)
    if run.returncode not in (0, 10):
        sys.exit(f"status {run.returncode}: {run.stderr}")
    return run.stderr if run.returncode else None


def check_faults(program, lines, tape):
    """Has a program import changed lines."""
    lines = pathlib.Path(lines).read_text(encoding="utf-8").splitlines(keepends=True)
    source, count, generator = pathlib.Path(f"{tape}.jsonl"), 0, random.Random(3)
    for name, change in CHANGES.items():
        for at in generator.sample(range(1, len(lines)), 8):
            changed = json.dumps(change(json.loads(lines[at]))) + "\n"
            said = fault(program, [*lines[:at], changed, *lines[at + 1 :]], source, tape)
            if said is None or f"line {at + 1}" not in said:
                sys.exit(f"{name} in line {at + 1}: {said}")
            count += 1
    for at in generator.sample(range(1, len(lines) - 1), 8):
        text = lines[at][: generator.randrange(1, len(lines[at]) - 1)]
        said = fault(program, [*lines[:at], text], source, tape)
        if said is None or f"line {at + 1}" not in said:
            sys.exit(f"cut in line {at + 1}: {said}")
        count += 1
    if pathlib.Path(tape).exists():
        sys.exit("a recording is written of broken lines")
    print(f"{count} changes")


def check_bar(program, command, file, output):
    """Has a program read a long file, with a terminal for standard error and without one."""
    arguments = [program, command, file, "-o", output]
    if said := subprocess.run(arguments, capture_output=True, check=True).stderr:
        sys.exit(f"without a terminal: {said}")
    ours, theirs = pty.openpty()
    fcntl.ioctl(theirs, termios.TIOCSWINSZ, struct.pack("4H", 24, 100, 0, 0))
    run = subprocess.Popen(arguments, stderr=theirs, env={**os.environ, "TERM": "xterm"})
    os.close(theirs)
    shown = b""
    try:
        while more := os.read(ours, 1 << 16):
            shown += more
    except OSError:
        pass  # The terminal is closed by all that had it.
    bars = re.findall(f"{command} {BAR}", shown.decode(errors="replace"))
    if run.wait() or not bars:
        sys.exit(f"status {run.returncode}, no bar: {shown[-200:]}")
    print(bars[-1])


def written(secret):
    """How a secret may be written. In Base64 its first digits, and the last ones, depend on what is around it."""
    raw = secret.encode()
    yield "clear", raw
    yield "hex", raw.hex().encode()
    yield "hex", raw.hex().upper().encode()
    for before in range(3):
        digits = base64.b64encode(bytes(before) + raw + bytes(-(before + len(raw)) % 3))
        yield "base64", digits[-(-before * 4 // 3) : (before + len(raw)) * 4 // 3]


def find_secrets(files, *secrets):
    """Looks for secrets in files."""
    texts = [pathlib.Path(file).read_bytes() for file in files.split(":")]
    for secret in secrets:
        ways = sorted({way for way, digits in written(secret) for text in texts if digits in text})
        if ways:
            print(secret, *ways)


if __name__ == "__main__":
    {"schema": check_schema, "faults": check_faults, "bar": check_bar, "secrets": find_secrets}[sys.argv[1]](*sys.argv[2:])
