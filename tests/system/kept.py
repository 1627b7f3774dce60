#!/usr/bin/env python3
"""Exports recordings, imports what comes of them, and compares the bytes; and checks the order of their messages.

    kept.py PG_TAPE KNOWN SCRATCH ORDER FILE..

The export of a recording that the second reader refuses has to name the same offset; of any other, also of one that ends
within a record, the import has to make the same bytes. Where ORDER is `ordered` no session may break the order of the protocol;
where it is `any`, some may. KNOWN has a line for each content that was tried before, which isn't tried again: its digest,
whether it is whole, cut or damaged, and its numbers of sessions, of messages that were followed, of sessions that break the
order, and of those that can't be followed to their end. New ones are added. Prints how many there were of each kind, and the
sums of these numbers.
"""

import collections
import concurrent.futures
import filecmp
import hashlib
import pathlib
import re
import subprocess
import sys

import asked

sys.path.insert(0, str(pathlib.Path(__file__).resolve().parents[2] / "programs/examples"))
import read_recording  # noqa: E402


# What the last line of a check counts.
NUMBERS = ("sessions", "messages followed", "sessions that break the order", "that can't be followed to their end")
NO_NUMBERS = [0] * len(NUMBERS)


def state_of(path):
    """Whether a recording is whole, cut or damaged to the second reader, and the offset that it names."""
    last = ()
    try:
        with open(path, "rb") as file:
            read_recording.head_of(file)
            for last in read_recording.records(file):
                pass
    except SystemExit as fault:
        found = re.search(r"offset (\d+)", str(fault))
        return "damaged", found and found[1]
    return "cut" if last is None else "whole", None


def is_refused(run, path, offset):
    """Whether an export ended by the words about a damaged file, with an offset where there is one."""
    named = re.search(r"offset (\d+)", run.stderr)
    return run.returncode == 10 and str(path) in run.stderr and (named and named[1]) == offset


def check(pg_tape, path, is_ordered):
    """What is wrong with the order of a recording, if anything, and its numbers."""
    run = subprocess.run([pg_tape, "check", path], capture_output=True, text=True)
    lines = run.stdout.splitlines() or [""]
    numbers = [int(number) for number in re.findall(r"\d+", lines[-1])]
    if len(numbers) != len(NUMBERS) or run.returncode != (14 if numbers[2] else 0):
        return f"the check ends with status {run.returncode}: {run.stdout}{run.stderr}", NO_NUMBERS
    return ("\n".join(lines[:-1]) if is_ordered and numbers[2] else None), numbers


def try_it(pg_tape, path, scratch, is_ordered):
    """What is wrong with a recording, if anything, its kind, and the numbers of its check."""
    fault, state = try_bytes(pg_tape, path, scratch)
    if fault or state == "damaged":
        return fault, state, NO_NUMBERS
    fault, numbers = check(pg_tape, path, is_ordered)
    return fault, state, numbers


def try_bytes(pg_tape, path, scratch):
    """What is wrong with an export or its import, if anything, and the kind of a recording."""
    state, offset = state_of(path)
    lines, back = scratch / f"{path.name}.jsonl", scratch / f"{path.name}.back"
    try:
        run = subprocess.run([pg_tape, "export", path, "-o", lines], capture_output=True, text=True)
        if state == "damaged":
            return None if is_refused(run, path, offset) else f"status {run.returncode}: {run.stderr}", state
        if run.returncode != 0:
            return f"the export ends with status {run.returncode}: {run.stderr}", state
        run = subprocess.run([pg_tape, "import", lines, "-o", back], capture_output=True, text=True)
        if run.returncode != 0:
            return f"the import ends with status {run.returncode}: {run.stderr}", state
        return None if filecmp.cmp(path, back, shallow=False) else "the import has other bytes", state
    finally:
        lines.unlink(missing_ok=True)
        back.unlink(missing_ok=True)


def digest_of(path):
    """The digest of a recording, or None of a file that begins as none."""
    with open(path, "rb") as file:
        digest = hashlib.file_digest(file, "sha256").hexdigest()
        file.seek(0)
        return digest if file.read(8) == b"PGMSGREC" else None


def main():
    pg_tape, known, scratch, order, files = asked.words(__doc__, "PG_TAPE", "KNOWN", "SCRATCH", "ORDER", "FILE..")
    known = pathlib.Path(known)
    tried = {line.split()[0] for line in known.read_text().splitlines()} if known.exists() else set()
    new = {digest: file for file in map(pathlib.Path, files) if (digest := digest_of(file)) not in tried | {None}}
    counts, sums, faults = collections.Counter(), NO_NUMBERS, 0
    with concurrent.futures.ThreadPoolExecutor(2) as pool:
        runs = {
            digest: pool.submit(try_it, pg_tape, file, pathlib.Path(scratch), order == "ordered")
            for digest, file in new.items()
        }
    for digest, run in runs.items():
        fault, state, numbers = run.result()
        if fault:
            print(f"{new[digest]}: {fault}", file=sys.stderr)
            faults += 1
            continue
        counts[state] += 1
        sums = [sum(pair) for pair in zip(sums, numbers)]
        with known.open("a") as file:
            file.write(f"{digest} {state} {' '.join(map(str, numbers))}\n")
    print(f"{counts['whole']} whole, {counts['cut']} cut, {counts['damaged']} damaged; ", end="")
    print(", ".join(f"{number} {name}" for number, name in zip(sums, NUMBERS)))
    sys.exit(faults > 0)


if __name__ == "__main__":
    main()
