#!/usr/bin/env python3
"""Changes each byte of a recording, and cuts the recording at each length.

    record_bytes.py PG_RECORD RECORDING SCRATCH    writes the files to SCRATCH, one after the other

Both readers must refuse a changed byte at the offset of its record, and read the whole records of a cut file. pg_record reads
a tenth of these files, since the tests of its reader try each bit and length. Prints how many files of each kind there
were.
"""

import io
import pathlib
import re
import subprocess
import sys

import asked

sys.path.insert(0, str(pathlib.Path(__file__).resolve().parents[2] / "programs/examples"))
import read_recording  # noqa: E402

HEAD = 24


def places_of(content):
    """The offsets of the records of a recording without a fault, and of its end."""
    file = io.BytesIO(content)
    read_recording.head_of(file)
    return [record[0] for record in read_recording.records(file)] + [len(content)]


def second_reader(content):
    """The offset of the fault that it finds, or None, and how many records it reads before."""
    file, count = io.BytesIO(content), 0
    try:
        read_recording.head_of(file)
        for record in read_recording.records(file):
            count += record is not None
    except SystemExit as fault:
        found = re.search(r"offset (\d+)", str(fault))
        return int(found[1]) if found else 0, count
    return None, count


def first_reader(program, path):
    """The offset that pg_record names in its refusal, or None, and the one up to which it read a cut file."""
    run = subprocess.run([program, "--print", path], capture_output=True, text=True)
    named = re.search(r"offset (\d+)", run.stderr)
    if run.returncode not in (0, 10) or path not in (run.stderr or path):
        sys.exit(f"status {run.returncode}: {run.stderr}")
    return (int(named[1]) if named else 0) if run.returncode else None, int(named[1]) if named else None


def main():
    program, path, scratch = asked.words(__doc__, "PG_RECORD", "RECORDING", "SCRATCH")
    whole = pathlib.Path(path).read_bytes()
    places = places_of(whole)
    for at in range(len(whole)):
        changed = whole[:at] + bytes([whole[at] ^ 1 << at % 8]) + whole[at + 1:]
        pathlib.Path(scratch).write_bytes(changed)
        place = max((start for start in places if start <= at), default=0)
        found = {second_reader(changed)[0]} | {first_reader(program, scratch)[0] for _ in range(at % 10 == 0)}
        if found != {place}:
            sys.exit(f"a change at {at}, of the record at {place}, is found at {found}")
    for length in range(HEAD, len(whole)):
        pathlib.Path(scratch).write_bytes(whole[:length])
        last = max(start for start in places if start <= length)
        read = [second_reader(whole[:length]) == (None, places.index(last))]
        if length % 30 == 0:
            read.append(first_reader(program, scratch) == (None, last if last < length else None))
        if not all(read):
            sys.exit(f"a file of {length} bytes isn't read to {last}")
    print(f"{len(whole)} bytes changed, {len(range(HEAD, len(whole)))} lengths")


if __name__ == "__main__":
    main()
