"""Reads all data of CopyData in a recording as messages of replication, and writes each again:

    replicated.py FILE

Fails where one is unknown, is written as other bytes, or comes from the wrong side, and where a kind never came. Prints how
many messages of each kind there are, and how many bytes.
"""

import collections
import pathlib
import sys

sys.path.append(str(pathlib.Path(__file__).resolve().parents[2] / "programs/examples"))

import read_recording
from pgmsg import ClientStream, CopyData, ServerStream, replication

# Which side sends each kind, by the documentation's "Streaming Replication Protocol".
OF_CLIENT = {replication.StandbyStatusUpdate, replication.HotStandbyFeedback}


def sides(path):
    """The side, F or B, of each direction, and its bytes."""
    joined = collections.defaultdict(bytearray)
    with open(path, "rb") as file:
        read_recording.head_of(file)
        for record in read_recording.records(file):
            if record and record[1] in "FB":
                _, kind, connection, _, content = record
                joined[connection, kind] += content
    return [(kind, data) for (_, kind), data in joined.items()]


def data_of(side, stream_bytes):
    """The data of each CopyData of a side."""
    stream = ServerStream() if side == "F" else ClientStream()
    stream.feed(bytes(stream_bytes))
    return [message.data for message in stream if isinstance(message, CopyData)]


def main():
    counts, total = collections.Counter(), 0
    for side, stream_bytes in sides(sys.argv[1]):
        for data in data_of(side, stream_bytes):
            message = replication.read(data)
            kind = type(message)
            if message.write() != b"d" + (len(data) + 4).to_bytes(4, "big") + data:
                sys.exit(f"{kind.__name__} is written as other bytes: {data[:40]!r}")
            if (kind in OF_CLIENT) != (side == "F"):
                sys.exit(f"{kind.__name__} from side {side}")
            counts[kind] += 1
            total += len(data)
    missing = [kind.__name__ for kind in replication.OF_ALL if not counts[kind]]
    if missing:
        sys.exit(f"no {', '.join(missing)}")
    words = ", ".join(f"{counts[kind]} {kind.__name__}" for kind in replication.OF_ALL)
    print(f"{counts.total()} messages of {total} bytes are read, and written as they came: {words}")


if __name__ == "__main__":
    main()
