"""Times what a driver does most beside pure Python and asyncpg, in turns in one process: bench/run python [ROUNDS]

PGHOST, PGPORT, PGUSER and PGDATABASE name a server, which says the rows once to asyncpg: its own bytes are what all read.
The least processor time of each in so many rounds counts, seven where ROUNDS isn't given.
"""

import asyncio
import gc
import os
import sys
import time

import asyncpg
import by_hand
import pgmsg

ROWS, MANY, CHUNK = 100_000, 400, 1 << 16

QUERY = f"""SELECT 'name ' || n, md5(n::text), 'city of ' || n % 100, repeat('x', n % 20), (n * 7)::text
    FROM generate_series(1, {ROWS}) n"""

INSERT = "INSERT INTO speed VALUES ($1, $2)"

VALUES = [(f"name {at}", "some words of a text") for at in range(MANY)]

ENDS = b"Z\0\0\0\x05I", b"Z\0\0\0\x05T"


class Tap(asyncio.Protocol):
    """Stands before asyncpg's protocol, and keeps what comes of an answer until all is there."""

    def __init__(self, connection):
        self.inner, self.chunks, self.time = connection._protocol, [], None
        connection._transport.set_protocol(self)

    def data_received(self, data):
        self.chunks.append(bytes(data))
        if data.endswith(ENDS):
            self.give(self.chunks)
            self.last, self.chunks = self.chunks, []

    def give(self, chunks):
        """Gives an answer to asyncpg, and keeps how long it takes."""
        gc.collect()
        begun = time.process_time()
        for chunk in chunks:
            self.inner.data_received(chunk)
        self.time = time.process_time() - begun


def pieces(chunks):
    """The bytes of an answer, in pieces as a socket gives them."""
    whole = b"".join(chunks)
    return [whole[at : at + CHUNK] for at in range(0, len(whole), CHUNK)]


def read_by_hand(chunks):
    stream, rows = by_hand.Stream(), []
    for chunk in chunks:
        stream.feed(chunk)
        rows += [body for tag, body in stream if tag == b"D"]
    return rows


def read_runs(kind):
    def read(chunks):
        stream, rows = pgmsg.ClientStream(), []
        for chunk in chunks:
            stream.feed(chunk)
            for found in stream.runs(kind):
                if isinstance(found, list):
                    rows += found
        return rows
    return read


def read_messages(chunks):
    stream, rows = pgmsg.ClientStream(), []
    for chunk in chunks:
        stream.feed(chunk)
        rows += [message for message in stream if isinstance(message, pgmsg.DataRow)]
    return rows


def timed(call, *arguments):
    """How long a call takes, with what it gives."""
    gc.collect()
    begun = time.process_time()
    found = call(*arguments)
    return time.process_time() - begun, found


async def written_by_asyncpg(connection, tap, statement):
    """How long asyncpg takes to write many executions, up to the call that would send them."""
    connection._transport.writelines = connection._transport.write = lambda data: None
    sending = tap.inner.bind_execute_many(statement._state, VALUES, "", None)
    gc.collect()
    begun = time.process_time()
    waited_for = sending.send(None)
    taken = time.process_time() - begun
    del connection._transport.writelines, connection._transport.write
    tap.give(tap.executed)
    assert waited_for.done()
    try:
        sending.send(None)
    except StopIteration:
        pass
    return taken


READERS = {
    "pure Python": read_by_hand,
    "rows of str": read_runs(str),
    "rows of bytes": read_runs(bytes),
    "rows of memoryview": read_runs(memoryview),
    "a DataRow each": read_messages,
}

WRITERS = {
    "pure Python": lambda: b"".join([by_hand.execution(b"s", values) for values in VALUES]),
    "executions": lambda: pgmsg.executions(VALUES, b"s"),
    "executions of one": lambda: b"".join([pgmsg.executions([values], b"s") for values in VALUES]),
    "Bind and Execute": lambda: b"".join([
        pgmsg.write(pgmsg.Bind(values, b"s"), pgmsg.Execute()) for values in VALUES]),
}


def keep(least, name, taken):
    """Keeps the least time."""
    least[name] = min(taken, least.get(name, taken))


async def measure(rounds):
    connection = await asyncpg.connect(statement_cache_size=0)
    await connection.execute("CREATE TEMPORARY TABLE speed (name text, words text)")
    rows, insert = await connection.prepare(QUERY), await connection.prepare(INSERT)
    tap = Tap(connection)
    await insert.executemany(VALUES)
    tap.executed = tap.last
    reading, writing = {}, {}
    for _ in range(rounds):
        due = [tuple(row) for row in await rows.fetch()]
        keep(reading, "asyncpg", tap.time)
        chunks = pieces(tap.last)
        for name, reader in READERS.items():
            taken, found = timed(reader, chunks)
            keep(reading, name, taken)
            assert len(found) == len(due) and (name != "rows of str" or found == due), name
            del found
        keep(writing, "asyncpg", await written_by_asyncpg(connection, tap, insert))
        for name, writer in WRITERS.items():
            keep(writing, name, timed(writer)[0])
    connection.terminate()
    return reading, writing


def show(what, times, count):
    """Prints a table with a line for each time, and its quotients."""
    print(f"\n| {what} | us | over pure Python | over asyncpg |\n|---|---|---|---|")
    for name, taken in times.items():
        over = " | ".join(f"{taken / times[other]:.2f}" for other in ("pure Python", "asyncpg"))
        print(f"| {name} | {taken / count * 1e6:.3f} | {over} |")


def main():
    reading, writing = asyncio.run(measure(int(sys.argv[1]) if sys.argv[1:] else 7))
    print(f"Python {sys.version.split()[0]}, asyncpg {asyncpg.__version__}, {os.cpu_count()} processors")
    show(f"a row of 5 texts, of {ROWS}", reading, ROWS)
    show(f"a Bind and an Execute, of {MANY}", writing, MANY)


if __name__ == "__main__":
    main()
