"""Clients of psycopg on two connections, which find the server by the environment alone. Ends with 3 where an answer is wrong."""

import sys

import psycopg


def main() -> None:
    with psycopg.connect() as first, psycopg.connect() as second:
        for turn in range(8):
            for connection in (first, second):
                row = connection.execute("SELECT %s::int + 1, %s::text", (turn, "some")).fetchone()
                if row != (turn + 1, "some"):
                    sys.exit(3)


main()
