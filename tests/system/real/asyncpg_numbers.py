"""Asks for the next number of a sequence at two connections, in the order in which their names are given, and prints which
number each got: asyncpg_numbers.py NAME NAME"""

import asyncio
import sys

import asyncpg


async def main(names):
    connections = {name: await asyncpg.connect(user="postgres", database="postgres") for name in names}
    numbers = {name: await it.fetchval("SELECT nextval('numbers')") for name, it in connections.items()}
    print(sorted(numbers.items()))
    for connection in connections.values():
        await connection.close()


asyncio.run(main(sys.argv[1:]))
