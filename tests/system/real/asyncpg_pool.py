"""Thirty transactions of asyncpg over a pool of four connections, in another order each time."""

import asyncio
import os
import random

import asyncpg


async def work(pool, number):
    async with pool.acquire() as connection, connection.transaction():
        row = await connection.fetchrow("SELECT $1::int + 1 AS next, repeat('x', $1) AS word", number)
        async with connection.transaction():
            rows = [it["n"] async for it in connection.cursor("SELECT generate_series(1, $1::int) AS n", number, prefetch=5)]
        return number, row["next"], len(row["word"]), sum(rows)


async def main():
    pool = await asyncpg.create_pool(user="postgres", database="postgres", host=os.environ["PGHOST"],
                                     port=int(os.environ["PGPORT"]), min_size=4, max_size=4)
    numbers = list(range(30))
    random.shuffle(numbers)
    print(sorted(await asyncio.gather(*(work(pool, number) for number in numbers))))
    await pool.close()


asyncio.run(main())
