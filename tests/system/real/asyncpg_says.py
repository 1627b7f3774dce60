"""Speaks by asyncpg to the server that PGHOST and PGPORT name, and prints what it hears."""

import asyncio

import asyncpg


async def main():
    connection = await asyncpg.connect(user="postgres", database="postgres")
    print(await connection.fetch("SELECT $1::int + n, $2::text FROM generate_series(1, 3) AS n", 7, None))
    print(await connection.fetchrow("SELECT $1::bytea, $2::numeric, $3::timestamptz[]", b"\0\1", 1, []))
    await connection.execute("CREATE TEMPORARY TABLE spoken (a text, b int)")
    print(await connection.copy_records_to_table("spoken", records=[("x", 1), (None, 2)]))
    async with connection.transaction():
        async for row in connection.cursor("SELECT * FROM spoken, generate_series(1, 60)", prefetch=50):
            print(row)
    try:
        await connection.fetch("SELECT 1 / $1::int", 0)
    except asyncpg.PostgresError as error:
        print(error.sqlstate, error)
    await connection.close()


asyncio.run(main())
