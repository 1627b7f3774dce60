"""Speaks by psycopg 3, in its pipeline mode, with prepared statements, COPY and cursors, and prints what it hears."""

import logging
import os

import psycopg

# What it logs of a pipeline that is given up has an address, and comes or not by the time of the answer.
logging.getLogger("psycopg").setLevel(logging.CRITICAL)

with psycopg.connect(host=os.environ["PGHOST"], port=os.environ["PGPORT"], user="postgres", dbname="postgres",
                     autocommit=True) as connection:
    connection.execute("CREATE TEMPORARY TABLE piped (id int, word text)")
    with connection.pipeline() as pipeline, connection.cursor() as cursor:
        cursor.executemany("INSERT INTO piped VALUES (%s, %s) RETURNING id", [(n, f"word {n}") for n in range(20)],
                           returning=True)
        pipeline.sync()
        more = [connection.execute("SELECT word FROM piped WHERE id = %s", (n,), prepare=True) for n in range(10)]
        pipeline.sync()
        print([it.fetchone() for it in more])
    try:
        with connection.pipeline():
            connection.execute("SELECT 1")
            connection.execute("SELECT 1 / %s", (0,))
            connection.execute("SELECT 2")
    except psycopg.Error as error:
        print(error.sqlstate, error)
    with connection.cursor().copy("COPY piped FROM STDIN") as copy:
        for number in range(20, 30):
            copy.write_row((number, "copied"))
    with connection.transaction(), connection.cursor(name="named") as cursor:
        cursor.execute("SELECT * FROM piped WHERE id > %s ORDER BY id", (5,))
        print(cursor.fetchmany(3), len(cursor.fetchall()))
    with connection.transaction():
        connection.execute("DELETE FROM piped")
        with connection.transaction() as inner:
            connection.execute("INSERT INTO piped VALUES (1, 'undone')")
            raise psycopg.Rollback(inner)
    print(connection.execute("SELECT count(*) FROM piped").fetchone())
