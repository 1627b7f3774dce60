"""Speaks by psycopg2 to the server that PGHOST and PGPORT name, and prints what it hears."""

import io

import psycopg2

connection = psycopg2.connect(user="postgres", dbname="postgres")
connection.autocommit = True
with connection.cursor() as cursor:
    cursor.execute("CREATE TEMPORARY TABLE spoken (a text, b int, c timestamptz DEFAULT '2020-01-01 UTC')")
    cursor.copy_expert("COPY spoken (a, b) FROM STDIN", io.StringIO("a\t1\n\\N\t2\nä\t3\n"))
    cursor.executemany("INSERT INTO spoken (a, b) VALUES (%s, %s)", [("x", 4), (None, None)])
    cursor.execute("SELECT * FROM spoken WHERE b > %s ORDER BY b", (1,))
    print(cursor.fetchall(), [column.name for column in cursor.description], cursor.rowcount)
    rows = io.StringIO()
    cursor.copy_expert("COPY spoken TO STDOUT", rows)
    print(repr(rows.getvalue()))
    cursor.execute("LISTEN channel; NOTIFY channel, 'payload'")
    connection.poll()
    print([(note.channel, note.payload) for note in connection.notifies])
    for query in ("SELECT missing", "SELECT 1/0", "COPY spoken FROM STDIN"):
        try:
            cursor.copy_expert(query, io.StringIO("a\tno number\n")) if "COPY" in query else cursor.execute(query)
        except psycopg2.Error as error:
            print(error.pgcode, str(error))
connection.autocommit = False
with connection, connection.cursor("named") as cursor:
    cursor.itersize = 2
    cursor.execute("SELECT generate_series(1, 5), %s", ("text",))
    print(list(cursor))
print(connection.server_version, connection.get_parameter_status("TimeZone"))
connection.close()
