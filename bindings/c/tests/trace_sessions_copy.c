/* Sessions with a COPY, and with large values. */
#include "trace_sessions.h"

#include <stdlib.h>

enum { BYTEA = 17, LARGE = 1000000 };

static void put_rows(PGconn *connection, const char *query, const char *reason)
{
    static const char rows[] = "1\ttext\n2\t\\N\n3\tgr\xc3\xbc\xc3\x9f\\n\n";
    run(connection, query);
    PQputCopyData(connection, rows, sizeof rows - 1);
    PQputCopyData(connection, "4\t", 2);
    PQputCopyData(connection, "rest\n", 5);
    PQputCopyEnd(connection, reason);
    take_results(connection);
}

void run_copy_in(PGconn *connection)
{
    static const char binary[] = "PGCOPY\n\377\r\n\0\0\0\0\0\0\0\0\0\0\1\0\0\0\4\0\0\0\7\377\377";
    run(connection, "CREATE TEMP TABLE rows (id int, name text)");
    put_rows(connection, "COPY rows FROM STDIN", NULL);
    put_rows(connection, "COPY rows FROM STDIN", "the \"reason\"\tof it");
    put_rows(connection, "COPY rows (name, id) FROM STDIN", NULL);
    run(connection, "COPY rows (id) FROM STDIN (FORMAT binary)");
    PQputCopyData(connection, binary, sizeof binary - 1);
    PQputCopyEnd(connection, NULL);
    take_results(connection);
}

static void get_rows(PGconn *connection, const char *query)
{
    char *row;
    run(connection, query);
    while (PQgetCopyData(connection, &row, 0) > 0)
        PQfreemem(row);
    take_results(connection);
}

/* Makes a function that raises a notice and notifies. */
static const char say[] = "LISTEN a; CREATE FUNCTION pg_temp.say() RETURNS int AS "
                          "$$BEGIN RAISE NOTICE 'said'; PERFORM pg_notify('a', 'b'); RETURN 1; END$$ LANGUAGE plpgsql";

void run_copy_out(PGconn *connection)
{
    ignore_notices(connection);
    run(connection, say);
    get_rows(connection, "COPY (SELECT pg_temp.say() FROM generate_series(1, 3)) TO STDOUT");
    get_rows(connection, "COPY (SELECT i, 'row ' || i, NULL FROM generate_series(1, 300) i) TO STDOUT");
    get_rows(connection, "COPY (SELECT i, 'row ' || i, NULL FROM generate_series(1, 30) i) TO STDOUT (FORMAT binary)");
    get_rows(connection, "COPY (SELECT E'\\u00e9\\t\\n\\\\') TO STDOUT (FORMAT csv, HEADER)");
    get_rows(connection, "COPY (SELECT 10 / (3 - i) FROM generate_series(1, 5) i) TO STDOUT");
    get_rows(connection, "COPY no_such_table TO STDOUT");
}

/* Leaves the rows of a COPY to libpq, which drops them. */
void run_copy_dropped(PGconn *connection)
{
    ignore_notices(connection);
    run(connection, "COPY (SELECT generate_series(1, 5)) TO STDOUT");
    run(connection, "SELECT 1");
    run(connection, "CREATE TEMP TABLE rows (id int)");
    run(connection, say);
    run(connection, "COPY (SELECT pg_temp.say() FROM generate_series(1, 3)) TO STDOUT");
    run(connection, "SELECT 2");
    run(connection, "COPY rows FROM STDIN");
    run(connection, "SELECT 3");
}

void run_large(PGconn *connection)
{
    char *text = malloc(LARGE + 1);
    if (text == NULL)
        stop("out of memory");
    for (int i = 0; i < LARGE; i++)
        text[i] = (char)(i % 251 + 1);
    const int length = LARGE, format = 1;
    const Oid type = BYTEA;
    const char *value = text;
    PQclear(PQexecParams(connection, "SELECT $1, length($1)", 1, &type, &value, &length, &format, 1));
    PQclear(PQexecParams(connection, "SELECT $1", 1, &type, &value, &length, &format, 0));
    run(connection, "SELECT repeat('0123456789', 100000), repeat('x', 1000) FROM generate_series(1, 3)");
    get_rows(connection, "COPY (SELECT repeat('y', 300000)) TO STDOUT");
    free(text);
}
