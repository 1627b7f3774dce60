/* Runs a session over libpq, and writes libpq's trace of it:
 *
 *     trace_sessions SESSION TRACE
 *
 * The server is that which libpq's variables name. Results are taken and not looked at: what passes is compared.
 * Without arguments it prints the version of libpq. */
#include "trace_sessions.h"

#include <poll.h>
#include <stdio.h>
#include <stdlib.h>
#include <string.h>

void stop(const char *words)
{
    fprintf(stderr, "trace_sessions: %s\n", words);
    exit(1);
}

/* Connects, and traces from the first message on. */
static PGconn *connect_traced(FILE *trace)
{
    PGconn *connection = PQconnectStart("");
    PostgresPollingStatusType wanted = PGRES_POLLING_WRITING;
    if (connection == NULL)
        stop("out of memory");
    PQtrace(connection, trace);
    PQsetTraceFlags(connection, PQTRACE_SUPPRESS_TIMESTAMPS);
    while (wanted == PGRES_POLLING_WRITING || wanted == PGRES_POLLING_READING) {
        struct pollfd ready = {PQsocket(connection), wanted == PGRES_POLLING_READING ? POLLIN : POLLOUT, 0};
        poll(&ready, 1, -1);
        wanted = PQconnectPoll(connection);
    }
    return connection;
}

void run(PGconn *connection, const char *commands)
{
    PQclear(PQexec(connection, commands));
}

void take_results(PGconn *connection)
{
    PGresult *result;
    while ((result = PQgetResult(connection)) != NULL)
        PQclear(result);
}

static void ignore_notice(void *argument, const PGresult *result)
{
    (void)argument;
    (void)result;
}

void ignore_notices(PGconn *connection)
{
    PQsetNoticeReceiver(connection, ignore_notice, NULL);
}

static void run_errors(PGconn *connection)
{
    run(connection, "SELEC 1");
    run(connection, "SELECT * FROM \"no such\ntable\"");
    run(connection, "BEGIN");
    run(connection, "SELECT 1 / 0");
    run(connection, "SELECT 1");
    run(connection, "ROLLBACK");
    run(connection, "CREATE TEMP TABLE keys (id int PRIMARY KEY, name text NOT NULL)");
    run(connection, "INSERT INTO keys VALUES (1, 'a'), (1, 'b')");
    run(connection, "INSERT INTO keys VALUES (2, NULL)");
    run(connection, "DO $$BEGIN RAISE EXCEPTION E'tab\\tand \"quotes\" \\u00e9' USING "
                    "ERRCODE = 'X1234', DETAIL = 'why', HINT = 'how'; END$$");
    run(connection, "SELECT pg_terminate_backend(pg_backend_pid())");
}

static void run_queries(PGconn *connection)
{
    run(connection, "");
    run(connection, "SELECT 1; SELECT 'two' AS \"a \"\"name\"\"\", NULL, ''; SELECT;;");
    run(connection, "SELECT E'\\001\\t\\n\\r\\\\ ''\"' AS odd, 'gr\xc3\xbc\xc3\x9f' AS text\n  -- and a line\n");
    run(connection, "SELECT * FROM pg_type ORDER BY oid LIMIT 20");
    run(connection, "SET TimeZone TO 'Asia/Kathmandu'; SET application_name TO 'trace'");
    run(connection, "SELECT generate_series(1, 100), random() < 2");
    PQsendQuery(connection, "SELECT generate_series(1, 3)");
    PQsetSingleRowMode(connection);
    take_results(connection);
    run(connection, "BEGIN; DECLARE c CURSOR FOR SELECT generate_series(1, 5); FETCH 2 FROM c; CLOSE c; COMMIT");
}

static void run_notify(PGconn *connection)
{
    PGnotify *notification;
    run(connection, "LISTEN plain; LISTEN \"we\"\"ird\"");
    run(connection, "NOTIFY plain");
    run(connection, "NOTIFY \"we\"\"ird\", 'tab\tand \"quotes\"'; NOTIFY plain, 'gr\xc3\xbc\xc3\x9f'");
    run(connection, "BEGIN; NOTIFY plain, 'kept'");
    run(connection, "SELECT pg_notify('plain', repeat('x', 7999))");
    run(connection, "COMMIT");
    while ((notification = PQnotifies(connection)) != NULL)
        PQfreemem(notification);
    run(connection, "UNLISTEN *");
}

static void run_notices(PGconn *connection)
{
    ignore_notices(connection);
    run(connection, "SET client_min_messages TO debug1");
    run(connection, "DO $$BEGIN RAISE NOTICE 'a notice'; RAISE WARNING E'two\nlines' USING HINT = 'none'; "
                    "RAISE INFO 'gr\xc3\xbc\xc3\x9f'; RAISE LOG 'a log'; RAISE DEBUG 'for us'; END$$");
    run(connection, "DROP TABLE IF EXISTS no_such_table");
    run(connection, "CREATE TEMP TABLE numbered (id serial PRIMARY KEY)");
    run(connection, "COMMIT");
}

static void run_login(PGconn *connection)
{
    run(connection, "SELECT current_user");
}

/* Takes the answers of a server that isn't PostgreSQL, up to as many as it has. */
static void run_odd(PGconn *connection)
{
    char query[20];
    ignore_notices(connection);
    for (int i = 0; i < 11 && PQstatus(connection) == CONNECTION_OK; i++) {
        snprintf(query, sizeof query, "query %d", i);
        run(connection, query);
    }
}

static const struct {
    const char *name;
    void (*run)(PGconn *connection);
} sessions[] = {
    {"errors", run_errors},
    {"queries", run_queries},
    {"copy_in", run_copy_in},
    {"copy_out", run_copy_out},
    {"copy_dropped", run_copy_dropped},
    {"prepared", run_prepared},
    {"notify", run_notify},
    {"pipeline", run_pipeline},
    {"login", run_login},
    {"function", run_function},
    {"large", run_large},
    {"notices", run_notices},
    {"odd", run_odd},
};

static void run_session(PGconn *connection, const char *name)
{
    for (size_t i = 0; i < sizeof sessions / sizeof *sessions; i++) {
        if (strcmp(sessions[i].name, name) == 0) {
            sessions[i].run(connection);
            return;
        }
    }
    stop("no such session");
}

int main(int argc, char **argv)
{
    if (argc == 1)
        return printf("%d.%d\n", PQlibVersion() / 10000, PQlibVersion() % 10000) < 0;
    FILE *trace = argc == 3 ? fopen(argv[2], "w") : NULL;
    if (trace == NULL)
        stop("usage: trace_sessions [SESSION TRACE]");
    PGconn *connection = connect_traced(trace);
    if (PQstatus(connection) == CONNECTION_OK)
        run_session(connection, argv[1]);
    else
        fputs(PQerrorMessage(connection), stderr);
    PQfinish(connection);
    return fclose(trace) == EOF;
}
