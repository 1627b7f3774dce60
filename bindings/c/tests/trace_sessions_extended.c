/* Sessions by the extended query protocol, and with calls of functions. */
#include "trace_sessions.h"

#include <stdbool.h>
#include <stdio.h>
#include <stdlib.h>

enum { BYTEA = 17, INT4 = 23, TEXT = 25 };

void run_prepared(PGconn *connection)
{
    static const Oid types[] = {INT4, TEXT, BYTEA};
    static const char *const values[] = {"\0\0\0\7", NULL, "\0\1\x7f\x80\xff'\"\\"};
    static const int lengths[] = {4, 0, 8}, formats[] = {1, 0, 1};
    static const char *const texts[] = {"-12", "it's \"text\"\n", "\\x00ff"};
    PQclear(PQprepare(connection, "by name", "SELECT $1 + 1, $2::text, $3, NULL", 3, types));
    PQclear(PQdescribePrepared(connection, "by name"));
    PQclear(PQexecPrepared(connection, "by name", 3, values, lengths, formats, 1));
    PQclear(PQexecPrepared(connection, "by name", 3, texts, NULL, NULL, 0));
    PQclear(PQprepare(connection, "", "SELECT 1", 0, NULL));
    PQclear(PQdescribePrepared(connection, ""));
    PQclear(PQexecPrepared(connection, "", 0, NULL, NULL, NULL, 0));
    PQclear(PQexecParams(connection, "SELECT $1, $2::int8, $3", 3, types, values, lengths, formats, 0));
    PQclear(PQexecParams(connection, "SELECT $1, $2, $3", 3, types, texts, NULL, NULL, 1));
    PQclear(PQexecParams(connection, "SELECT $1::int", 1, NULL, texts + 1, NULL, NULL, 0));
    PQclear(PQexecParams(connection, "CREATE TEMP TABLE t ()", 0, NULL, NULL, NULL, NULL, 0));
    PQclear(PQexecParams(connection, "", 0, NULL, NULL, NULL, NULL, 0));
    PQclear(PQprepare(connection, "by name", "SELECT 1", 0, NULL));
    PQclear(PQdescribePrepared(connection, "no such statement"));
    PQclear(PQdescribePortal(connection, "no such portal"));
    run(connection, "BEGIN; DECLARE portal CURSOR FOR SELECT 1 AS one, 'a' AS two");
    PQclear(PQdescribePortal(connection, "portal"));
    run(connection, "COMMIT; DEALLOCATE \"by name\"");
}

/* Takes the results of so many queries and syncs of a pipeline. */
static void take_pipeline(PGconn *connection, int count)
{
    for (int i = 0; i < count; i++) {
        PGresult *result = PQgetResult(connection);
        bool is_sync = PQresultStatus(result) == PGRES_PIPELINE_SYNC;
        PQclear(result);
        if (!is_sync)
            take_results(connection);
    }
}

static void send_text(PGconn *connection, const char *query, const char *text)
{
    if (PQsendQueryParams(connection, query, 1, NULL, &text, NULL, NULL, 0) != 1)
        stop("a query isn't sent");
}

void run_pipeline(PGconn *connection)
{
    static const char *const one[] = {"1"};
    PQenterPipelineMode(connection);
    send_text(connection, "SELECT $1::int", "1");
    PQsendPrepare(connection, "in line", "SELECT $1::int + 1", 0, NULL);
    PQsendQueryPrepared(connection, "in line", 1, one, NULL, NULL, 1);
    PQsendDescribePrepared(connection, "in line");
    PQsendFlushRequest(connection);
    PQflush(connection);
    take_pipeline(connection, 4);
    send_text(connection, "SELECT generate_series(1, $1::int)", "500");
    send_text(connection, "SELECT 1 / $1::int", "0");
    send_text(connection, "SELECT $1", "never run");
    PQpipelineSync(connection);
    send_text(connection, "SELECT $1::text", "after it");
    PQpipelineSync(connection);
    take_pipeline(connection, 6);
    PQexitPipelineMode(connection);
    run(connection, "SELECT 'out of line'");
}

/* Calls a function by its object id, which is looked up by its signature. */
static void call(PGconn *connection, const char *function, const PQArgBlock *arguments, int count, int is_int)
{
    char query[200], answer[4096];
    int len;
    snprintf(query, sizeof query, "SELECT '%s'::regprocedure::oid", function);
    PGresult *result = PQexec(connection, query);
    int id = atoi(PQgetvalue(result, 0, 0));
    PQclear(result);
    PQclear(PQfn(connection, id, (int *)answer, &len, is_int, arguments, count));
}

void run_function(PGconn *connection)
{
    char text[] = "a\tb'\xc3\xa9";
    PQArgBlock ints[] = {{4, 1, {.integer = -6}}, {4, 1, {.integer = 7}}};
    PQArgBlock texts[] = {{sizeof text - 1, 0, {.ptr = (int *)text}}};
    PQArgBlock zeros[] = {{4, 1, {.integer = 1}}, {4, 1, {.integer = 0}}};
    PQArgBlock nulls[] = {{-1, 1, {.integer = 0}}, {4, 1, {.integer = 0}}};
    call(connection, "int4mul(int,int)", ints, 2, 1);
    call(connection, "upper(text)", texts, 1, 0);
    call(connection, "pg_backend_pid()", NULL, 0, 1);
    call(connection, "int4div(int,int)", zeros, 2, 1);
    call(connection, "int4mul(int,int)", nulls, 2, 1);
}
