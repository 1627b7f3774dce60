/* Sessions over libpq that are traced. */
#ifndef TRACE_SESSIONS_H
#define TRACE_SESSIONS_H

#include <libpq-fe.h>

/* Ends the program with these words. */
void stop(const char *words);

/* Runs commands, and takes their first result. */
void run(PGconn *connection, const char *commands);

/* Takes all results of what was sent. */
void take_results(PGconn *connection);

/* Lets libpq print no notices. */
void ignore_notices(PGconn *connection);

void run_copy_in(PGconn *connection);
void run_copy_out(PGconn *connection);
void run_copy_dropped(PGconn *connection);
void run_large(PGconn *connection);
void run_prepared(PGconn *connection);
void run_pipeline(PGconn *connection);
void run_function(PGconn *connection);

#endif
