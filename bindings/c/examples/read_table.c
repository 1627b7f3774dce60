/* Logs in, by SCRAM-SHA-256 where the server asks for that, and prints the rows of a table, as pg_listen escapes a text. */
#define _DEFAULT_SOURCE

#include "connection.h"

#include <stdio.h>
#include <unistd.h>

enum { MOST_CELLS = 1664 }; /* of a row of PostgreSQL */

static enum status print_row(const struct message *row)
{
    pgmsg_cell cells[MOST_CELLS];
    pgmsg_fault fault;
    ptrdiff_t count = pgmsg_read_row(row->body, row->len, cells, MOST_CELLS, &fault);
    if (count < 0)
        return complain_of_fault(&fault);
    for (ptrdiff_t i = 0; i < count && i < MOST_CELLS; i++) {
        if (i > 0)
            putchar('\t');
        if (cells[i].len < 0)
            fputs("NULL", stdout);
        else
            print_escaped(row->body + cells[i].at, (size_t)cells[i].len);
    }
    putchar('\n');
    return STATUS_OK;
}

/* Takes what answers a query, up to the ReadyForQuery. */
static enum status print_rows(struct connection *connection)
{
    struct message message;
    enum status status = STATUS_OK;
    while (status == STATUS_OK && connection->flow.mode == PGMSG_MODE_BUSY) {
        status = connection_receive(connection, &message);
        if (status != STATUS_OK)
            return status;
        switch (message.tag) {
        case 'D': status = print_row(&message); break;
        case 'E': report(&message); return STATUS_SERVER;
        case 'N': report(&message); break;
        case 'A': case 'C': case 'S': case 'T': case 'Z': break;
        default: status = complain_of_message(&message);
        }
    }
    return status;
}

int main(int argc, char **argv)
{
    struct options options = {.application = "read_table"};
    struct connection connection;
    char query[NAME_ROOM];
    int letter;
    while ((letter = getopt(argc, argv, OPTION_LETTERS)) != -1 && options_take(&options, letter, optarg))
        ;
    int len = optind == argc - 1 ? snprintf(query, sizeof query, "TABLE %s", argv[optind]) : -1;
    if (letter != -1 || len < 0 || len >= NAME_ROOM)
        return options_refuse("usage: read_table " OPTION_WORDS " TABLE\n");
    enum status status = options_complete(&options);
    if (status != STATUS_OK || (status = connection_open(&connection, &options)) != STATUS_OK)
        return status;
    PUT(&connection, pgmsg_put_query((const uint8_t *)query, (size_t)len, SPARE(&connection)));
    if ((status = connection_flush(&connection)) == STATUS_OK)
        status = print_rows(&connection);
    if (status == STATUS_OK && (fflush(stdout) == EOF || ferror(stdout)))
        status = complain(STATUS_LOCAL, "standard output can't be written");
    connection_terminate(&connection);
    connection_close(&connection);
    return status;
}
