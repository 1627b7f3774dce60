/* Listens to channels, and prints a line for each notification. */
#define _DEFAULT_SOURCE

#include "connection.h"

#include <errno.h>
#include <inttypes.h>
#include <limits.h>
#include <stdio.h>
#include <string.h>
#include <unistd.h>

static const char usage[] =
    "usage: pg_listen " OPTION_WORDS " [-n COUNT] CHANNEL..\n"
    "Prints a line for each notification: channel, process and payload, with tabs between them. Backslash,\n"
    "tab, line feed and carriage return in them are \\\\, \\t, \\n and \\r, and the bytes of other characters that\n"
    "a terminal obeys \\x and two hexadecimal digits. Ends after COUNT lines.\n";

struct listener {
    bool is_limited;
    unsigned long left; /* lines, where they are limited */
};

/* The server has said that it listens, and all lines are printed. */
static bool is_done(const struct listener *listener, const struct connection *connection)
{
    return connection->flow.mode == PGMSG_MODE_IDLE && listener->is_limited && listener->left == 0;
}

static enum status take_notification(struct listener *listener, const struct message *message)
{
    pgmsg_notification notification;
    pgmsg_fault fault;
    if (pgmsg_read_notification(message->body, message->len, &notification, &fault) < 0)
        return complain_of_fault(&fault);
    if (listener->is_limited && listener->left == 0)
        return STATUS_OK;
    print_escaped(message->body + notification.channel.at, notification.channel.len);
    printf("\t%" PRIu32 "\t", notification.process_id);
    print_escaped(message->body + notification.payload.at, notification.payload.len);
    putchar('\n');
    if (listener->is_limited)
        listener->left--;
    if (fflush(stdout) == EOF || ferror(stdout))
        return complain(STATUS_LOCAL, "standard output can't be written: %s", strerror(errno));
    return STATUS_OK;
}

static enum status take_ready(const struct message *message)
{
    fputs("listening\n", stderr);
    return check_ready(message);
}

static enum status take(struct listener *listener, const struct message *message)
{
    switch (message->tag) {
    case 'A': return take_notification(listener, message);
    case 'E': report(message); return STATUS_SERVER;
    case 'N': report(message); return STATUS_OK;
    case 'Z': return take_ready(message);
    case 'C':
    case 'S': return STATUS_OK;
    default: return complain_of_message(message);
    }
}

/* One query for all channels, so that either all are listened to or none. */
static enum status send_listen(struct connection *connection, char **channels)
{
    struct buffer query;
    enum status status = STATUS_OK;
    if (!buffer_make(&query, 256))
        return complain_of_memory();
    for (; *channels != NULL && status == STATUS_OK; channels++)
        if (!buffer_add_text(&query, "LISTEN ")
            || !buffer_add_identifier(&query, *channels, strlen(*channels)) || !buffer_add_text(&query, ";"))
            status = complain_of_memory();
    if (status == STATUS_OK) {
        PUT(connection, pgmsg_put_query(query.bytes, query.end, SPARE(connection)));
        status = connection_flush(connection);
    }
    buffer_free(&query);
    return status;
}

static enum status run(struct listener *listener, struct options *options, char **channels)
{
    struct connection connection;
    enum status status = options_complete(options);
    if (status == STATUS_OK)
        status = connection_open(&connection, options);
    if (status != STATUS_OK)
        return status;
    status = send_listen(&connection, channels);
    while (status == STATUS_OK && !is_done(listener, &connection)) {
        struct message message;
        status = connection_receive(&connection, &message);
        if (status == STATUS_OK)
            status = take(listener, &message);
    }
    connection_terminate(&connection);
    connection_close(&connection);
    return status;
}

int main(int argc, char **argv)
{
    struct options options = {.application = "pg_listen"};
    struct listener listener = {0};
    int letter;
    if (options_show_help(argc, argv, usage))
        return STATUS_OK;
    while ((letter = getopt(argc, argv, OPTION_LETTERS "n:")) != -1) {
        if (letter == 'n') {
            listener.is_limited = true;
            if (!read_number(optarg, ULONG_MAX, &listener.left))
                return options_refuse(usage);
        } else if (!options_take(&options, letter, optarg)) {
            return options_refuse(usage);
        }
    }
    if (optind == argc)
        return options_refuse(usage);
    return run(&listener, &options, argv + optind);
}
