#define _DEFAULT_SOURCE

#include "load.h"

#include <errno.h>
#include <inttypes.h>
#include <poll.h>
#include <stdio.h>
#include <string.h>
#include <sys/stat.h>
#include <unistd.h>

/* The bytes before the data of a CopyData, and the most data in one. */
enum { HEAD = 5, BLOCK = 65536 };

struct load {
    struct connection *connection;
    int file;
    const char *file_name;
    off_t len; /* of the file when the load began */
    enum status status; /* of what stopped it */
    bool has_ended;     /* a CopyDone was put, also where an error came after it */
    bool is_stored;     /* the server says so */
    uint64_t rows;
};

static off_t length_of(int file)
{
    struct stat state;
    return fstat(file, &state) == 0 && S_ISREG(state.st_mode) ? state.st_size : 0;
}

/* Ends the data where no more of the file can be had, by a CopyFail, whose words the server reports. */
static void stop_reading(struct load *load, const char *reason)
{
    static const char words[] = "the client can't read its file";
    load->status = complain(STATUS_LOCAL, "%s can't be read: %s", load->file_name, reason);
    PUT(load->connection,
        pgmsg_put_copy_fail((const uint8_t *)words, sizeof words - 1, SPARE(load->connection)));
}

static void end_data(struct load *load)
{
    if (length_of(load->file) < load->len) {
        stop_reading(load, "it became shorter");
        return;
    }
    load->has_ended = true;
    PUT(load->connection, pgmsg_put_no_body('c', SPARE(load->connection)));
}

/* Puts the next bytes of the file, behind the head of their message. */
static enum status read_block(struct load *load)
{
    struct buffer *output = &load->connection->output;
    if (!buffer_reserve(output, HEAD + BLOCK))
        return complain_of_memory();
    uint8_t *head = output->bytes + output->end;
    ssize_t count = read(load->file, head + HEAD, BLOCK);
    if (count < 0 && errno != EAGAIN && errno != EINTR)
        stop_reading(load, strerror(errno));
    if (count == 0)
        end_data(load);
    if (count > 0 && pgmsg_put_copy_head((size_t)count, head) == 0)
        output->end += HEAD + (size_t)count;
    return STATUS_OK;
}

static enum status take_error(struct load *load, const struct message *message)
{
    report(message);
    if (load->status == STATUS_OK)
        load->status = STATUS_SERVER;
    return STATUS_OK;
}

static enum status take_count(struct load *load, const struct message *message)
{
    if (!load->has_ended)
        return complain_of_message(message);
    pgmsg_command command;
    pgmsg_fault fault;
    if (pgmsg_read_command_complete(message->body, message->len, &command, &fault) < 0)
        return complain_of_fault(&fault);
    load->is_stored = true;
    load->rows = command.rows;
    return STATUS_OK;
}

/* Takes the server's word that it waits for data. */
static enum status take_start(const struct message *message)
{
    pgmsg_copy_response response;
    pgmsg_fault fault;
    int16_t codes[1];
    if (pgmsg_read_copy_response(message->body, message->len, &response, codes, 1, &fault) < 0)
        return complain_of_fault(&fault);
    if (response.format != 0)
        return complain(STATUS_PROTOCOL, "the server waits for another format than text");
    return STATUS_OK;
}

static enum status take(struct load *load, const struct message *message)
{
    switch (message->tag) {
    case 'G': return take_start(message);
    case 'E': return take_error(load, message);
    case 'C': return take_count(load, message);
    case 'Z': return check_ready(message);
    case 'N': report(message); return STATUS_OK;
    case 'A':
    case 'S': return STATUS_OK;
    default: return complain_of_message(message);
    }
}

/* Whether the server takes data, and whether it is ready for the next query. */
static bool is_sending(const struct load *load)
{
    return load->connection->flow.mode == PGMSG_MODE_COPY_IN;
}

static bool is_ready(const struct load *load)
{
    return load->connection->flow.mode == PGMSG_MODE_IDLE;
}

static enum status take_all(struct load *load)
{
    for (;;) {
        struct message message;
        enum status status = connection_next(load->connection, &message);
        if (status != STATUS_OK || message.tag == 0)
            return status;
        status = take(load, &message);
        if (status != STATUS_OK || is_ready(load))
            return status;
    }
}

/* Waits for the socket or for the file, and reads and writes what is possible: the server may say much before it takes
 * more. */
static enum status step(struct load *load)
{
    struct connection *connection = load->connection;
    bool has_output = connection_has_output(connection);
    bool is_hungry = is_sending(load) && !has_output && !connection->is_gone;
    struct pollfd ready[] = {
        {.fd = connection->socket, .events = has_output ? POLLIN | POLLOUT : POLLIN},
        {.fd = is_hungry ? load->file : -1, .events = POLLIN},
    };
    if (poll(ready, 2, -1) < 0)
        return errno == EINTR ? STATUS_OK : complain(STATUS_LOCAL, "poll: %s", strerror(errno));
    enum status status = STATUS_OK;
    if (ready[0].revents & (POLLIN | POLLHUP | POLLERR))
        status = connection_read(connection);
    if (status == STATUS_OK)
        status = take_all(load);
    if (status == STATUS_OK && ready[1].revents != 0 && is_sending(load))
        status = read_block(load);
    if (status == STATUS_OK && connection_has_output(connection))
        connection_write(connection);
    return status;
}

/* What the server is known to have stored after the connection broke. */
static void explain_break(const struct load *load)
{
    if (load->is_stored)
        complain(STATUS_BROKEN, "the server had confirmed %" PRIu64 " rows before", load->rows);
    else if (load->has_ended)
        complain(STATUS_BROKEN, "the server had all data and confirmed nothing: the rows may be stored or not");
    else
        complain(STATUS_BROKEN, "the server confirmed nothing: no row is stored, since a COPY is one statement");
}

/* Goes on until the server is ready for another query. */
static enum status run(struct load *load)
{
    /* Messages may have come with the end of the login. */
    enum status status = load->connection->failure;
    if (status == STATUS_OK)
        status = take_all(load);
    while (status == STATUS_OK && !is_ready(load)) {
        status = load->connection->failure;
        if (status == STATUS_OK)
            status = step(load);
    }
    if (status == STATUS_BROKEN)
        explain_break(load);
    return load->status != STATUS_OK ? load->status : status;
}

/* Prints the tag of the command. */
static enum status print_count(const struct load *load)
{
    if (printf("COPY %" PRIu64 "\n", load->rows) < 0 || fflush(stdout) == EOF)
        return complain(STATUS_LOCAL, "%" PRIu64 " rows are stored, but that can't be written: %s", load->rows,
                        strerror(errno));
    return STATUS_OK;
}

enum status load_file(struct connection *connection, const struct buffer *query, int file,
                      const char *file_name)
{
    struct load load = {.connection = connection, .file = file, .file_name = file_name, .len = length_of(file)};
    PUT(connection, pgmsg_put_query(query->bytes + query->start, query->end - query->start, SPARE(connection)));
    enum status status = run(&load);
    if (is_ready(&load))
        connection_terminate(connection);
    return status == STATUS_OK ? print_count(&load) : status;
}
