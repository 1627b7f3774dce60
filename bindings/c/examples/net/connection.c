#define _DEFAULT_SOURCE

#include "connection.h"
#include "address.h"

#include <errno.h>
#include <fcntl.h>
#include <string.h>
#include <sys/socket.h>
#include <unistd.h>

enum {
    OUTPUT_ROOM = 4096,
    INPUT_ROOM = 65536,
    LEAST_READ = 8192,
    /* No message to these programs is nearly as long; a number above it is not PostgreSQL's. */
    LONGEST_MESSAGE = 64 * 1024 * 1024
};

/* Whether a call with this errno may be made again. */
static bool is_temporary(int failure)
{
    return failure == EAGAIN || failure == EWOULDBLOCK || failure == EINTR;
}

/* Whether a message may be sent now. */
static bool may_send(struct connection *connection, const uint8_t *message, size_t len)
{
    size_t head = connection->has_begun ? 5 : 4;
    uint8_t tag = connection->has_begun ? message[0] : 0;
    uint64_t number;
    pgmsg_fault fault;
    if (pgmsg_flow_said(&connection->flow, tag, message + head, len - head, &number, &fault) < 0) {
        connection->failure = complain_of_fault(&fault);
        return false;
    }
    connection->has_begun = true;
    return true;
}

bool connection_put(struct connection *connection, ptrdiff_t length)
{
    struct buffer *output = &connection->output;
    if (length == PGMSG_OUT_OF_MEMORY) {
        connection->failure = complain_of_memory();
        return false;
    }
    if (length < 0) {
        /* It is made of a name or of a password that the user gave. */
        connection->failure = complain(STATUS_USAGE, "a message is refused: %s", pgmsg_strerror((int32_t)length));
        return false;
    }
    if ((size_t)length > output->room - output->end) {
        if (buffer_reserve(output, (size_t)length))
            return true;
        connection->failure = complain_of_memory();
        return false;
    }
    if (may_send(connection, output->bytes + output->end, (size_t)length))
        output->end += (size_t)length;
    return false;
}

/* Sends some of the output. */
static void send_some(struct connection *connection, int flags)
{
    struct buffer *output = &connection->output;
    ssize_t count =
        send(connection->socket, output->bytes + output->start, output->end - output->start, flags | MSG_NOSIGNAL);
    if (count >= 0) {
        output->start += (size_t)count;
    } else if (!is_temporary(errno)) {
        connection->is_gone = true;
        output->start = output->end;
    }
}

bool connection_has_output(const struct connection *connection)
{
    return connection->output.start < connection->output.end;
}

void connection_write(struct connection *connection)
{
    send_some(connection, MSG_DONTWAIT);
}

enum status connection_flush(struct connection *connection)
{
    while (connection->failure == STATUS_OK && connection_has_output(connection))
        send_some(connection, 0);
    return connection->failure;
}

enum status connection_read(struct connection *connection)
{
    struct buffer *input = &connection->input;
    if (!buffer_reserve(input, LEAST_READ))
        return complain_of_memory();
    ssize_t count = read(connection->socket, input->bytes + input->end, input->room - input->end);
    if (count == 0)
        return complain(STATUS_BROKEN, "the server closed the connection");
    if (count > 0)
        input->end += (size_t)count;
    else if (!is_temporary(errno))
        return complain(STATUS_BROKEN, "the connection broke: %s", strerror(errno));
    return STATUS_OK;
}

/* Takes a message that came, if it may come now. Rows that come one after the other are one step. */
static enum status hear(struct connection *connection, const struct message *message)
{
    pgmsg_heard heard;
    pgmsg_fault fault;
    if (message->tag == 'D' && connection->last_tag == 'D')
        return STATUS_OK;
    if (pgmsg_flow_heard(&connection->flow, message->tag, message->body, message->len, &heard, &fault) < 0)
        return complain_of_message(message);
    connection->last_tag = message->tag;
    return STATUS_OK;
}

enum status connection_next(struct connection *connection, struct message *message)
{
    struct buffer *input = &connection->input;
    const uint8_t *front = input->bytes + input->start;
    pgmsg_frame frame;
    pgmsg_fault fault;
    *message = (struct message){.body = front};
    if (input->end == input->start)
        return STATUS_OK;
    int32_t is_whole = pgmsg_next_frame(front, input->end - input->start, &frame, &fault);
    if (is_whole < 0 || pgmsg_read_end(frame.tag, NULL, 0, &fault) == PGMSG_UNKNOWN_MESSAGE_TYPE)
        return complain_of_fault(&fault);
    if (frame.length > LONGEST_MESSAGE)
        return complain(STATUS_PROTOCOL, "a message of %zu bytes is too long", frame.length);
    if (is_whole == 0)
        return STATUS_OK;
    *message = (struct message){.tag = frame.tag, .body = front + frame.body.at, .len = frame.body.len};
    input->start += frame.length;
    return hear(connection, message);
}

enum status connection_receive(struct connection *connection, struct message *message)
{
    enum status status = connection_next(connection, message);
    while (status == STATUS_OK && message->tag == 0) {
        status = connection_read(connection);
        if (status == STATUS_OK)
            status = connection_next(connection, message);
    }
    return status;
}

enum status check_ready(const struct message *message)
{
    pgmsg_fault fault;
    if (pgmsg_read_ready(message->body, message->len, &fault) < 0)
        return complain_of_fault(&fault);
    return STATUS_OK;
}

static enum status connect_and_log_in(struct connection *connection, const struct options *options)
{
    struct address address;
    enum status status = address_find(&address, options->host, options->port);
    if (status == STATUS_OK)
        status = address_connect(&address, &connection->socket);
    address_free(&address);
    if (status == STATUS_OK)
        status = log_in(connection, options);
    return status;
}

/* Opens the standard descriptors that are closed, so that each use of them fails: else the socket may get such a
 * number, and be read or written by mistake. */
static void open_standard_descriptors(void)
{
    static const int modes[] = {O_WRONLY, O_RDONLY, O_RDONLY};
    for (int number = 0; number < 3; number++)
        if (fcntl(number, F_GETFD) < 0 && errno == EBADF && open("/dev/null", modes[number]) < 0)
            return;
}

enum status connection_open(struct connection *connection, const struct options *options)
{
    *connection = (struct connection){.socket = -1};
    enum status status = STATUS_OK;
    pgmsg_flow_client(&connection->flow);
    open_standard_descriptors();
    if (!buffer_make(&connection->output, OUTPUT_ROOM) || !buffer_make(&connection->input, INPUT_ROOM))
        status = complain_of_memory();
    if (status == STATUS_OK)
        status = connect_and_log_in(connection, options);
    if (status != STATUS_OK)
        connection_close(connection);
    return status;
}

void connection_terminate(struct connection *connection)
{
    PUT(connection, pgmsg_put_no_body('X', SPARE(connection)));
    connection_write(connection);
}

void connection_close(struct connection *connection)
{
    if (connection->socket >= 0)
        close(connection->socket);
    connection->socket = -1;
    buffer_free(&connection->output);
    buffer_free(&connection->input);
}
