/* A connection to a server: what the message layer leaves to its caller. */
#ifndef CONNECTION_H
#define CONNECTION_H

#include "buffer.h"
#include "options.h"

/* Each call that fails has said why on standard error, and answers the exit status for it. */
struct connection {
    int socket;
    bool is_gone;        /* nothing can be written any more */
    enum status failure; /* of a message that was put */
    bool has_begun;      /* the first message, which has no tag, was put */
    uint8_t last_tag;    /* of the messages that came */
    pgmsg_flow flow;     /* which message may come next */
    struct buffer output;
    struct buffer input;
};

/* The spare room of the output, as the last two arguments of a pgmsg_put_* call. */
#define SPARE(connection)                                             \
    (connection)->output.bytes + (connection)->output.end,            \
        (connection)->output.room - (connection)->output.end

/* Adds to the output what a pgmsg_put_* call writes to SPARE, and makes the call again where the output had
 * to grow. What goes wrong is the answer of the next connection_flush. */
#define PUT(connection, call) \
    do {                      \
    } while (connection_put((connection), (call)))

/* Takes the answer of a pgmsg_put_* call; whether the call is to be made again. A message that may not come now isn't
 * sent. */
bool connection_put(struct connection *connection, ptrdiff_t length);

/* Connects, and logs in. */
enum status connection_open(struct connection *connection, const struct options *options);

/* Opens a session over a connection: sends who it is for, answers the server's questions, and waits until the server is
 * ready for a query. */
enum status log_in(struct connection *connection, const struct options *options);

/* Says good-bye where that can be sent at once. */
void connection_terminate(struct connection *connection);

void connection_close(struct connection *connection);

/* Whether some of the output isn't written. */
bool connection_has_output(const struct connection *connection);

/* Writes as much of the output as is taken at once. */
void connection_write(struct connection *connection);

/* Writes the output. A connection that broke is reported by the next read, since the server may have
 * said why. */
enum status connection_flush(struct connection *connection);

/* Reads once: what is there, else what comes next. */
enum status connection_read(struct connection *connection);

/* Takes the next message out of what was read, where it may come now. Its tag is 0 where none is whole. */
enum status connection_next(struct connection *connection, struct message *message);

/* Takes the next message, and waits for it. */
enum status connection_receive(struct connection *connection, struct message *message);

/* Tests that a ReadyForQuery is one. */
enum status check_ready(const struct message *message);

#endif
