/* How the programs end, and what they say about it. */
#ifndef STATUS_H
#define STATUS_H

#include "pg_message.h"

/* The exit statuses of pg_copy, pg_listen and read_table. */
enum status {
    STATUS_OK = 0,
    STATUS_USAGE = 1,        /* the arguments fit no form */
    STATUS_UNREACHABLE = 2,  /* no such address, or nothing accepts connections there */
    STATUS_REFUSED = 3,      /* the server refuses the login, or there is no password for it */
    STATUS_SERVER = 4,       /* the server reports an error */
    STATUS_BROKEN = 5,       /* the connection broke */
    STATUS_PROTOCOL = 6,     /* what came is not what the protocol allows */
    STATUS_LOCAL = 7,        /* a file can't be read, or output can't be written */
    STATUS_MEMORY = 8        /* out of memory */
};

/* A message from the server. Its body is valid until more is read; `tag` is 0 where there is none. */
struct message {
    uint8_t tag;
    const uint8_t *body;
    size_t len;
};

/* Prints the program's name and these words on standard error, and answers the status. */
enum status complain(enum status status, const char *format, ...)
    __attribute__((format(printf, 2, 3)));

/* The same for memory that isn't there. */
enum status complain_of_memory(void);

/* The same for a fault that the message layer found in a message or a stream. */
enum status complain_of_fault(const pgmsg_fault *fault);

/* The same for a message that may not come here. */
enum status complain_of_message(const struct message *message);

/* Prints a text of the server on standard output: backslash, tab, line feed and carriage return as \\, \t, \n and \r, and
 * each byte of another character that a terminal may obey as \x and two hexadecimal digits. */
void print_escaped(const uint8_t *text, size_t len);

/* Prints an error or a notice of the server on standard error: severity, code and message on the
 * first line, then detail, hint and context where there are any. */
void report(const struct message *message);

#endif
