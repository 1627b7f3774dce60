/* The loading of a file by COPY. */
#ifndef LOAD_H
#define LOAD_H

#include "connection.h"

/* Sends the query, a COPY FROM STDIN, and the bytes of the file. Prints the tag of the command on standard
 * output when the server has stored the rows. */
enum status load_file(struct connection *connection, const struct buffer *query, int file,
                      const char *file_name);

#endif
