/* Where to connect to, and as whom. */
#ifndef OPTIONS_H
#define OPTIONS_H

#include "status.h"

/* The letters of these options, for getopt. */
#define OPTION_LETTERS "h:p:U:d:"

/* The same for the usage. */
#define OPTION_WORDS "[-h HOST] [-p PORT] [-U USER] [-d DATABASE]"

enum { NAME_ROOM = 256 };

/* NULL where nothing is said. */
struct options {
    const char *application; /* the name that the server lists the session by */
    const char *host; /* a name, an address, or a folder of Unix sockets */
    const char *port;
    const char *user;
    const char *database;
    const char *password;
    char own_name[NAME_ROOM];
};

/* Takes an option, by its letter. False where it is none of these. */
bool options_take(struct options *options, int letter, const char *value);

/* Takes what isn't said from PGHOST and the other variables of libpq, else as psql does. The password is that of
 * PGPASSWORD. */
enum status options_complete(struct options *options);

/* Whether `--help` is the first argument; the usage is printed then. */
bool options_show_help(int argc, char **argv, const char *usage);

/* Prints the usage on standard error. */
enum status options_refuse(const char *usage);

/* A decimal number without a sign, at most `most`. */
bool read_number(const char *text, unsigned long most, unsigned long *number);

#endif
