#define _DEFAULT_SOURCE

#include "options.h"

#include <errno.h>
#include <pwd.h>
#include <stdio.h>
#include <stdlib.h>
#include <string.h>
#include <unistd.h>

bool options_take(struct options *options, int letter, const char *value)
{
    switch (letter) {
    case 'h': options->host = value; return true;
    case 'p': options->port = value; return true;
    case 'U': options->user = value; return true;
    case 'd': options->database = value; return true;
    default: return false;
    }
}

bool options_show_help(int argc, char **argv, const char *usage)
{
    if (argc < 2 || strcmp(argv[1], "--help") != 0)
        return false;
    fputs(usage, stdout);
    return true;
}

enum status options_refuse(const char *usage)
{
    fputs(usage, stderr);
    return STATUS_USAGE;
}

bool read_number(const char *text, unsigned long most, unsigned long *number)
{
    char *end;
    if (*text < '0' || *text > '9')
        return false;
    errno = 0;
    *number = strtoul(text, &end, 10);
    return errno == 0 && *end == '\0' && *number <= most;
}

/* A variable of the environment; an empty one counts as none. */
static const char *variable(const char *name)
{
    const char *value = getenv(name);
    return value != NULL && *value != '\0' ? value : NULL;
}

static const char *own_name(struct options *options)
{
    const struct passwd *own = getpwuid(geteuid());
    if (own == NULL || strlen(own->pw_name) >= sizeof options->own_name)
        return NULL;
    return strcpy(options->own_name, own->pw_name);
}

/* A folder that has the server's socket, as Debian's psql or the original one would look for it. */
static const char *usual_host(const char *port)
{
    static const char *const folders[] = {"/var/run/postgresql", "/tmp"};
    char path[64];
    for (size_t i = 0; i < sizeof folders / sizeof *folders; i++) {
        snprintf(path, sizeof path, "%s/.s.PGSQL.%s", folders[i], port);
        if (access(path, F_OK) == 0)
            return folders[i];
    }
    return "localhost";
}

static const char *first(const char *said, const char *other)
{
    return said != NULL ? said : other;
}

enum status options_complete(struct options *options)
{
    unsigned long port;
    options->port = first(options->port, first(variable("PGPORT"), "5432"));
    if (!read_number(options->port, 65535, &port) || port == 0)
        return complain(STATUS_USAGE, "no port has the number %s", options->port);
    options->host = first(options->host, variable("PGHOST"));
    if (options->host == NULL)
        options->host = usual_host(options->port);
    options->user = first(options->user, variable("PGUSER"));
    if (options->user == NULL)
        options->user = own_name(options);
    if (options->user == NULL)
        return complain(STATUS_USAGE, "say the user by -U or PGUSER: this process has no name");
    options->database = first(options->database, first(variable("PGDATABASE"), options->user));
    options->password = variable("PGPASSWORD");
    return STATUS_OK;
}
