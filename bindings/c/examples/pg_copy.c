/* Loads rows from a file or from standard input into a table, by COPY. */
#define _DEFAULT_SOURCE

#include "load.h"

#include <errno.h>
#include <fcntl.h>
#include <stdio.h>
#include <string.h>
#include <unistd.h>

static const char usage[] =
    "usage: pg_copy " OPTION_WORDS " [-c COLUMN,..] TABLE [FILE]\n"
    "Loads the rows of FILE, or of standard input, into TABLE or SCHEMA.TABLE, in the text format of COPY.\n";

/* What is to be loaded where. */
struct task {
    const char *table;
    const char *columns; /* NULL for all */
    const char *file;    /* NULL for standard input */
};

/* Adds names between separators as identifiers, with a text between them. */
static enum status add_names(struct buffer *query, const char *names, char separator, const char *between)
{
    for (;;) {
        const char *end = strchr(names, separator);
        size_t len = end != NULL ? (size_t)(end - names) : strlen(names);
        if (len == 0)
            return complain(STATUS_USAGE, "a name of the table or of a column is empty");
        if (!buffer_add_identifier(query, names, len))
            return complain_of_memory();
        if (end == NULL)
            return STATUS_OK;
        if (!buffer_add_text(query, between))
            return complain_of_memory();
        names = end + 1;
    }
}

/* Writes the query, without a NUL. */
static enum status make_query(struct buffer *query, const struct task *task)
{
    if (!buffer_add_text(query, "COPY "))
        return complain_of_memory();
    enum status status = add_names(query, task->table, '.', ".");
    if (status == STATUS_OK && task->columns != NULL) {
        if (!buffer_add_text(query, " ("))
            return complain_of_memory();
        status = add_names(query, task->columns, ',', ", ");
        if (status == STATUS_OK && !buffer_add_text(query, ")"))
            return complain_of_memory();
    }
    if (status == STATUS_OK && !buffer_add_text(query, " FROM STDIN"))
        return complain_of_memory();
    return status;
}

static enum status connect_and_load(struct options *options, const struct buffer *query, int file,
                                    const char *file_name)
{
    struct connection connection;
    enum status status = options_complete(options);
    if (status == STATUS_OK)
        status = connection_open(&connection, options);
    if (status != STATUS_OK)
        return status;
    status = load_file(&connection, query, file, file_name);
    connection_close(&connection);
    return status;
}

static enum status open_and_load(struct options *options, const struct buffer *query, const char *name)
{
    if (name == NULL)
        return connect_and_load(options, query, STDIN_FILENO, "standard input");
    int file = open(name, O_RDONLY);
    if (file < 0)
        return complain(STATUS_LOCAL, "%s can't be opened: %s", name, strerror(errno));
    enum status status = connect_and_load(options, query, file, name);
    close(file);
    return status;
}

static enum status run(struct options *options, const struct task *task)
{
    struct buffer query;
    if (!buffer_make(&query, 256))
        return complain_of_memory();
    enum status status = make_query(&query, task);
    if (status == STATUS_OK)
        status = open_and_load(options, &query, task->file);
    buffer_free(&query);
    return status;
}

int main(int argc, char **argv)
{
    struct options options = {.application = "pg_copy"};
    struct task task = {0};
    int letter;
    if (options_show_help(argc, argv, usage))
        return STATUS_OK;
    while ((letter = getopt(argc, argv, OPTION_LETTERS "c:")) != -1) {
        if (letter == 'c')
            task.columns = optarg;
        else if (!options_take(&options, letter, optarg))
            return options_refuse(usage);
    }
    int count = argc - optind;
    if (count < 1 || count > 2)
        return options_refuse(usage);
    task.table = argv[optind];
    task.file = count == 2 && strcmp(argv[optind + 1], "-") != 0 ? argv[optind + 1] : NULL;
    return run(&options, &task);
}
