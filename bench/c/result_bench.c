/* How long reading a result takes by the library, beside libpq's PQgetResult:
 *
 *     result_bench
 *
 * A process of its own plays the server: it answers each query by the same bytes, over a Unix socket. libpq takes all of
 * them, and keeps every row; by the library each row is read where it came, in pieces of a size. Both look at each cell.
 * Prints a line for each size of a piece, of which libpq's own is the first. */
#define _DEFAULT_SOURCE

#include "pg_message.h"
#include "turns.h"

#include <libpq-fe.h>
#include <signal.h>
#include <stdio.h>
#include <stdlib.h>
#include <string.h>
#include <sys/socket.h>
#include <sys/un.h>
#include <unistd.h>

enum { ROWS = 100000, COLUMNS = 5, LONGEST_TEXT = 40, LONGEST_ROW = 256, LONGEST_PIECE = 1 << 16, FRAMES = 256 };

static const char query[] = "TABLE people";

static void fail(const char *what)
{
    perror(what);
    exit(1);
}

static void send_all(int socket, const uint8_t *bytes, size_t len)
{
    for (size_t at = 0; at < len;) {
        ssize_t count = write(socket, bytes + at, len - at);
        if (count <= 0)
            fail("write");
        at += (size_t)count;
    }
}

/* The answer to a query: its columns, its rows, and that the server is ready. */
struct answer {
    uint8_t *bytes;
    size_t len, room;
};

/* Counts a message that was put at the end of the answer. */
static void keep(struct answer *answer, ptrdiff_t len)
{
    if (len < 0 || (size_t)len > answer->room - answer->len)
        abort();
    answer->len += (size_t)len;
}

#define END(answer) (answer)->bytes + (answer)->len, (answer)->room - (answer)->len

static void put_row(struct answer *answer, int number)
{
    char texts[COLUMNS][LONGEST_TEXT];
    pgmsg_value values[COLUMNS];
    snprintf(texts[0], LONGEST_TEXT, "name %d", number);
    snprintf(texts[1], LONGEST_TEXT, "%032x", (unsigned)number * 2654435761u);
    snprintf(texts[2], LONGEST_TEXT, "city of %d", number % 100);
    snprintf(texts[3], LONGEST_TEXT, "%.*s", number % 20, "xxxxxxxxxxxxxxxxxxxx");
    snprintf(texts[4], LONGEST_TEXT, "%d", number * 7);
    for (int i = 0; i < COLUMNS; i++)
        values[i] = (pgmsg_value){(const uint8_t *)texts[i], strlen(texts[i]), false};
    keep(answer, pgmsg_put_row(values, COLUMNS, END(answer)));
}

static void make_answer(struct answer *answer)
{
    static const uint8_t letters[COLUMNS] = {'a', 'b', 'c', 'd', 'e'}, command[] = "SELECT 100000";
    pgmsg_column_text columns[COLUMNS];
    answer->room = (size_t)LONGEST_ROW * (ROWS + 1);
    answer->bytes = malloc(answer->room);
    if (answer->bytes == NULL)
        fail("malloc");
    for (int i = 0; i < COLUMNS; i++)
        columns[i] = (pgmsg_column_text){&letters[i], 1, .type_id = 25, .type_size = -1, .type_modifier = -1};
    keep(answer, pgmsg_put_columns(columns, COLUMNS, END(answer)));
    for (int i = 1; i <= ROWS; i++)
        put_row(answer, i);
    keep(answer, pgmsg_put_command_complete(command, sizeof command - 1, END(answer)));
    keep(answer, pgmsg_put_ready('I', END(answer)));
}

/* Answers one client: what opens a session by two messages, and each query by the answer. */
static void serve(int client, const struct answer *answer)
{
    static const uint8_t opened[] = {'R', 0, 0, 0, 8, 0, 0, 0, 0, 'Z', 0, 0, 0, 5, 'I'};
    uint8_t said[1024];
    if (read(client, said, sizeof said) <= 0)
        return;
    send_all(client, opened, sizeof opened);
    while (read(client, said, sizeof said) > 0 && said[0] == 'Q')
        send_all(client, answer->bytes, answer->len);
}

static struct sockaddr_un address(const char *folder)
{
    struct sockaddr_un found = {.sun_family = AF_UNIX};
    snprintf(found.sun_path, sizeof found.sun_path, "%s/.s.PGSQL.5432", folder);
    return found;
}

/* Starts the server, which has a process for each of two clients. */
static void start_server(const char *folder)
{
    struct sockaddr_un here = address(folder);
    struct answer answer = {0};
    int listening = socket(AF_UNIX, SOCK_STREAM, 0);
    if (listening < 0 || bind(listening, (struct sockaddr *)&here, sizeof here) < 0 || listen(listening, 2) < 0)
        fail("listen");
    make_answer(&answer);
    for (int clients = 0; clients < 2; clients++) {
        pid_t child = fork();
        if (child < 0)
            fail("fork");
        if (child == 0) {
            serve(accept(listening, NULL, NULL), &answer);
            _exit(0);
        }
    }
    close(listening);
    free(answer.bytes);
}

/* A session of each side, and the piece that the library's takes. */
struct work {
    PGconn *connection;
    int socket;
    size_t piece;
};

/* What a cell adds to a sum. */
static uint64_t weight(const uint8_t *text, size_t len)
{
    return len + (len > 0 ? text[0] + text[len - 1] : 0);
}

static uint64_t by_libpq(const void *work, int times)
{
    PGconn *connection = ((const struct work *)work)->connection;
    uint64_t sum = 0;
    while (times-- > 0) {
        PGresult *result;
        if (!PQsendQuery(connection, query))
            fail(PQerrorMessage(connection));
        while ((result = PQgetResult(connection)) != NULL) {
            for (int row = 0; row < PQntuples(result); row++)
                for (int i = 0; i < PQnfields(result); i++)
                    if (!PQgetisnull(result, row, i))
                        sum += weight((const uint8_t *)PQgetvalue(result, row, i), (size_t)PQgetlength(result, row, i));
            PQclear(result);
        }
    }
    return sum;
}

static uint64_t sum_of_row(const uint8_t *body, size_t len)
{
    pgmsg_cell cells[COLUMNS];
    pgmsg_fault fault;
    uint64_t sum = 0;
    ptrdiff_t count = pgmsg_read_row(body, len, cells, COLUMNS, &fault);
    if (count != COLUMNS)
        abort();
    for (int i = 0; i < COLUMNS; i++)
        if (cells[i].len >= 0)
            sum += weight(body + cells[i].at, (size_t)cells[i].len);
    return sum;
}

/* Takes the messages that are whole off the front, adds their rows to a sum, and answers the bytes that they took. */
static size_t take_messages(const uint8_t *bytes, size_t len, uint64_t *sum, bool *is_ready)
{
    pgmsg_frame frames[FRAMES];
    pgmsg_fault fault;
    size_t taken = 0;
    ptrdiff_t count;
    do {
        const uint8_t *front = bytes + taken;
        if ((count = pgmsg_next_frames(front, len - taken, frames, FRAMES, &fault)) < 0)
            abort();
        for (ptrdiff_t i = 0; i < count; i++) {
            if (frames[i].tag == 'D')
                *sum += sum_of_row(front + frames[i].body.at, frames[i].body.len);
            *is_ready = frames[i].tag == 'Z';
            taken += frames[i].length;
        }
    } while (count == FRAMES);
    return taken;
}

/* Reads what answers a message, up to where the server is ready. */
static uint64_t read_answer(int socket, size_t piece)
{
    static uint8_t bytes[LONGEST_PIECE];
    uint64_t sum = 0;
    size_t held = 0;
    bool is_ready = false;
    while (!is_ready) {
        ssize_t count = read(socket, bytes + held, piece - held);
        if (count <= 0)
            fail("read");
        held += (size_t)count;
        size_t taken = take_messages(bytes, held, &sum, &is_ready);
        memmove(bytes, bytes + taken, held -= taken);
    }
    return sum;
}

static uint64_t by_library(const void *work, int times)
{
    const struct work *of = work;
    uint8_t asked[64];
    size_t len = (size_t)pgmsg_put_query((const uint8_t *)query, sizeof query - 1, asked, sizeof asked);
    uint64_t sum = 0;
    while (times-- > 0) {
        send_all(of->socket, asked, len);
        sum += read_answer(of->socket, of->piece);
    }
    return sum;
}

static void open_sessions(struct work *work, const char *folder)
{
    static const pgmsg_setting settings[] = {{(const uint8_t *)"user", 4, (const uint8_t *)"me", 2}};
    const char *const names[] = {"host", "port", "user", "dbname", "sslmode", "gssencmode", NULL};
    const char *const values[] = {folder, "5432", "me", "me", "disable", "disable", NULL};
    struct sockaddr_un there = address(folder);
    uint8_t asked[64];
    size_t len = (size_t)pgmsg_put_startup(0, settings, 1, asked, sizeof asked);
    work->connection = PQconnectdbParams(names, values, 0);
    if (PQstatus(work->connection) != CONNECTION_OK)
        fail(PQerrorMessage(work->connection));
    work->socket = socket(AF_UNIX, SOCK_STREAM, 0);
    if (work->socket < 0 || connect(work->socket, (struct sockaddr *)&there, sizeof there) < 0)
        fail("connect");
    send_all(work->socket, asked, len);
    read_answer(work->socket, LONGEST_PIECE);
    unlink(there.sun_path);
    rmdir(folder);
}

/* Prints the line of a size of a piece, once both have read the same cells. */
static void compare(struct work *work, uint64_t *sum)
{
    if (by_library(work, 1) != by_libpq(work, 1)) {
        fprintf(stderr, "the library reads other cells\n");
        exit(1);
    }
    struct turns of = take_turns(by_library, by_libpq, work, 1, sum);
    print_turns(of, ROWS, "libpq", "read a row of %d texts off a socket, in pieces of %zu KiB", COLUMNS, work->piece / 1024);
}

int main(void)
{
    char folder[] = "/tmp/result_bench.XXXXXX";
    struct work work;
    uint64_t sum = 0;
    if (mkdtemp(folder) == NULL)
        fail("mkdtemp");
    signal(SIGPIPE, SIG_IGN);
    start_server(folder);
    open_sessions(&work, folder);
    for (work.piece = 1 << 14; work.piece <= LONGEST_PIECE; work.piece *= 4)
        compare(&work, &sum);
    PQfinish(work.connection);
    close(work.socket);
    return sum == 0;
}
