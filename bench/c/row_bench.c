/* How long pgmsg_read_row takes for a row, beside C that is written by hand and tests every bound. Prints a
 * line for each shape of a row. */
#include "pg_message.h"
#include "turns.h"

#include <stdio.h>
#include <stdlib.h>
#include <string.h>

enum { MOST_CELLS = 1664, CELLS_A_ROUND = 500000, BODY_ROOM = 65536 };

struct shape {
    int cells;
    int len; /* of each cell, in bytes */
};

/* Reads a row into the same array as the library, and refuses the same rows. */
static ptrdiff_t read_by_hand(const uint8_t *body, size_t body_len, pgmsg_cell *cells, size_t cells_len)
{
    if (body_len < 2)
        return PGMSG_SHORT;
    size_t count = (size_t)body[0] << 8 | body[1], at = 2;
    for (size_t i = 0; i < count; i++) {
        if (body_len - at < 4)
            return PGMSG_SHORT;
        int32_t len = (int32_t)((uint32_t)body[at] << 24 | (uint32_t)body[at + 1] << 16
                                | (uint32_t)body[at + 2] << 8 | body[at + 3]);
        at += 4;
        if (len >= 0 && body_len - at < (size_t)len)
            return PGMSG_SHORT;
        if (i < cells_len)
            cells[i] = (pgmsg_cell){.at = (uint32_t)at, .len = len < 0 ? -1 : len};
        if (len >= 0)
            at += (size_t)len;
    }
    return (ptrdiff_t)count;
}

static ptrdiff_t read_by_library(const uint8_t *body, size_t body_len, pgmsg_cell *cells, size_t cells_len)
{
    pgmsg_fault fault;
    return pgmsg_read_row(body, body_len, cells, cells_len, &fault);
}

typedef ptrdiff_t reader(const uint8_t *body, size_t body_len, pgmsg_cell *cells, size_t cells_len);

struct row {
    uint8_t body[BODY_ROOM];
    size_t len;
};

static uint64_t read_often(reader *volatile read, const struct row *row, int times)
{
    static pgmsg_cell cells[MOST_CELLS];
    uint64_t sum = 0;
    for (int i = 0; i < times; i++) {
        ptrdiff_t count = read(row->body, row->len, cells, MOST_CELLS);
        if (count <= 0) {
            fprintf(stderr, "a row is refused\n");
            exit(1);
        }
        sum += cells[count - 1].at;
    }
    return sum;
}

TIMED(by_library, read_often(read_by_library, what, times))
TIMED(by_hand, read_often(read_by_hand, what, times))

/* Writes the body of a row, and answers its length. */
static size_t write_row(uint8_t *body, const struct shape *shape)
{
    size_t at = 2;
    body[0] = (uint8_t)(shape->cells >> 8);
    body[1] = (uint8_t)shape->cells;
    for (int i = 0; i < shape->cells; i++) {
        memset(body + at, 0, 4);
        body[at + 2] = (uint8_t)(shape->len >> 8);
        body[at + 3] = (uint8_t)shape->len;
        memset(body + at + 4, 'x', (size_t)shape->len);
        at += 4 + (size_t)shape->len;
    }
    return at;
}

static uint64_t measure(const struct shape *shape)
{
    static struct row row;
    uint64_t sum = 0;
    row.len = write_row(row.body, shape);
    struct turns of = take_turns(by_library, by_hand, &row, CELLS_A_ROUND / shape->cells, &sum);
    print_turns(of, 1, "C by hand", "read %d cells of %d bytes", shape->cells, shape->len);
    return sum;
}

int main(void)
{
    static const struct shape shapes[] = {{5, 8}, {50, 8}, {50, 200}, {1000, 8}};
    uint64_t sum = 0;
    for (size_t i = 0; i < sizeof shapes / sizeof *shapes; i++)
        sum += measure(&shapes[i]);
    return sum == 0;
}
