/* Compares two libraries call by call: what they write of random messages, and what they read of random bodies, of bodies that
 * were recorded, of messages that were written, and of those with changes, by each call.
 *
 *     compare SECONDS|MESSAGES SEED < RECORDED
 *
 * The first word says how long it runs, as 60s, or how many messages it takes. RECORDED has a line of hexadecimal digits for
 * each recorded body. */
#include "bodies.h"
#include "inputs.h"
#include "random.h"
#include "side.h"

#include <stdio.h>
#include <stdlib.h>
#include <string.h>
#include <time.h>

enum { OUT = 1 << 22, ROOM = 1 << 16, MOST_ROOMS = 4, UNTOUCHED = 1 };

/* What a call gave into room of its own. */
struct given {
    size_t used, count;
    _Alignas(16) uint8_t room[ROOM];
    struct {
        const uint8_t *at;
        size_t size, count;
        const struct layout *layout;
    } rooms[MOST_ROOMS];
    pgmsg_fault fault;
    ptrdiff_t answer;
};

static struct given proved, plain, *current;
static size_t items;

size_t items_room(void)
{
    return items;
}

void *room_for_one(size_t size)
{
    return room_of(1, size, NULL);
}

/* What no call asks for here, since each says the type of what it is given. */
void *room_for_items(size_t size)
{
    return room_of(size, items, NULL);
}

uint8_t *room_for_bytes(void)
{
    return room_of(1, items, NULL);
}

void *room_of(size_t size, size_t count, const struct layout *layout)
{
    uint8_t *at = current->room + current->used;
    current->used += (size * count + 15) / 16 * 16;
    if (current->used > ROOM || current->count == MOST_ROOMS)
        abort();
    current->rooms[current->count].at = at;
    current->rooms[current->count].size = size;
    current->rooms[current->count].count = layout ? count : 0;
    current->rooms[current->count++].layout = layout;
    return at;
}

static void read_into(struct given *given, const struct read_call *call, const struct body_bytes *body)
{
    current = given;
    memset(given->room, UNTOUCHED, given->used);
    memset(&given->fault, UNTOUCHED, sizeof given->fault);
    given->used = given->count = 0;
    given->answer = call->read(body->bytes, body->len, &given->fault);
}

static bool is_same_fault(void)
{
    const pgmsg_fault *one = &proved.fault, *other = &plain.fault;
    return one->number == other->number && one->at == other->at && one->words_len == other->words_len
        && memcmp(one->words, other->words, sizeof one->words) == 0;
}

static bool is_same_room(size_t index)
{
    const struct layout *layout = proved.rooms[index].layout;
    size_t size = proved.rooms[index].size;
    for (size_t item = 0; item < proved.rooms[index].count; item++) {
        for (size_t place = 0; place < layout->count; place++) {
            size_t at = item * size + layout->places[place].at;
            if (memcmp(proved.rooms[index].at + at, plain.rooms[index].at + at, layout->places[place].size) != 0)
                return false;
        }
    }
    return true;
}

static void end_for(const char *what, const char *name, const struct body_bytes *body, ptrdiff_t one, ptrdiff_t other)
{
    printf("%s of %s: %td by the proved library, %td by the plain one, of %zu bytes:", what, name, one, other, body->len);
    for (size_t i = 0; i < body->len && i < 4096; i++)
        printf(" %02x", body->bytes[i]);
    puts("");
    exit(1);
}

/* Has a body read by each call, into room for as many items. */
static void compare_reads(const struct body_bytes *body)
{
    items = below(8) ? below(8) : below(200);
    for (size_t call = 0; call < proved_side.reads_len; call++) {
        read_into(&proved, &proved_side.reads[call], body);
        read_into(&plain, &plain_side.reads[call], body);
        bool is_same = proved.answer == plain.answer && proved.count == plain.count && is_same_fault();
        for (size_t room = 0; is_same && room < proved.count; room++)
            is_same = is_same_room(room);
        if (!is_same)
            end_for("a read", proved_side.reads[call].name, body, proved.answer, plain.answer);
    }
}

/* Has a message written by one call into as much room, which is long enough at most times: the message. */
static struct body_bytes compare_write(void)
{
    static uint8_t outs[2][OUT];
    const struct inputs *in = random_inputs();
    size_t call = below(proved_side.writes_len), room = once_in(4) ? below(64) : OUT;
    size_t touched = room < 128 ? 128 : 0;
    memset(outs[0], UNTOUCHED, touched);
    memset(outs[1], UNTOUCHED, touched);
    ptrdiff_t one = proved_side.writes[call].put(in, outs[0], room), other = plain_side.writes[call].put(in, outs[1], room);
    size_t len = one >= 0 && (size_t)one <= room ? (size_t)one : 0;
    struct body_bytes message = {outs[0], len};
    if (one != other || memcmp(outs[0], outs[1], len > touched ? len : touched) != 0)
        end_for("a write", proved_side.writes[call].name, &message, one, other);
    return message;
}

/* Whether a run of so many seconds or messages goes on. */
static bool goes_on(const char *limit, time_t begun, size_t done)
{
    char *end;
    unsigned long most = strtoul(limit, &end, 10);
    return *end == 's' ? time(NULL) - begun < (time_t)most : done < most;
}

int main(int argc, char **argv)
{
    if (argc != 3) {
        fputs("usage: compare SECONDS|MESSAGES SEED\n", stderr);
        return 2;
    }
    seed_random(strtoul(argv[2], NULL, 10));
    read_recorded(stdin);
    time_t begun = time(NULL);
    size_t done = 0;
    for (; goes_on(argv[1], begun, done); done++) {
        struct body_bytes written = compare_write();
        keep_written(&written);
        struct body_bytes body = next_body();
        compare_reads(&body);
    }
    printf("%zu messages written, and as many bodies read by each of %zu calls, alike\n", done, proved_side.reads_len);
    return 0;
}
