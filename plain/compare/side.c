/* The calls of the library that this is linked with, which give what they read into room that is compared. */
#include "side.h"

#include "layouts.h"
#include "readers.h"

#undef ONE
#undef ITEMS
#undef SECOND
#define ONE(type) (type *)room_of(sizeof(type), 1, &layout_##type)
#define ITEMS(type) (type *)room_of(sizeof(type), items_room(), &layout_##type), items_room()
#define SECOND (uint8_t *)room_of(1, items_room(), &layout_uint8_t), items_room()

#include "readers.c"
#include "writers.h"

#define READ_ROW(name, call) {#name, read_##name},

static const struct read_call reads[] = {READS(READ_ROW)};

CALLS(WRITER)

#define WRITE_ROW(name, arguments) {#name, put_##name},

static const struct write_call writes[] = {CALLS(WRITE_ROW)};

const struct side side = {reads, sizeof reads / sizeof *reads, writes, sizeof writes / sizeof *writes};
