/* The messages of logical replication: those that PostgreSQL 15 wrote, and others that are written down here. What is due of
 * each is read off the bytes by the documentation of PostgreSQL, "Logical Replication Message Formats". */
#include "bytes_test_read.h"

#include <stdio.h>

#define LITERAL(literal) literal, sizeof(literal) - 1

#define LIST(list) list, sizeof list / sizeof *list

/* A list that is written down where it is passed. */
#define ITEMS(type, ...) (const type[]){__VA_ARGS__}, sizeof((const type[]){__VA_ARGS__}) / sizeof(type)
#define VALUES(...) ITEMS(pgmsg_datum_text, __VA_ARGS__)
#define TABLE(...) ITEMS(pgmsg_table_column_text, __VA_ARGS__)
#define NUMBERS(...) ITEMS(uint32_t, __VA_ARGS__)

/* The values of a row. */
#define TEXT(literal) {'t', BYTES(literal)}
#define BINARY(literal) {'b', BYTES(literal)}
#define NONE {'n', NULL, 0}
#define UNCHANGED {'u', NULL, 0}

/* More items than any of these lists has, and more bytes than any of these messages. */
enum { MOST = 8, ROOM = 96 };

/* A message, the content of the XLogData that it is, and whether it stands between a Stream Start and a Stream Stop. */
struct logical {
    pgmsg_logical_text message;
    const char *bytes;
    size_t len;
    bool is_streamed;
};

/* What pgoutput wrote, in the order of a slot, by the options proto_version 3, streaming and messages. */
static const struct logical written[] = {
    {{.letter = 'B', .transaction = 0x2dd, .lsn = 0x1553718, .clock = 0x30477e51d954b},
     LITERAL("B\0\0\0\0\1U7\30\0\3\4w\345\35\225K\0\0\2\335"), false},
    {{.letter = 'Y', .type_id = 0x4001, .schema = BYTES("public"), .name = BYTES("mood")},
     LITERAL("Y\0\0@\1public\0mood\0"), false},
    {{.letter = 'R', .relation = 0x4005, .schema = BYTES("public"), .name = BYTES("t"), .replica_identity = 'd',
      .columns = TABLE({1, BYTES("id"), 23, -1}, {0, BYTES("body"), 25, -1},
                       {0, BYTES("feeling"), 16385, -1}, {0, BYTES("note"), 25, -1})},
     LITERAL("R\0\0@\5public\0t\0d\0\4\1id\0\0\0\0\27\377\377\377\377\0body\0\0\0\0\31\377\377\377\377"
             "\0feeling\0\0\0@\1\377\377\377\377\0note\0\0\0\0\31\377\377\377\377"), false},
    {{.letter = 'I', .relation = 0x400c, .values = VALUES(BINARY("\0\0\0\1"), BINARY("b"))},
     LITERAL("I\0\0@\fN\0\2b\0\0\0\4\0\0\0\1b\0\0\0\1b"), false},
    {{.letter = 'U', .relation = 0x4005, .values = VALUES(TEXT("1"), UNCHANGED, TEXT("ok"), TEXT("n"))},
     LITERAL("U\0\0@\5N\0\4t\0\0\0\0011ut\0\0\0\2okt\0\0\0\1n"), false},
    {{.letter = 'U', .relation = 0x4005, .old_letter = 'K', .old_values = VALUES(TEXT("1"), NONE, NONE, NONE),
      .values = VALUES(TEXT("2"), UNCHANGED, TEXT("ok"), TEXT("n"))},
     LITERAL("U\0\0@\5K\0\4t\0\0\0\0011nnnN\0\4t\0\0\0\0012ut\0\0\0\2okt\0\0\0\1n"), false},
    {{.letter = 'D', .relation = 0x4005, .old_letter = 'K', .old_values = VALUES(TEXT("2"), NONE, NONE, NONE)},
     LITERAL("D\0\0@\5K\0\4t\0\0\0\0012nnn"), false},
    {{.letter = 'M', .flags = 1, .lsn = 0x1553718, .name = BYTES("pre"), .content = BYTES("con")},
     LITERAL("M\1\0\0\0\0\1U7\30pre\0\0\0\0\3con"), false},
    {{.letter = 'C', .lsn = 0x1553718, .end_lsn = 0x1553748, .clock = 0x30477e51d954b},
     LITERAL("C\0\0\0\0\0\1U7\30\0\0\0\0\1U7H\0\3\4w\345\35\225K"), false},
    {{.letter = 'M', .lsn = 0x1553788, .name = BYTES("pre2"), .content = BYTES("content2")},
     LITERAL("M\0\0\0\0\0\1U7\210pre2\0\0\0\0\10content2"), false},
    {{.letter = 'U', .relation = 0x400c, .old_letter = 'O', .old_values = VALUES(TEXT("1"), TEXT("b")),
      .values = VALUES(TEXT("1"), TEXT("c"))},
     LITERAL("U\0\0@\fO\0\2t\0\0\0\0011t\0\0\0\1bN\0\2t\0\0\0\0011t\0\0\0\1c"), false},
    {{.letter = 'D', .relation = 0x400c, .old_letter = 'O', .old_values = VALUES(TEXT("1"), TEXT("c"))},
     LITERAL("D\0\0@\fO\0\2t\0\0\0\0011t\0\0\0\1c"), false},
    {{.letter = 'T', .flags = 3, .relations = NUMBERS(0x4011, 0x4016)}, LITERAL("T\0\0\0\2\3\0\0@\21\0\0@\26"), false},
    {{.letter = 'O', .lsn = 0xaabbcc, .name = BYTES("far")}, LITERAL("O\0\0\0\0\0\252\273\314far\0"), false},
    {{.letter = 'b', .transaction = 0x2e5, .lsn = 0x1554af0, .end_lsn = 0x1554be8, .clock = 0x30477e51da5a9,
      .name = BYTES("gid1")}, LITERAL("b\0\0\0\0\1UJ\360\0\0\0\0\1UK\350\0\3\4w\345\35\245\251\0\0\2\345gid1\0"), false},
    {{.letter = 'P', .transaction = 0x2e5, .lsn = 0x1554af0, .end_lsn = 0x1554be8, .clock = 0x30477e51da5a9,
      .name = BYTES("gid1")}, LITERAL("P\0\0\0\0\0\1UJ\360\0\0\0\0\1UK\350\0\3\4w\345\35\245\251\0\0\2\345gid1\0"), false},
    {{.letter = 'K', .transaction = 0x2e5, .lsn = 0x1554be8, .end_lsn = 0x1554c20, .clock = 0x30477e51da5f4,
      .name = BYTES("gid1")}, LITERAL("K\0\0\0\0\0\1UK\350\0\0\0\0\1UL \0\3\4w\345\35\245\364\0\0\2\345gid1\0"), false},
    {{.letter = 'r', .transaction = 0x2e6, .end_lsn = 0x1554d98, .rollback_end_lsn = 0x1554dd0, .clock = 0x30477e51da695,
      .rollback_clock = 0x30477e51da6c9, .name = BYTES("gid2")},
     LITERAL("r\0\0\0\0\0\1UM\230\0\0\0\0\1UM\320\0\3\4w\345\35\246\225\0\3\4w\345\35\246\311\0\0\2\346gid2\0"), false},
    {{.letter = 'S', .transaction = 0x2e7, .is_first = true}, LITERAL("S\0\0\2\347\1"), false},
    {{.letter = 'R', .has_transaction = true, .transaction = 0x2e7, .relation = 0x4020, .schema = BYTES("public"),
      .name = BYTES("big"), .replica_identity = 'd', .columns = TABLE({1, BYTES("id"), 23, -1}, {0, BYTES("v"), 25, -1})},
     LITERAL("R\0\0\2\347\0\0@ public\0big\0d\0\2\1id\0\0\0\0\27\377\377\377\377\0v\0\0\0\0\31\377\377\377\377"), true},
    {{.letter = 'M', .has_transaction = true, .transaction = 0x2e7, .flags = 1, .lsn = 0x15a2470, .name = BYTES("streamed"),
      .content = BYTES("m")}, LITERAL("M\0\0\2\347\1\0\0\0\0\1Z$pstreamed\0\0\0\0\1m"), true},
    {{.letter = 'U', .has_transaction = true, .transaction = 0x2e9, .relation = 0x4020, .values = VALUES(TEXT("1"), TEXT("u"))},
     LITERAL("U\0\0\2\351\0\0@ N\0\2t\0\0\0\0011t\0\0\0\1u"), true},
    {{.letter = 'D', .has_transaction = true, .transaction = 0x2e9, .relation = 0x4020, .old_letter = 'K',
      .old_values = VALUES(TEXT("2"), NONE)}, LITERAL("D\0\0\2\351\0\0@ K\0\2t\0\0\0\0012n"), true},
    {{.letter = 'T', .has_transaction = true, .transaction = 0x2e9, .relations = NUMBERS(0x4016)},
     LITERAL("T\0\0\2\351\0\0\0\1\0\0\0@\26"), true},
    {{.letter = 'E'}, LITERAL("E"), true},
    {{.letter = 'A', .transaction = 0x2e7, .subtransaction = 0x2e8}, LITERAL("A\0\0\2\347\0\0\2\350"), false},
    {{.letter = 'c', .transaction = 0x2e7, .lsn = 0x15c9770, .end_lsn = 0x15c9848, .clock = 0x30477e51dd584},
     LITERAL("c\0\0\2\347\0\0\0\0\0\1\\\227p\0\0\0\0\1\\\230H\0\3\4w\345\35\325\204"), false},
    {{.letter = 'p', .transaction = 0x2eb, .lsn = 0x16170f8, .end_lsn = 0x16171f0, .clock = 0x30477e51dfa82,
      .name = BYTES("gid3")}, LITERAL("p\0\0\0\0\0\1ap\370\0\0\0\0\1aq\360\0\3\4w\345\35\372\202\0\0\2\353gid3\0"), false},
};

/* The value of an `n` or a `u` isn't looked at. */
static const pgmsg_datum_text row[] = {{'n', BYTES("xyz")}, TEXT("ab"), {'u', BYTES("x")}, BINARY("\0\1"), {'t', NULL, 0}};

static const pgmsg_datum_text key[] = {TEXT("7"), NONE};

static const pgmsg_table_column_text columns[] = {{1, BYTES("id"), 23, -1}, {255, NULL, 0, 0x80000001, INT32_MIN}};

static const uint32_t tables[] = {0x4011, 0x80000001};

#define ROW "\0\5" "n" "t\0\0\0\2ab" "u" "b\0\0\0\2\0\1" "t\0\0\0\0"

#define KEY "\0\2" "t\0\0\0\0017" "n"

#define COLUMNS "\0\2" "\1id\0" "\0\0\0\27" "\377\377\377\377" "\377\0" "\200\0\0\1" "\200\0\0\0"

#define TABLES "\0\0@\21" "\200\0\0\1"

/* Each part once more, as few as there may be, and numbers with the highest bit set; and each kind with each part that it has,
 * in a stream too where it may be in one. */
static const struct logical others[] = {
    {{.letter = 'B', .transaction = 0x80000001, .lsn = 0xfffffffffffffff8, .clock = -2},
     LITERAL("B\377\377\377\377\377\377\377\370\377\377\377\377\377\377\377\376\200\0\0\1"), false},
    {{.letter = 'c', .transaction = 1, .flags = 2, .lsn = 3, .end_lsn = 4, .clock = INT64_MIN},
     LITERAL("c\0\0\0\1\2\0\0\0\0\0\0\0\3\0\0\0\0\0\0\0\4\200\0\0\0\0\0\0\0"), false},
    {{.letter = 'C', .flags = 1, .lsn = 2, .end_lsn = 3, .clock = INT64_MAX},
     LITERAL("C\1\0\0\0\0\0\0\0\2\0\0\0\0\0\0\0\3\177\377\377\377\377\377\377\377"), false},
    {{.letter = 'K', .transaction = 5, .flags = 1, .lsn = 2, .end_lsn = 3, .clock = -1, .name = BYTES("\351")},
     LITERAL("K\1\0\0\0\0\0\0\0\2\0\0\0\0\0\0\0\3\377\377\377\377\377\377\377\377\0\0\0\5\351\0"), false},
    {{.letter = 'r', .transaction = 5, .flags = 1, .end_lsn = 2, .rollback_end_lsn = 3, .clock = -1,
      .rollback_clock = INT64_MIN},
     LITERAL("r\1\0\0\0\0\0\0\0\2\0\0\0\0\0\0\0\3\377\377\377\377\377\377\377\377\200\0\0\0\0\0\0\0\0\0\0\5\0"), false},
    {{.letter = 'M'}, LITERAL("M\0\0\0\0\0\0\0\0\0\0\0\0\0\0"), false},
    {{.letter = 'R', .relation = 1, .replica_identity = 'f'}, LITERAL("R\0\0\0\1\0\0f\0\0"), false},
    {{.letter = 'R', .relation = 1, .schema = BYTES("a"), .name = BYTES("bc"), .replica_identity = 'n',
      .columns = TABLE({255, NULL, 0, 0x80000001, INT32_MIN})},
     LITERAL("R\0\0\0\1a\0bc\0n\0\1\377\0\200\0\0\1\200\0\0\0"), false},
    {{.letter = 'I', .relation = 0x4005, .values = VALUES(NONE, UNCHANGED, TEXT("ab"), BINARY("\0"))},
     LITERAL("I\0\0@\5N\0\4nut\0\0\0\2abb\0\0\0\1\0"), false},
    {{.letter = 'U', .relation = 0x4005}, LITERAL("U\0\0@\5N\0\0"), false},
    {{.letter = 'U', .relation = 0x4005, .old_letter = 'O', .values = VALUES(TEXT(""))},
     LITERAL("U\0\0@\5O\0\0N\0\1t\0\0\0\0"), false},
    {{.letter = 'T', .flags = 1}, LITERAL("T\0\0\0\0\1"), false},
    {{.letter = 'S', .transaction = 0x80000001}, LITERAL("S\200\0\0\1\0"), false},
    {{.letter = 'Y', .has_transaction = true, .transaction = 1, .type_id = 2}, LITERAL("Y\0\0\0\1\0\0\0\2\0\0"), true},
    {{.letter = 'I', .has_transaction = true, .transaction = 1, .relation = 2, .values = VALUES(NONE)},
     LITERAL("I\0\0\0\1\0\0\0\2N\0\1n"), true},
    {{.letter = 'S', .transaction = 1}, LITERAL("S\0\0\0\1\0"), true},
    {{.letter = 'E'}, LITERAL("E"), false},
    {{.letter = 'B', .lsn = 0x102030405060708, .clock = -2, .transaction = 0x80000001},
     LITERAL("B" "\1\2\3\4\5\6\7\10" "\377\377\377\377\377\377\377\376" "\200\0\0\1"), false},
    {{.letter = 'M', .flags = 1, .lsn = 0xfffffffffffffff8, .name = BYTES("pre"), .content = BYTES("a\0b")},
     LITERAL("M" "\1" "\377\377\377\377\377\377\377\370" "pre\0" "\0\0\0\3" "a\0b"), false},
    {{.letter = 'C', .flags = 2, .lsn = 3, .end_lsn = 4, .clock = INT64_MIN},
     LITERAL("C" "\2" "\0\0\0\0\0\0\0\3" "\0\0\0\0\0\0\0\4" "\200\0\0\0\0\0\0\0"), false},
    {{.letter = 'O', .lsn = 0xaabbcc, .name = BYTES("far")}, LITERAL("O" "\0\0\0\0\0\252\273\314" "far\0"), false},
    {{.letter = 'R', .relation = 0x4005, .schema = BYTES("public"), .name = BYTES("t"), .replica_identity = 'd',
      .columns = LIST(columns)}, LITERAL("R" "\0\0@\5" "public\0" "t\0" "d" COLUMNS), false},
    {{.letter = 'R'}, LITERAL("R" "\0\0\0\0" "\0" "\0" "\0" "\0\0"), false},
    {{.letter = 'Y', .type_id = 0x4001, .schema = BYTES("\351"), .name = BYTES("mood")},
     LITERAL("Y" "\0\0@\1" "\351\0" "mood\0"), false},
    {{.letter = 'I', .relation = 0x4005, .values = LIST(row)}, LITERAL("I" "\0\0@\5" "N" ROW), false},
    {{.letter = 'I'}, LITERAL("I" "\0\0\0\0" "N" "\0\0"), false},
    {{.letter = 'U', .relation = 0x4005, .values = LIST(row)}, LITERAL("U" "\0\0@\5" "N" ROW), false},
    {{.letter = 'U', .relation = 0x4005, .old_letter = 'K', .old_values = LIST(key), .values = LIST(row)},
     LITERAL("U" "\0\0@\5" "K" KEY "N" ROW), false},
    {{.letter = 'U', .relation = 0x4005, .old_letter = 'O', .old_values = LIST(row), .values = LIST(key)},
     LITERAL("U" "\0\0@\5" "O" ROW "N" KEY), false},
    {{.letter = 'D', .relation = 0x4005, .old_letter = 'K', .old_values = LIST(key)}, LITERAL("D" "\0\0@\5" "K" KEY), false},
    {{.letter = 'D', .relation = 0x4005, .old_letter = 'O', .old_values = LIST(row)}, LITERAL("D" "\0\0@\5" "O" ROW), false},
    {{.letter = 'T', .flags = 3, .relations = LIST(tables)}, LITERAL("T" "\0\0\0\2" "\3" TABLES), false},
    {{.letter = 'T'}, LITERAL("T" "\0\0\0\0" "\0"), false},
    {{.letter = 'b', .lsn = 1, .end_lsn = 2, .clock = 3, .transaction = 4, .name = BYTES("gid")},
     LITERAL("b" "\0\0\0\0\0\0\0\1" "\0\0\0\0\0\0\0\2" "\0\0\0\0\0\0\0\3" "\0\0\0\4" "gid\0"), false},
    {{.letter = 'P', .flags = 9, .lsn = 1, .end_lsn = 2, .clock = 3, .transaction = 4, .name = BYTES("gid")},
     LITERAL("P" "\11" "\0\0\0\0\0\0\0\1" "\0\0\0\0\0\0\0\2" "\0\0\0\0\0\0\0\3" "\0\0\0\4" "gid\0"), false},
    {{.letter = 'K', .flags = 9, .lsn = 1, .end_lsn = 2, .clock = 3, .transaction = 4, .name = BYTES("gid")},
     LITERAL("K" "\11" "\0\0\0\0\0\0\0\1" "\0\0\0\0\0\0\0\2" "\0\0\0\0\0\0\0\3" "\0\0\0\4" "gid\0"), false},
    {{.letter = 'r', .flags = 9, .end_lsn = 1, .rollback_end_lsn = 2, .clock = 3, .rollback_clock = -1, .transaction = 4},
     LITERAL("r" "\11" "\0\0\0\0\0\0\0\1" "\0\0\0\0\0\0\0\2" "\0\0\0\0\0\0\0\3" "\377\377\377\377\377\377\377\377"
             "\0\0\0\4" "\0"), false},
    {{.letter = 'p', .flags = 9, .lsn = 1, .end_lsn = 2, .clock = 3, .transaction = 4, .name = BYTES("gid")},
     LITERAL("p" "\11" "\0\0\0\0\0\0\0\1" "\0\0\0\0\0\0\0\2" "\0\0\0\0\0\0\0\3" "\0\0\0\4" "gid\0"), false},
    {{.letter = 'c', .transaction = 4, .flags = 9, .lsn = 1, .end_lsn = 2, .clock = 3},
     LITERAL("c" "\0\0\0\4" "\11" "\0\0\0\0\0\0\0\1" "\0\0\0\0\0\0\0\2" "\0\0\0\0\0\0\0\3"), false},
    {{.letter = 'A', .transaction = 4, .subtransaction = 5}, LITERAL("A" "\0\0\0\4" "\0\0\0\5"), false},
    {{.letter = 'S', .transaction = 4}, LITERAL("S" "\0\0\0\4" "\0"), false},
    {{.letter = 'S', .transaction = 4, .is_first = true}, LITERAL("S" "\0\0\0\4" "\1"), false},
    {{.letter = 'M', .has_transaction = true, .transaction = 4}, LITERAL("M" "\0\0\0\4" "\0" "\0\0\0\0\0\0\0\0" "\0" "\0\0\0\0"), true},
    {{.letter = 'R', .has_transaction = true, .transaction = 4, .relation = 5, .name = BYTES("t"), .replica_identity = 'n',
      .columns = LIST(columns)}, LITERAL("R" "\0\0\0\4" "\0\0\0\5" "\0" "t\0" "n" COLUMNS), true},
    {{.letter = 'Y', .has_transaction = true, .transaction = 4, .type_id = 5}, LITERAL("Y" "\0\0\0\4" "\0\0\0\5" "\0" "\0"), true},
    {{.letter = 'I', .has_transaction = true, .transaction = 4, .relation = 5, .values = LIST(key)},
     LITERAL("I" "\0\0\0\4" "\0\0\0\5" "N" KEY), true},
    {{.letter = 'U', .has_transaction = true, .transaction = 4, .relation = 5, .old_letter = 'K', .old_values = LIST(key),
      .values = LIST(row)}, LITERAL("U" "\0\0\0\4" "\0\0\0\5" "K" KEY "N" ROW), true},
    {{.letter = 'D', .has_transaction = true, .transaction = 4, .relation = 5, .old_letter = 'O', .old_values = LIST(key)},
     LITERAL("D" "\0\0\0\4" "\0\0\0\5" "O" KEY), true},
    {{.letter = 'T', .has_transaction = true, .transaction = 4, .flags = 1, .relations = LIST(tables)},
     LITERAL("T" "\0\0\0\4" "\0\0\0\2" "\1" TABLES), true},
};

static bool is_span(pgmsg_span found, size_t at, size_t len)
{
    return found.at == at && found.len == len;
}

static bool is_list(pgmsg_list found, size_t at, size_t count)
{
    return found.at == at && found.count == count;
}

/* Whether the numbers of a message are those that are due. */
static bool has_numbers(const pgmsg_logical *read, const pgmsg_logical_text *due)
{
    return read->letter == due->letter
        && read->has_transaction == (due->has_transaction || strchr("BbPKrpcAS", due->letter) != NULL)
        && read->transaction == due->transaction && read->subtransaction == due->subtransaction && read->flags == due->flags
        && read->is_first == due->is_first && read->lsn == due->lsn && read->end_lsn == due->end_lsn
        && read->rollback_end_lsn == due->rollback_end_lsn && read->clock == due->clock
        && read->rollback_clock == due->rollback_clock && read->relation == due->relation && read->type_id == due->type_id
        && read->replica_identity == due->replica_identity && read->old_letter == due->old_letter;
}

/* A place in a message, which moves past each part that is found at it. The parts stand in the documentation's order. */
struct place {
    const struct logical *sample;
    size_t at;
};

/* The place of the first part that may have any length, in the kinds that have one. */
static struct place front_of(const struct logical *sample)
{
    static const char kinds[] = "RYMObPKrpTIUD";
    static const uint8_t fronts[] = {5, 5, 10, 9, 29, 30, 30, 38, 30, 6, 8, 8, 8};
    const char *kind = strchr(kinds, sample->message.letter);
    size_t streamed = sample->message.has_transaction ? 4 : 0;
    return (struct place){sample, kind == NULL ? 0 : fronts[kind - kinds] + streamed};
}

/* Whether a text is at the place, of the kinds that have one. */
static bool finds_text(struct place *place, const char *kinds, pgmsg_span span, const uint8_t *text, size_t len)
{
    size_t at = place->at;
    if (strchr(kinds, place->sample->message.letter) == NULL)
        return is_span(span, 0, 0);
    place->at += len + 1;
    return is_span(span, at, len) && (len == 0 || memcmp(place->sample->bytes + at, text, len) == 0);
}

/* Whether values are those that begin at the place. */
static bool finds_values(struct place *place, const pgmsg_datum *read, const pgmsg_datum_text *due, size_t count)
{
    bool are_found = true;
    for (size_t i = 0; i < count; i++) {
        bool has_bytes = strchr("tb", due[i].kind) != NULL;
        size_t at = has_bytes ? place->at + 5 : 0, len = has_bytes ? due[i].value_len : 0;
        are_found = are_found && read[i].kind == due[i].kind && is_span(read[i].value, at, len)
                 && (len == 0 || memcmp(place->sample->bytes + at, due[i].value, len) == 0);
        place->at = has_bytes ? at + len : place->at + 1;
    }
    return are_found;
}

/* Whether the row of a message that has one is at the place: as its list is read, and as it was given, where it is a new one. */
static bool finds_row(struct place *place, bool has_one, pgmsg_list list, const pgmsg_datum_text *due, size_t count,
                      const pgmsg_datum *given)
{
    struct place again = *place;
    pgmsg_datum values[MOST];
    pgmsg_fault fault;
    if (!has_one)
        return is_list(list, 0, 0);
    return is_list(list, place->at, count)
        && pgmsg_read_tuple((const uint8_t *)place->sample->bytes, place->sample->len, list, values, MOST, &fault)
               == (ptrdiff_t)count
        && finds_values(place, values, due, count) && (given == NULL || finds_values(&again, given, due, count));
}

/* Whether the columns of a table are read by their list as they are after its replica identity and their count. */
static bool finds_columns(struct place place, pgmsg_list list)
{
    const pgmsg_table_column_text *due = place.sample->message.columns;
    size_t count = place.sample->message.columns_len;
    const uint8_t *content = (const uint8_t *)place.sample->bytes;
    pgmsg_table_column read[MOST];
    pgmsg_fault fault;
    if (place.sample->message.letter != 'R')
        return is_list(list, 0, 0);
    place.at += 3;
    bool are_found = is_list(list, place.at, count)
        && pgmsg_read_table_columns(content, place.sample->len, list, read, MOST, &fault) == (ptrdiff_t)count;
    for (size_t i = 0; i < count && are_found; i++) {
        place.at++;
        are_found = finds_text(&place, "R", read[i].name, due[i].name, due[i].name_len) && read[i].flags == due[i].flags
                 && read[i].type_id == due[i].type_id && read[i].type_modifier == due[i].type_modifier;
        place.at += 8;
    }
    return are_found;
}

/* Whether the numbers of the tables of a Truncate are read by their list. */
static bool finds_tables(struct place place, pgmsg_list list)
{
    size_t count = place.sample->message.relations_len;
    uint32_t read[MOST];
    return is_list(list, place.sample->message.letter == 'T' ? place.at : 0, count)
        && pgmsg_read_types((const uint8_t *)place.sample->bytes, place.sample->len, list, read, MOST) == count
        && (count == 0 || memcmp(read, place.sample->message.relations, count * sizeof *read) == 0);
}

/* Reads a message and its lists. */
static void test_read_one(struct tally *tally, const struct logical *sample, bool *streamed)
{
    const pgmsg_logical_text *due = &sample->message;
    struct place place = front_of(sample);
    pgmsg_datum values[MOST];
    pgmsg_logical read;
    pgmsg_fault fault;
    memset(values, UNTOUCHED, sizeof values);
    memset(&read, UNTOUCHED, sizeof read);
    memset(&fault, UNTOUCHED, sizeof fault);
    ptrdiff_t count = pgmsg_read_logical((const uint8_t *)sample->bytes, sample->len, streamed, values, MOST, &read, &fault);
    CHECK(tally, count == (ptrdiff_t)due->values_len);
    CHECK(tally, are_untouched(values + due->values_len, (MOST - due->values_len) * sizeof *values));
    CHECK(tally, has_numbers(&read, due) && are_untouched(&fault, sizeof fault));
    CHECK(tally, *streamed == (read.letter == 'S' || (sample->is_streamed && read.letter != 'E')));
    CHECK(tally, finds_text(&place, "RY", read.schema, due->schema, due->schema_len));
    CHECK(tally, finds_text(&place, "RYMObPKrp", read.name, due->name, due->name_len));
    CHECK(tally, finds_columns(place, read.columns));
    CHECK(tally, finds_tables(place, read.relations));
    CHECK(tally, finds_row(&place, due->old_letter != 0, read.old_row, due->old_values, due->old_values_len, NULL));
    place.at += due->old_letter != 0 ? 3 : due->letter == 'M' ? 4 : 0;
    CHECK(tally, finds_text(&place, "M", read.content, due->content, due->content_len));
    CHECK(tally, finds_row(&place, strchr("IU", due->letter) != NULL, read.new_row, due->values, due->values_len, values));
}

/* Reads what is cut off of a message, or too much: a refusal leaves alone what it doesn't say. */
static void test_cut(struct tally *tally, const struct logical *sample)
{
    pgmsg_datum values[MOST];
    pgmsg_logical read;
    pgmsg_fault fault;
    bool streamed = sample->is_streamed;
    memset(&read, UNTOUCHED, sizeof read);
    for (size_t cut = 0; cut < sample->len; cut++) {
        ptrdiff_t answer = pgmsg_read_logical((const uint8_t *)sample->bytes, cut, &streamed, values, MOST, &read, &fault);
        CHECK(tally, answer == PGMSG_SHORT || answer == PGMSG_MISSING_NUL);
        CHECK(tally, fault.number == answer && fault.at <= cut && are_untouched(&read, sizeof read));
    }
    uint8_t more[256] = {0};
    memcpy(more, sample->bytes, sample->len);
    CHECK(tally, pgmsg_read_logical(more, sample->len + 1, &streamed, values, MOST, &read, &fault) == PGMSG_TRAILING_BYTES);
    CHECK(tally, fault.at == sample->len);
    CHECK(tally, streamed == sample->is_streamed && are_untouched(&read, sizeof read));
}

/* Every letter, by its shortest message outside of a stream. */
static void test_letters(struct tally *tally)
{
    static const char letters[] = "BMCORYIUDTSEcAbPKrp";
    static const uint8_t shortest[] = {21, 15, 26, 10, 10, 7, 8, 8, 8, 6, 6, 1, 30, 9, 30, 31, 31, 39, 31};
    for (int letter = 0; letter < 256; letter++) {
        uint8_t bytes[40] = {(uint8_t)letter, 0, 0, 0, 0, letter == 'D' ? 'K' : letter == 'I' || letter == 'U' ? 'N' : 0};
        const char *known = letter == 0 ? NULL : strchr(letters, letter);
        size_t len = known ? shortest[known - letters] : sizeof bytes;
        bool streamed = false;
        pgmsg_logical read = {0};
        pgmsg_fault fault;
        CHECK(tally, pgmsg_read_logical(bytes, len, &streamed, NULL, 0, &read, &fault) == (known ? 0 : PGMSG_UNKNOWN_MESSAGE_TYPE));
        CHECK(tally, read.letter == (known ? letter : 0) && streamed == (letter == 'S'));
    }
}

/* Rooms for fewer and for more items than there are. */
static void test_rooms_of_lists(struct tally *tally)
{
    const uint8_t *row = (const uint8_t *)"nt\0\0\0\1au";
    const uint8_t *table = (const uint8_t *)"\1a\0\0\0\0\2\0\0\0\3\0b\0\0\0\0\4\0\0\0\5";
    pgmsg_fault fault;
    for (size_t room = 0; room <= 4; room++) {
        pgmsg_datum values[4];
        pgmsg_table_column columns[4];
        size_t given = room < 3 ? room : 3, named = room < 2 ? room : 2;
        memset(values, UNTOUCHED, sizeof values);
        memset(columns, UNTOUCHED, sizeof columns);
        CHECK(tally, pgmsg_read_tuple(row, 8, (pgmsg_list){0, 3}, values, room, &fault) == 3);
        CHECK(tally, are_untouched(values + given, (4 - given) * sizeof *values));
        CHECK(tally, given < 2 || (values[1].kind == 't' && values[1].value.at == 6 && values[1].value.len == 1));
        CHECK(tally, pgmsg_read_table_columns(table, 22, (pgmsg_list){0, 2}, columns, room, &fault) == 2);
        CHECK(tally, are_untouched(columns + named, (4 - named) * sizeof *columns));
        CHECK(tally, named < 2 || (columns[1].flags == 0 && columns[1].name.at == 12 && columns[1].type_modifier == 5));
    }
}

/* Rooms for fewer and for more values than a new row has, after the number of its table and after an old row. */
static void test_rooms_of_new_rows(struct tally *tally)
{
    static const struct {
        const char *bytes;
        size_t len, text_at;
    } messages[] = {
        {LITERAL("I\0\0@\5N\0\3nt\0\0\0\1au"), 14},
        {LITERAL("U\0\0@\5N\0\3nt\0\0\0\1au"), 14},
        {LITERAL("U\0\0@\5K\0\1nN\0\3nt\0\0\0\1au"), 18},
    };
    for (size_t i = 0; i < sizeof messages / sizeof *messages; i++)
        for (size_t room = 0; room <= 4; room++) {
            bool streamed = false;
            pgmsg_datum values[4];
            pgmsg_logical read;
            pgmsg_fault fault;
            size_t given = room < 3 ? room : 3;
            memset(values, UNTOUCHED, sizeof values);
            CHECK(tally, pgmsg_read_logical((const uint8_t *)messages[i].bytes, messages[i].len, &streamed,
                                            room == 0 ? NULL : values, room, &read, &fault) == 3);
            CHECK(tally, read.new_row.count == 3 && are_untouched(values + given, (4 - given) * sizeof *values));
            CHECK(tally, given < 2 || (values[1].kind == 't' && values[1].value.at == messages[i].text_at && values[1].value.len == 1));
            CHECK(tally, given < 3 || (values[0].kind == 'n' && values[2].kind == 'u'));
        }
}

/* Of a new row, the values before the one that is broken are given, and all where bytes follow the last. */
static void test_fronts_of_new_rows(struct tally *tally)
{
    bool streamed = false;
    pgmsg_datum values[3];
    pgmsg_logical read;
    memset(values, UNTOUCHED, sizeof values);
    memset(&read, UNTOUCHED, sizeof read);
    REFUSES(tally, PGMSG_UNKNOWN_LETTER, 0, "unknown letter: 120",
            pgmsg_read_logical(BYTES("I\0\0@\5N\0\2ux"), &streamed, values, 3, &read, &fault));
    CHECK(tally, values[0].kind == 'u' && are_untouched(values + 1, 2 * sizeof *values) && are_untouched(&read, sizeof read));
    REFUSES(tally, PGMSG_SHORT, 15, "expected 1 bytes at offset 15, got 0",
            pgmsg_read_logical(BYTES("U\0\0@\5N\0\3t\0\0\0\1an"), &streamed, values, 1, &read, &fault));
    CHECK(tally, values[0].kind == 't' && are_untouched(values + 1, 2 * sizeof *values) && are_untouched(&read, sizeof read));
    REFUSES(tally, PGMSG_TRAILING_BYTES, 10, "expected the end of the message at offset 10",
            pgmsg_read_logical(BYTES("I\0\0@\5N\0\2nun"), &streamed, values, 3, &read, &fault));
    CHECK(tally, values[0].kind == 'n' && values[1].kind == 'u' && are_untouched(&read, sizeof read));
}

/* Lists that aren't in the bytes. */
static void test_refused_lists(struct tally *tally)
{
    pgmsg_datum values[2];
    pgmsg_table_column columns[2];
    memset(values, UNTOUCHED, sizeof values);
    REFUSES(tally, PGMSG_SHORT, 4, "expected 1 bytes at offset 4, got 0",
            pgmsg_read_tuple(BYTES("nnn"), (pgmsg_list){4, 1}, values, 2, &fault));
    REFUSES(tally, PGMSG_SHORT, SIZE_MAX, "expected 18446744073709551615 bytes at offset 18446744073709551615, got 0",
            pgmsg_read_tuple(BYTES("nnn"), (pgmsg_list){SIZE_MAX, SIZE_MAX}, values, 2, &fault));
    REFUSES(tally, PGMSG_SHORT, 1, "expected 3 bytes at offset 1, got 2",
            pgmsg_read_tuple(BYTES("nnn"), (pgmsg_list){1, 3}, values, 2, &fault));
    CHECK(tally, are_untouched(values, sizeof values));
    REFUSES(tally, PGMSG_UNKNOWN_LETTER, 0, "unknown letter: 120",
            pgmsg_read_tuple(BYTES("ux"), (pgmsg_list){0, 2}, values, 2, &fault));
    CHECK(tally, values[0].kind == 'u' && are_untouched(values + 1, sizeof *values));
    memset(columns, UNTOUCHED, sizeof columns);
    REFUSES(tally, PGMSG_MISSING_NUL, 12, "expected NUL after offset 12",
            pgmsg_read_table_columns(BYTES("\1a\0\0\0\0\2\0\0\0\3\0b"), (pgmsg_list){0, 2}, columns, 2, &fault));
    CHECK(tally, columns[0].type_id == 2 && are_untouched(columns + 1, sizeof *columns));
    CHECK(tally, pgmsg_read_tuple(BYTES("nnn"), (pgmsg_list){3, 0}, values, 2, NULL) == 0);
}

/* Reads and writes a message. */
static void test_one(struct tally *tally, const struct logical *sample, bool *streamed)
{
    unsigned failed = tally->failed;
    CHECK(tally, *streamed == sample->is_streamed);
    test_read_one(tally, sample, streamed);
    test_cut(tally, sample);
    CHECK(tally, sample->len <= ROOM);
    FITS_ROOMS(tally, ROOM, sample->bytes, sample->len, pgmsg_put_logical(&sample->message, out, room));
    if (tally->failed > failed)
        fprintf(stderr, "logical %c of %zu bytes\n", sample->message.letter, sample->len);
}

void test_logical(struct tally *tally)
{
    bool streamed = false;
    for (size_t i = 0; i < sizeof written / sizeof *written; i++)
        test_one(tally, &written[i], &streamed);
    for (size_t i = 0; i < sizeof others / sizeof *others; i++) {
        streamed = others[i].is_streamed;
        test_one(tally, &others[i], &streamed);
    }
    test_letters(tally);
    test_rooms_of_lists(tally);
    test_rooms_of_new_rows(tally);
    test_fronts_of_new_rows(tally);
    test_refused_lists(tally);
}
