/* Messages from the server. */
#include "bytes_test_read.h"

bool is_at(const void *body, pgmsg_span span, const char *text)
{
    return are_bytes((const uint8_t *)body + span.at, span.len, text, strlen(text));
}

bool is_fault_of(const pgmsg_fault *fault, int32_t number, size_t at, const char *words)
{
    size_t len = strlen(words);
    return fault->number == number && fault->at == at && are_bytes(fault->words, fault->words_len, words, len)
        && are_untouched(fault->words + len, sizeof fault->words - len);
}

/* Whether a fault has this number and place, and no words, for which there is no memory. */
static bool is_fault(const pgmsg_fault *fault, int32_t number, size_t at)
{
    return fault->number == number && fault->at == at && fault->words_len == 0;
}

static void test_frames(struct tally *tally)
{
    pgmsg_frame frame = {7, {8, 9}, 10};
    pgmsg_fault fault;
    CHECK(tally, pgmsg_next_frame(NULL, 0, &frame, &fault) == 0 && frame.tag == 7 && frame.length == 5);
    CHECK(tally, pgmsg_next_frame(BYTES("v\0\0\0"), &frame, &fault) == 0 && frame.tag == 'v' && frame.length == 5);
    CHECK(tally, pgmsg_next_frame(BYTES("w\0\0\1\0a"), &frame, &fault) == 0 && frame.tag == 'w');
    CHECK(tally, frame.length == 257 && frame.body.at == 8 && frame.body.len == 9);
    CHECK(tally, pgmsg_next_frame(BYTES("Z\0\0\0\5IZ\0"), &frame, &fault) == 1);
    CHECK(tally, frame.tag == 'Z' && frame.length == 6 && frame.body.at == 5 && frame.body.len == 1);
    CHECK(tally, pgmsg_next_frame(BYTES("\0\0\0\0\4"), &frame, &fault) == 1);
    CHECK(tally, frame.tag == 0 && frame.length == 5 && frame.body.len == 0);
    CHECK(tally, pgmsg_next_frame(BYTES("v\0\0\0\3"), &frame, &fault) == PGMSG_BAD_LENGTH && frame.tag == 0);
    CHECK(tally, pgmsg_next_frame(BYTES("Z\377\377\377\377"), &frame, &fault) == PGMSG_BAD_LENGTH);
}

/* Whether a frame has this tag, and a body of so many bytes at this place. */
static bool is_frame(const pgmsg_frame *frame, uint8_t tag, size_t at, size_t len)
{
    return frame->tag == tag && frame->body.at == at && frame->body.len == len && frame->length == len + 5;
}

/* Three messages, of which fewer are whole or have room, and a length that is too small at the front and after them. */
static void test_many_frames(struct tally *tally)
{
    static const char stream[] = "D\0\0\0\6ab" "1\0\0\0\4" "Z\0\0\0\5I";
    static const size_t ends[] = {0, 7, 12, 18};
    for (size_t len = 0; len < sizeof stream; len++) {
        for (size_t room = 0; room <= 4; room++) {
            size_t due = 0;
            while (due < 3 && due < room && ends[due + 1] <= len)
                due++;
            pgmsg_frame frames[4];
            pgmsg_fault fault;
            memset(frames, UNTOUCHED, sizeof frames);
            memset(&fault, UNTOUCHED, sizeof fault);
            CHECK(tally, pgmsg_next_frames((const uint8_t *)stream, len, frames, room, &fault) == (ptrdiff_t)due);
            CHECK(tally, due < 1 || is_frame(&frames[0], 'D', 5, 2));
            CHECK(tally, due < 2 || is_frame(&frames[1], '1', 12, 0));
            CHECK(tally, due < 3 || is_frame(&frames[2], 'Z', 17, 1));
            CHECK(tally, are_untouched(&frames[due], (4 - due) * sizeof *frames) && are_untouched(&fault, sizeof fault));
        }
    }
    pgmsg_frame frames[2] = {{7, {8, 9}, 10}, {7, {8, 9}, 10}};
    pgmsg_fault fault;
    CHECK(tally, pgmsg_next_frames(BYTES("1\0\0\0\4Z\0\0\0\3"), frames, 2, &fault) == 1 && frames[1].tag == 7);
    CHECK(tally, pgmsg_next_frames(BYTES("Z\0\0\0\3"), frames + 1, 1, &fault) == PGMSG_BAD_LENGTH && frames[1].tag == 7);
    CHECK(tally, is_fault(&fault, PGMSG_BAD_LENGTH, 0));
    CHECK(tally, pgmsg_next_frames(BYTES("Z\0\0\0\3"), NULL, 0, &fault) == 0);
    CHECK(tally, pgmsg_next_frames(NULL, 0, frames, 2, &fault) == 0);
}

static void test_rows(struct tally *tally)
{
    static const char body[] = "\0\3" "\0\0\0\2" "ab" "\377\377\377\377" "\0\0\0\0";
    pgmsg_cell cells[4];
    pgmsg_fault fault;
    memset(cells, 0xaa, sizeof cells);
    pgmsg_cell untouched = cells[3];
    CHECK(tally, pgmsg_read_row(BYTES(body), cells, 4, &fault) == 3);
    CHECK(tally, cells[0].len == 2 && memcmp(body + cells[0].at, "ab", 2) == 0);
    CHECK(tally, cells[1].len == -1 && cells[1].at == 12);
    CHECK(tally, cells[2].len == 0 && cells[2].at == sizeof body - 1);
    CHECK(tally, memcmp(&cells[3], &untouched, sizeof untouched) == 0);
    cells[2] = untouched;
    CHECK(tally, pgmsg_read_row(BYTES(body), cells, 2, &fault) == 3);
    CHECK(tally, memcmp(&cells[2], &untouched, sizeof untouched) == 0);
    CHECK(tally, pgmsg_read_row(BYTES(body), cells, 0, &fault) == 3);
    CHECK(tally, pgmsg_read_row(BYTES("\0\0"), cells, 4, &fault) == 0);
    CHECK(tally, pgmsg_read_row(BYTES(""), cells, 4, &fault) == PGMSG_SHORT && is_fault(&fault, PGMSG_SHORT, 0));
    /* Cells without room are read too. */
    CHECK(tally, pgmsg_read_row(BYTES("\0\2" "\0\0\0\0" "\0\0\0\1"), cells, 1, &fault) == PGMSG_SHORT);
}

static void test_columns(struct tally *tally)
{
    static const char body[] = "\0\2" "\351d\0" "\0\0\100\1" "\0\1" "\0\0\0\27" "\0\4" "\377\377\377\377" "\0\0"
                               "n\0" "\0\0\0\0" "\0\0" "\0\0\0\31" "\377\377" "\0\0\0\24" "\0\1";
    pgmsg_column columns[2], untouched;
    pgmsg_fault fault;
    CHECK(tally, pgmsg_read_columns(BYTES(body), columns, 2, &fault) == 2);
    CHECK(tally, is_at(body, columns[0].name, "\351d") && is_at(body, columns[1].name, "n"));
    CHECK(tally, columns[0].table == 16385 && columns[0].attribute == 1);
    CHECK(tally, columns[0].type_id == 23 && columns[0].type_size == 4);
    CHECK(tally, columns[0].type_modifier == -1 && columns[0].format == 0);
    CHECK(tally, columns[1].table == 0 && columns[1].attribute == 0);
    CHECK(tally, columns[1].type_id == 25 && columns[1].type_size == -1);
    CHECK(tally, columns[1].type_modifier == 20 && columns[1].format == 1);
    memset(&untouched, 0xaa, sizeof untouched);
    memcpy(&columns[1], &untouched, sizeof untouched);
    CHECK(tally, pgmsg_read_columns(BYTES(body), columns, 1, &fault) == 2);
    CHECK(tally, memcmp(&columns[1], &untouched, sizeof untouched) == 0);
    CHECK(tally, pgmsg_read_columns(BYTES("\0\0"), columns, 0, &fault) == 0);
    CHECK(tally, pgmsg_read_columns(BYTES("\0\1"), columns, 2, &fault) == PGMSG_SHORT);
    CHECK(tally, fault.number == PGMSG_SHORT);
}

static void test_types(struct tally *tally)
{
    uint32_t types[3] = {0, 0, 7};
    pgmsg_fault fault;
    CHECK(tally, pgmsg_read_parameter_types(BYTES("\0\2" "\0\0\0\27" "\0\0\0\31"), types, 3, &fault) == 2);
    CHECK(tally, types[0] == 23 && types[1] == 25 && types[2] == 7);
    CHECK(tally, pgmsg_read_parameter_types(BYTES("\0\2" "\0\0\0\1" "\0\0\0\2"), types, 1, &fault) == 2);
    CHECK(tally, types[0] == 1 && types[1] == 25);
    CHECK(tally, pgmsg_read_parameter_types(BYTES("\0\1" "\0\0"), types, 3, &fault) == PGMSG_SHORT);
}

static void test_fields(struct tally *tally)
{
    static const char body[] = "SERROR\0" "VERROR\0" "C42P01\0" "Mno\0";
    pgmsg_field fields[5];
    pgmsg_fault fault;
    memset(fields, 0xaa, sizeof fields);
    CHECK(tally, pgmsg_read_fields(BYTES(body), fields, 5) == 4);
    CHECK(tally, fields[0].letter == 'S' && is_at(body, fields[0].value, "ERROR"));
    CHECK(tally, fields[2].letter == 'C' && is_at(body, fields[2].value, "42P01"));
    CHECK(tally, fields[3].letter == 'M' && is_at(body, fields[3].value, "no"));
    CHECK(tally, fields[4].letter == 0xaa);
    fields[1].letter = 0xaa;
    CHECK(tally, pgmsg_read_fields(BYTES(body), fields, 1) == 4 && fields[1].letter == 0xaa);
    CHECK(tally, pgmsg_read_fields(BYTES(""), fields, 5) == 0);
    CHECK(tally, pgmsg_read_fields(BYTES("SERROR"), fields, 5) == 0);
    CHECK(tally, pgmsg_read_severity(BYTES(body), &fault) == 2);
    CHECK(tally, pgmsg_read_severity(BYTES("VPANIC\0" "\0"), &fault) == 0);
    CHECK(tally, pgmsg_read_severity(BYTES("VLOG\0" "\0"), &fault) == 7);
    CHECK(tally, pgmsg_read_severity(BYTES("VODD\0" "\0"), &fault) == PGMSG_UNKNOWN_SEVERITY);
    CHECK(tally, is_fault(&fault, PGMSG_UNKNOWN_SEVERITY, 0));
    CHECK(tally, pgmsg_read_severity(BYTES("M\377\0" "\0"), &fault) == PGMSG_NOTICE_NOT_UTF8);
}

static void test_notifications(struct tally *tally)
{
    static const char body[] = "\0\0\4\322" "ch\0" "hi";
    pgmsg_notification notification;
    pgmsg_fault fault;
    /* With the NUL of the literal. */
    CHECK(tally, pgmsg_read_notification((const uint8_t *)body, sizeof body, &notification, &fault) == 0);
    CHECK(tally, notification.process_id == 1234);
    CHECK(tally, is_at(body, notification.channel, "ch") && is_at(body, notification.payload, "hi"));
    CHECK(tally, pgmsg_read_notification(BYTES("\0\0\0\1" "\0" "\0"), &notification, &fault) == 0);
    CHECK(tally, notification.channel.len == 0 && notification.payload.len == 0);
    CHECK(tally, pgmsg_read_notification(BYTES(body), &notification, &fault) == PGMSG_MISSING_NUL);
    CHECK(tally, is_fault(&fault, PGMSG_MISSING_NUL, 7));
    CHECK(tally, pgmsg_read_notification(BYTES("\0\0"), &notification, &fault) == PGMSG_SHORT);
}

static void test_settings(struct tally *tally)
{
    static const char body[] = "TimeZone\0" "caf\351\0";
    pgmsg_parameter_status status;
    pgmsg_fault fault;
    CHECK(tally, pgmsg_read_parameter_status(BYTES(body), &status, &fault) == 0);
    CHECK(tally, is_at(body, status.name, "TimeZone") && is_at(body, status.value, "caf\351"));
    CHECK(tally, pgmsg_read_parameter_status(BYTES("a\0b"), &status, &fault) == PGMSG_MISSING_NUL);
    CHECK(tally, fault.at == 2 && is_at(body, status.name, "TimeZone"));
}

static void test_keys(struct tally *tally)
{
    uint8_t body[4 + 257] = {0, 0, 4, 210};
    pgmsg_key_data key;
    pgmsg_fault fault;
    for (size_t len = 0; len <= 257; len++) {
        int32_t due = len >= 4 && len <= 256 ? 0 : PGMSG_BAD_KEY_LENGTH;
        memset(&key, UNTOUCHED, sizeof key);
        CHECK(tally, pgmsg_read_key_data(body, 4 + len, &key, &fault) == due);
        if (due == 0)
            CHECK(tally, key.process_id == 1234 && key.secret_key.at == 4 && key.secret_key.len == len);
        else
            CHECK(tally, are_untouched(&key, sizeof key));
    }
    CHECK(tally, pgmsg_read_key_data(body, 3, &key, &fault) == PGMSG_SHORT);
}

static void test_commands(struct tally *tally)
{
    static const char body[] = "INSERT 0 42\0";
    pgmsg_command command = {{7, 7}, 7};
    pgmsg_fault fault;
    CHECK(tally, pgmsg_read_command_complete(BYTES(body), &command, &fault) == 0);
    CHECK(tally, is_at(body, command.tag, "INSERT 0 42") && command.rows == 42);
    CHECK(tally, pgmsg_read_command_complete(BYTES("COPY 18446744073709551615\0"), &command, &fault) == 0);
    CHECK(tally, command.tag.len == 25 && command.rows == UINT64_MAX);
    CHECK(tally, pgmsg_read_command_complete(BYTES("\377\0B\0"), &command, &fault) == 0);
    CHECK(tally, command.tag.at == 0 && command.tag.len == 1 && command.rows == 0);
    CHECK(tally, pgmsg_read_command_complete(BYTES("S\0 1"), &command, &fault) == 0);
    CHECK(tally, command.tag.len == 1 && command.rows == 0);
    CHECK(tally, pgmsg_read_command_complete(BYTES("\0"), &command, &fault) == 0 && command.tag.len == 0);
    CHECK(tally, pgmsg_read_command_complete(BYTES("BEGIN 1"), &command, &fault) == PGMSG_MISSING_NUL);
    CHECK(tally, fault.at == 0 && command.tag.len == 0 && command.rows == 0);
}

static void test_ready(struct tally *tally)
{
    pgmsg_fault fault;
    CHECK(tally, pgmsg_read_ready(BYTES("I"), &fault) == 'I');
    CHECK(tally, pgmsg_read_ready(BYTES("T"), &fault) == 'T');
    CHECK(tally, pgmsg_read_ready(BYTES("E"), &fault) == 'E');
    CHECK(tally, pgmsg_read_ready(BYTES("Q"), &fault) == PGMSG_UNKNOWN_STATUS);
    CHECK(tally, pgmsg_read_ready(BYTES(""), &fault) == PGMSG_SHORT);
}

static void test_ends(struct tally *tally)
{
    pgmsg_fault fault;
    CHECK(tally, pgmsg_read_end('Z', BYTES("I"), &fault) == 1 && pgmsg_read_end('Z', BYTES("I!"), &fault) == 1);
    CHECK(tally, pgmsg_read_end('1', BYTES("!"), &fault) == 0);
    CHECK(tally, pgmsg_read_end('R', BYTES("\0\0\0\12" "A\0" "\351\0" "\0" "!"), &fault) == 9);
    CHECK(tally, pgmsg_read_end('R', BYTES("\0\0\0\10" "token"), &fault) == 9);
    CHECK(tally, pgmsg_read_end('R', BYTES("\0\0\0\7" "!"), &fault) == 4);
    CHECK(tally, pgmsg_read_end('R', BYTES("\0\0\0\12" "A\0"), &fault) == PGMSG_MISSING_NUL && fault.at == 6);
    CHECK(tally, pgmsg_read_end('N', BYTES("VNOTICE\0" "\0" "!"), &fault) == 9);
    CHECK(tally, pgmsg_read_end('N', BYTES("VNOTICE\0"), &fault) == PGMSG_SHORT && fault.at == 8);
    CHECK(tally, pgmsg_read_end('D', BYTES("\0\1" "\377\377\377\377" "!"), &fault) == 6);
    CHECK(tally, pgmsg_read_end('H', BYTES("\0" "\377\377" "!"), &fault) == 3);
    CHECK(tally, pgmsg_read_end('v', BYTES(""), &fault) == PGMSG_UNKNOWN_MESSAGE_TYPE);
}

static void test_results(struct tally *tally)
{
    pgmsg_cell value = {7, 7};
    pgmsg_fault fault;
    CHECK(tally, pgmsg_read_function_result(BYTES("\0\0\0\2" "ab" "!"), &value, &fault) == 0);
    CHECK(tally, value.at == 4 && value.len == 2);
    CHECK(tally, pgmsg_read_function_result(BYTES("\0\0\0\0"), &value, &fault) == 0 && value.at == 4 && value.len == 0);
    CHECK(tally, pgmsg_read_function_result(BYTES("\377\377\377\377"), &value, &fault) == 0 && value.len == -1);
    CHECK(tally, pgmsg_read_function_result(BYTES("\0\0\0\2" "a"), &value, &fault) == PGMSG_SHORT && fault.at == 4);
    CHECK(tally, pgmsg_read_function_result(BYTES("\0\0"), &value, &fault) == PGMSG_SHORT && value.len == -1);
}

static void test_negotiations(struct tally *tally)
{
    static const char body[] = "\0\3\0\2" "\0\0\0\3" "_pq_.a\0" "\0" "\351\0" "!";
    pgmsg_negotiation version = {7, 7};
    pgmsg_span options[4];
    pgmsg_fault fault;
    memset(options, UNTOUCHED, sizeof options);
    CHECK(tally, pgmsg_read_negotiate_version(BYTES(body), &version, options, 4, &fault) == 3);
    CHECK(tally, version.major == 3 && version.minor == 2);
    CHECK(tally, is_at(body, options[0], "_pq_.a") && options[1].len == 0 && is_at(body, options[2], "\351"));
    CHECK(tally, are_untouched(&options[3], sizeof *options));
    memset(options, UNTOUCHED, sizeof options);
    CHECK(tally, pgmsg_read_negotiate_version(BYTES(body), &version, options, 1, &fault) == 3);
    CHECK(tally, is_at(body, options[0], "_pq_.a") && are_untouched(&options[1], 3 * sizeof *options));
    CHECK(tally, pgmsg_read_negotiate_version(BYTES("\0\0\377\376" "\0\0\0\0"), &version, NULL, 0, &fault) == 0);
    CHECK(tally, version.major == 0 && version.minor == 65534);
    CHECK(tally, pgmsg_read_negotiate_version(BYTES("\0\3\0\2" "\377\377\377\377" "a\0b"), &version, options, 4, &fault) == PGMSG_MISSING_NUL);
    CHECK(tally, fault.at == 10 && version.minor == 65534);
    CHECK(tally, pgmsg_read_negotiate_version(BYTES("\0\3\0\2" "\0\0"), &version, options, 4, &fault) == PGMSG_SHORT && fault.at == 4);
    CHECK(tally, pgmsg_read_negotiate_version(BYTES("\0\3\0"), &version, options, 4, &fault) == PGMSG_SHORT && fault.at == 0);
}

static void test_copies(struct tally *tally)
{
    static const char body[] = "\1" "\0\2" "\0\0" "\0\1";
    pgmsg_copy_response response;
    int16_t codes[3] = {7, 7, 7};
    pgmsg_fault fault;
    CHECK(tally, pgmsg_read_copy_response(BYTES(body), &response, codes, 3, &fault) == 2);
    CHECK(tally, response.format == 1 && response.columns == 2);
    CHECK(tally, codes[0] == 0 && codes[1] == 1 && codes[2] == 7);
    CHECK(tally, pgmsg_read_copy_response(BYTES("\0" "\377\377"), &response, codes, 0, &fault) == 0);
    CHECK(tally, response.format == 0 && response.columns == -1);
    CHECK(tally, pgmsg_read_copy_response(BYTES("\0" "\0\2" "\0\0"), &response, codes, 3, &fault) == PGMSG_SHORT);
}

void test_read(struct tally *tally)
{
    test_frames(tally);
    test_many_frames(tally);
    test_rows(tally);
    test_columns(tally);
    test_types(tally);
    test_fields(tally);
    test_notifications(tally);
    test_settings(tally);
    test_keys(tally);
    test_commands(tally);
    test_ready(tally);
    test_copies(tally);
    test_results(tally);
    test_negotiations(tally);
    test_ends(tally);
}
