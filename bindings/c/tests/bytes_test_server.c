/* Messages to a client. */
#include "bytes_test_put.h"

static const pgmsg_bytes mechanisms[] = {
    {BYTES("SCRAM-SHA-256-PLUS")},
    {BYTES("SCRAM-SHA-256")},
    {BYTES("\377")},
};

static const pgmsg_bytes options[] = {{BYTES("_pq_.a")}, {NULL, 0}, {BYTES("\377b")}};

static const int16_t codes[] = {0, 1, -2, 258};
static const uint32_t types[] = {23, 0x80000000, 0, UINT32_MAX};

static const pgmsg_value values[] = {
    {BYTES("42"), false},
    {BYTES("not sent"), true},
    {NULL, 0, false},
    {BYTES("eightbyt"), false},
    {BYTES("\0\1\2\377"), false},
    {BYTES("nine byte"), false},
};

static const pgmsg_column_text columns[] = {
    {BYTES("id"), 16385, 1, 23, 4, -1, 0},
    {NULL, 0, 0, 0, UINT32_MAX, -1, 65540, 1},
    {BYTES("n\377"), UINT32_MAX, INT16_MIN, 0, INT16_MIN, INT32_MIN, -2},
};

static const pgmsg_field_text fields[] = {
    {'S', BYTES("ERROR")},
    {'C', BYTES("42601")},
    {'M', NULL, 0},
    {255, BYTES("\377")},
};

/* Each message, the call that writes it, and its bytes. */
#define SAMPLES(ROW)                                                                                                   \
    ROW(ok, pgmsg_put_authentication(0, NULL, 0, out, out_len), "R\0\0\0\10" "\0\0\0\0")                               \
    ROW(kerberos, pgmsg_put_authentication(2, NULL, 0, out, out_len), "R\0\0\0\10" "\0\0\0\2")                         \
    ROW(cleartext, pgmsg_put_authentication(3, NULL, 0, out, out_len), "R\0\0\0\10" "\0\0\0\3")                        \
    ROW(md5, pgmsg_put_authentication(5, BYTES("\1\0\376\377"), out, out_len), "R\0\0\0\14" "\0\0\0\5" "\1\0\376\377") \
    ROW(scm_credential, pgmsg_put_authentication(6, NULL, 0, out, out_len), "R\0\0\0\10" "\0\0\0\6")                   \
    ROW(gss, pgmsg_put_authentication(7, NULL, 0, out, out_len), "R\0\0\0\10" "\0\0\0\7")                              \
    ROW(gss_continue, pgmsg_put_authentication(8, BYTES("`\0\377"), out, out_len), "R\0\0\0\13" "\0\0\0\10" "`\0\377") \
    ROW(bare_gss_continue, pgmsg_put_authentication(8, NULL, 0, out, out_len), "R\0\0\0\10" "\0\0\0\10")               \
    ROW(sspi, pgmsg_put_authentication(9, NULL, 0, out, out_len), "R\0\0\0\10" "\0\0\0\11")                            \
    ROW(sasl, pgmsg_put_authentication_sasl(mechanisms, 3, out, out_len),                                              \
        "R\0\0\0\54" "\0\0\0\12" "SCRAM-SHA-256-PLUS\0" "SCRAM-SHA-256\0" "\377\0" "\0")                               \
    ROW(bare_sasl, pgmsg_put_authentication_sasl(mechanisms, 0, out, out_len), "R\0\0\0\11" "\0\0\0\12" "\0")          \
    ROW(sasl_continue, pgmsg_put_authentication(11, BYTES("r=ab\0\377"), out, out_len),                                \
        "R\0\0\0\16" "\0\0\0\13" "r=ab\0\377")                                                                         \
    ROW(bare_continue, pgmsg_put_authentication(11, NULL, 0, out, out_len), "R\0\0\0\10" "\0\0\0\13")                  \
    ROW(sasl_final, pgmsg_put_authentication(12, BYTES("v=YQ=="), out, out_len), "R\0\0\0\16" "\0\0\0\14" "v=YQ==")    \
    ROW(bare_final, pgmsg_put_authentication(12, NULL, 0, out, out_len), "R\0\0\0\10" "\0\0\0\14")                     \
    ROW(negotiate_version, pgmsg_put_negotiate_version(2, options, 3, out, out_len),                                   \
        "v\0\0\0\27" "\0\3\0\2" "\0\0\0\3" "_pq_.a\0" "\0" "\377b\0")                                                  \
    ROW(bare_version, pgmsg_put_negotiate_version(UINT16_MAX, options, 0, out, out_len),                               \
        "v\0\0\0\14" "\0\3\377\377" "\0\0\0\0")                                                                        \
    ROW(key_data, pgmsg_put_backend_key_data(0x80000001, BYTES("\377\0\0\1"), out, out_len),                           \
        "K\0\0\0\14" "\200\0\0\1" "\377\0\0\1")                                                                        \
    ROW(long_key_data, pgmsg_put_backend_key_data(7, BYTES("a key of 28 bytes, not of 4\0"), out, out_len),            \
        "K\0\0\0\44" "\0\0\0\7" "a key of 28 bytes, not of 4\0")                                                       \
    ROW(parameter_status, pgmsg_put_parameter_status(BYTES("TimeZone"), BYTES("UTC"), out, out_len),                   \
        "S\0\0\0\21" "TimeZone\0" "UTC\0")                                                                             \
    ROW(bare_status, pgmsg_put_parameter_status(NULL, 0, NULL, 0, out, out_len), "S\0\0\0\6" "\0" "\0")                \
    ROW(idle, pgmsg_put_ready('I', out, out_len), "Z\0\0\0\5" "I")                                                     \
    ROW(open, pgmsg_put_ready('T', out, out_len), "Z\0\0\0\5" "T")                                                     \
    ROW(failed, pgmsg_put_ready('E', out, out_len), "Z\0\0\0\5" "E")                                                   \
    ROW(row_description, pgmsg_put_columns(columns, 3, out, out_len),                                                  \
        "T\0\0\0\103" "\0\3"                                                                                           \
        "id\0" "\0\0\100\1" "\0\1" "\0\0\0\27" "\0\4" "\377\377\377\377" "\0\0"                                        \
        "\0" "\0\0\0\0" "\0\0" "\377\377\377\377" "\377\377" "\0\1\0\4" "\0\1"                                         \
        "n\377\0" "\377\377\377\377" "\200\0" "\0\0\0\0" "\200\0" "\200\0\0\0" "\377\376")                             \
    ROW(no_columns, pgmsg_put_columns(columns, 0, out, out_len), "T\0\0\0\6" "\0\0")                                   \
    ROW(row, pgmsg_put_row(values, 6, out, out_len),                                                                   \
        "D\0\0\0\65" "\0\6" "\0\0\0\2" "42" "\377\377\377\377" "\0\0\0\0" "\0\0\0\10" "eightbyt"                       \
        "\0\0\0\4" "\0\1\2\377" "\0\0\0\11" "nine byte")                                                               \
    ROW(bare_row, pgmsg_put_row(values, 0, out, out_len), "D\0\0\0\6" "\0\0")                                          \
    ROW(parameter_types, pgmsg_put_parameter_types(types, 4, out, out_len),                                            \
        "t\0\0\0\26" "\0\4" "\0\0\0\27" "\200\0\0\0" "\0\0\0\0" "\377\377\377\377")                                    \
    ROW(no_types, pgmsg_put_parameter_types(types, 0, out, out_len), "t\0\0\0\6" "\0\0")                               \
    ROW(command_complete, pgmsg_put_command_complete(BYTES("INSERT 0 1"), out, out_len), "C\0\0\0\17" "INSERT 0 1\0")  \
    ROW(bare_command, pgmsg_put_command_complete(NULL, 0, out, out_len), "C\0\0\0\5" "\0")                             \
    ROW(copy_in, pgmsg_put_copy_response('G', 0, codes, 1, out, out_len), "G\0\0\0\11" "\0" "\0\1" "\0\0")             \
    ROW(copy_out, pgmsg_put_copy_response('H', -1, codes, 0, out, out_len), "H\0\0\0\7" "\377" "\0\0")                 \
    ROW(copy_both, pgmsg_put_copy_response('W', 1, codes, 4, out, out_len),                                            \
        "W\0\0\0\17" "\1" "\0\4" "\0\0" "\0\1" "\377\376" "\1\2")                                                      \
    ROW(function_result, pgmsg_put_function_result(BYTES("r\0"), false, out, out_len), "V\0\0\0\12" "\0\0\0\2" "r\0")  \
    ROW(empty_result, pgmsg_put_function_result(NULL, 0, false, out, out_len), "V\0\0\0\10" "\0\0\0\0")                \
    ROW(null_result, pgmsg_put_function_result(BYTES("not sent"), true, out, out_len),                                 \
        "V\0\0\0\10" "\377\377\377\377")                                                                               \
    ROW(raw_frame, pgmsg_put_frame('!', BYTES("any\0"), out, out_len), "!\0\0\0\10" "any\0")                           \
    ROW(bare_frame, pgmsg_put_frame(0, NULL, 0, out, out_len), "\0\0\0\0\4")                                           \
    ROW(error, pgmsg_put_notice('E', fields, 4, out, out_len),                                                         \
        "E\0\0\0\30" "SERROR\0" "C42601\0" "M\0" "\377\377\0" "\0")                                                    \
    ROW(bare_error, pgmsg_put_notice('E', fields, 0, out, out_len), "E\0\0\0\5" "\0")                                  \
    ROW(notice, pgmsg_put_notice('N', fields, 1, out, out_len), "N\0\0\0\14" "SERROR\0" "\0")                          \
    ROW(bare_notice, pgmsg_put_notice('N', fields, 0, out, out_len), "N\0\0\0\5" "\0")                                 \
    ROW(notification, pgmsg_put_notification(258, BYTES("chan\377"), BYTES("said"), out, out_len),                     \
        "A\0\0\0\23" "\0\0\1\2" "chan\377\0" "said\0")                                                                 \
    ROW(bare_notification, pgmsg_put_notification(UINT32_MAX, NULL, 0, NULL, 0, out, out_len),                         \
        "A\0\0\0\12" "\377\377\377\377" "\0" "\0")

SAMPLES(WRITER)

static const struct sample samples[] = {SAMPLES(SAMPLE)};

const struct sample *server_samples(size_t *count)
{
    *count = sizeof samples / sizeof *samples;
    return samples;
}

void test_server(struct tally *tally)
{
    test_rooms(tally, samples, sizeof samples / sizeof *samples);
}
