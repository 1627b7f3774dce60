/* SPDX-License-Identifier: MIT OR Apache-2.0
 *
 * The messages of the PostgreSQL wire protocol, version 3, for C and for what calls C.
 *
 * packaging/header makes this file of crates/pg_c/src and bindings/c/library: change it there.
 *
 * No call keeps a pointer, opens anything, or waits. Each pointer that is passed has to be aligned, and valid for
 * its length until the call returns; where the length is 0 it may be NULL, also in a struct. What a call writes
 * must not overlap what it reads. Several threads may make calls at the same time, each on memory of its own. No
 * call may be made in a signal handler.
 *
 * A call that writes a message returns the length of the message in bytes. Where `out` is at least that long, the
 * message stands at its front; else `out` is unchanged. A call that reads gives places in the bytes that it was
 * passed. A call that refuses returns one of the numbers below 0. One that reads then fills `fault` too, which
 * nothing else writes; an array of places may hold items before the broken one, and all else is unchanged.
 *
 * Names and texts are any bytes, in the encoding of their author. A NUL ends a text in a message, so a call
 * refuses to write a text that holds one, with PGMSG_TEXT_HOLDS_NUL. `pgmsg_check_utf8` says whether a text is
 * UTF-8, which only `pgmsg_read_severity` and `pgmsg_read_challenge` require.
 *
 * No call needs memory but `pgmsg_flow_said` and `pgmsg_flow_heard`, while more than one request waits. The words
 * of a fault take some too, and are left out where there is none. */

#ifndef PG_MESSAGE_H
#define PG_MESSAGE_H

#include <stdbool.h>
#include <stddef.h>
#include <stdint.h>

/* The version of this header. `pgmsg_version` has that of the library. */
#define PGMSG_VERSION "0.2.0"
#define PGMSG_VERSION_MAJOR 0
#define PGMSG_VERSION_MINOR 2
#define PGMSG_VERSION_PATCH 0

#ifdef __cplusplus
extern "C" {
#endif

/* A literal of C as the two arguments that a call takes for a text: its bytes, and how many they are. */
#define pgmsg_text(literal) ((const uint8_t *)("" literal)), (sizeof(literal) - 1)

/* Why a call refuses. */
enum pgmsg_refusal {
    /* No memory was there. No call of this library returns it. */
    PGMSG_OUT_OF_MEMORY = -1,
    /* More parameter formats than a message can count. */
    PGMSG_TOO_MANY_PARAM_FORMATS = -2,
    /* More result formats than a message can count. */
    PGMSG_TOO_MANY_RESULT_FORMATS = -3,
    /* More parameter types than a message can count. */
    PGMSG_TOO_MANY_PARAM_TYPES = -4,
    /* A message is longer than its length field can say. */
    PGMSG_MESSAGE_TOO_LONG = -5,
    /* A message was read as one of another kind. No call of this library returns it. */
    PGMSG_WRONG_FORMAT = -6,
    /* A received body is longer than a length field can say. */
    PGMSG_BODY_TOO_LONG = -7,
    /* No message that is known here, from a server or from a client, has this tag, or no message of
     * replication has this letter. */
    PGMSG_UNKNOWN_MESSAGE_TYPE = -8,
    /* A method of authentication that isn't known here. */
    PGMSG_UNKNOWN_AUTHENTICATION = -9,
    /* No transaction status has this letter. */
    PGMSG_UNKNOWN_STATUS = -10,
    /* No severity has this word. */
    PGMSG_UNKNOWN_SEVERITY = -11,
    /* A body has fewer bytes than are needed. */
    PGMSG_SHORT = -12,
    /* A text has no end. */
    PGMSG_MISSING_NUL = -13,
    /* A text is not UTF-8. */
    PGMSG_NOT_UTF8 = -14,
    /* A text of an error or a notice is not UTF-8. */
    PGMSG_NOTICE_NOT_UTF8 = -15,
    /* An item of SASL data has no room for a key and its separator. */
    PGMSG_SHORT_SASL_ITEM = -16,
    /* A value of SASL data is not base64. */
    PGMSG_BASE64 = -17,
    /* The length of a message is below 4, or that of a client's first message below 8. */
    PGMSG_BAD_LENGTH = -18,
    /* A text to be sent holds a NUL, or would end its list: the name of a setting or of a mechanism is
     * empty, or the letter of a field is 0. */
    PGMSG_TEXT_HOLDS_NUL = -19,
    /* More values of a Bind, or arguments of a FunctionCall, than a message can count. */
    PGMSG_BAD_PARAMS = -20,
    /* A session's secret key has fewer than 4 or more than 256 bytes. */
    PGMSG_BAD_KEY_LENGTH = -21,
    /* No first message has this code. */
    PGMSG_UNKNOWN_CODE = -22,
    /* A Describe or a Close names neither a statement nor a portal. */
    PGMSG_UNKNOWN_TARGET = -23,
    /* A value has a length below -1. */
    PGMSG_BAD_VALUE_LENGTH = -24,
    /* Bytes follow the end of a message. */
    PGMSG_TRAILING_BYTES = -25,
    /* A first message is longer than the caller takes. */
    PGMSG_FIRST_TOO_LONG = -26,
    /* More items than a message to a client can count. */
    PGMSG_TOO_MANY = -27,
    /* What is to be added to a stream is no run of whole messages. */
    PGMSG_NOT_FRAMES = -28,
    /* A message that is wanted whole is longer than the caller takes. */
    PGMSG_FRAME_TOO_LONG = -29,
    /* No row and no value of logical replication has this letter. */
    PGMSG_UNKNOWN_LETTER = -30,
    /* The login isn't over, and doesn't wait for this message. */
    PGMSG_NOT_READY = -31,
    /* The client has said that it ends the session, or the server has. */
    PGMSG_AFTER_END = -32,
    /* The data of a COPY are to be given or refused first. */
    PGMSG_IN_COPY = -33,
    /* No COPY takes data. */
    PGMSG_NOT_IN_COPY = -34,
    /* Data of a COPY go both ways: those of the client are ended by CopyDone, and can't be refused. */
    PGMSG_NOT_REFUSABLE = -35,
    /* No request waits for an answer. */
    PGMSG_UNASKED = -36,
    /* A server is done with no request before this one. */
    PGMSG_BUSY = -37,
    /* A message doesn't answer the request that waits. */
    PGMSG_NOT_AN_ANSWER = -38,
    /* A COPY asks for data, and other requests were said behind it. */
    PGMSG_BEHIND_COPY = -39,
    /* It can't be known whether the server passes over a request: a Sync is to be said first. */
    PGMSG_SYNC_FIRST = -40,
    /* No more requests may wait, or no memory was there for those that do. */
    PGMSG_FLOW_FULL = -41,
};

enum {
    /* The greatest length of a first message that PostgreSQL's servers take. */
    PGMSG_MAX_FIRST_LENGTH = 10004,
};

/* The kinds of a first message. */
enum pgmsg_first_kind {
    /* A session is opened: a StartupMessage. */
    PGMSG_FIRST_STARTUP = 0,
    /* The query of another session is to be cancelled: a CancelRequest. */
    PGMSG_FIRST_CANCEL_REQUEST = 1,
    /* The client asks for TLS: an SSLRequest. */
    PGMSG_FIRST_SSL_REQUEST = 2,
    /* The client asks for encryption by GSSAPI: a GSSENCRequest. */
    PGMSG_FIRST_GSS_ENC_REQUEST = 3,
};

/* What a session waits for. */
enum pgmsg_mode_kind {
    /* The login isn't over. */
    PGMSG_MODE_LOGIN = 0,
    /* No request waits. */
    PGMSG_MODE_IDLE = 1,
    /* A request waits for its answer. */
    PGMSG_MODE_BUSY = 2,
    /* The server takes data of a COPY. */
    PGMSG_MODE_COPY_IN = 3,
    /* The server gives data of a COPY. */
    PGMSG_MODE_COPY_OUT = 4,
    /* Data of a COPY go both ways. */
    PGMSG_MODE_COPY_BOTH = 5,
    /* No request waits, and after an error the server passes over each but a Sync. */
    PGMSG_MODE_SKIPPING = 6,
    /* Nothing may be asked any more. */
    PGMSG_MODE_ENDED = 7,
};

/* What a message of a server answers. */
enum pgmsg_heard_kind {
    /* A message of a server answers no request: a notice, a notification or a setting. */
    PGMSG_HEARD_BY_ITSELF = 0,
    /* It answers a request. */
    PGMSG_HEARD_ANSWER = 1,
    /* It is a ReadyForQuery for one of several Syncs, some of which were said before the end of a
     * COPY's data. */
    PGMSG_HEARD_GROUP = 2,
    /* It belongs to the login. */
    PGMSG_HEARD_LOGIN = 3,
    /* It is a server's last words. */
    PGMSG_HEARD_END = 4,
};

/* The tags of messages from a server. */
enum pgmsg_backend {
    PGMSG_BACKEND_AUTHENTICATION = 'R',
    PGMSG_BACKEND_BACKEND_KEY_DATA = 'K',
    PGMSG_BACKEND_BIND_COMPLETE = '2',
    PGMSG_BACKEND_CLOSE_COMPLETE = '3',
    PGMSG_BACKEND_COMMAND_COMPLETE = 'C',
    PGMSG_BACKEND_COPY_DATA = 'd',
    PGMSG_BACKEND_COPY_DONE = 'c',
    PGMSG_BACKEND_COPY_IN_RESPONSE = 'G',
    PGMSG_BACKEND_COPY_OUT_RESPONSE = 'H',
    PGMSG_BACKEND_DATA_ROW = 'D',
    PGMSG_BACKEND_EMPTY_QUERY_RESPONSE = 'I',
    PGMSG_BACKEND_ERROR_RESPONSE = 'E',
    PGMSG_BACKEND_NO_DATA = 'n',
    PGMSG_BACKEND_NOTICE_RESPONSE = 'N',
    PGMSG_BACKEND_NOTIFICATION_RESPONSE = 'A',
    PGMSG_BACKEND_PARAMETER_DESCRIPTION = 't',
    PGMSG_BACKEND_PARAMETER_STATUS = 'S',
    PGMSG_BACKEND_PARSE_COMPLETE = '1',
    PGMSG_BACKEND_PORTAL_SUSPENDED = 's',
    PGMSG_BACKEND_READY_FOR_QUERY = 'Z',
    PGMSG_BACKEND_ROW_DESCRIPTION = 'T',
    PGMSG_BACKEND_COPY_BOTH_RESPONSE = 'W',
    PGMSG_BACKEND_FUNCTION_CALL_RESPONSE = 'V',
    PGMSG_BACKEND_NEGOTIATE_PROTOCOL_VERSION = 'v',
};

/* The tags of messages from a client. Passwords and messages of SASL, GSSAPI and SSPI share one. */
enum pgmsg_frontend {
    PGMSG_FRONTEND_BIND = 'B',
    PGMSG_FRONTEND_CLOSE = 'C',
    PGMSG_FRONTEND_DESCRIBE = 'D',
    PGMSG_FRONTEND_EXECUTE = 'E',
    PGMSG_FRONTEND_FUNCTION_CALL = 'F',
    PGMSG_FRONTEND_FLUSH = 'H',
    PGMSG_FRONTEND_PARSE = 'P',
    PGMSG_FRONTEND_QUERY = 'Q',
    PGMSG_FRONTEND_SYNC = 'S',
    PGMSG_FRONTEND_TERMINATE = 'X',
    PGMSG_FRONTEND_COPY_DONE = 'c',
    PGMSG_FRONTEND_COPY_DATA = 'd',
    PGMSG_FRONTEND_COPY_FAIL = 'f',
    PGMSG_FRONTEND_PASSWORD_POLYMORPHIC = 'p',
};

/* The methods of a request for authentication. */
enum pgmsg_method {
    PGMSG_METHOD_SASL = 10,
    PGMSG_METHOD_OK = 0,
    PGMSG_METHOD_KERBEROS_V5 = 2,
    PGMSG_METHOD_CLEARTEXT_PASSWORD = 3,
    PGMSG_METHOD_MD5_PASSWORD = 5,
    PGMSG_METHOD_SCM_CREDENTIAL = 6,
    PGMSG_METHOD_GSS = 7,
    PGMSG_METHOD_GSS_CONTINUE = 8,
    PGMSG_METHOD_SSPI = 9,
    PGMSG_METHOD_SASL_CONTINUE = 11,
    PGMSG_METHOD_SASL_FINAL = 12,
};

/* The severities of errors and notices: the first three are those of errors, from the gravest
 * on. */
enum pgmsg_severity {
    PGMSG_SEVERITY_PANIC = 0,
    PGMSG_SEVERITY_FATAL = 1,
    PGMSG_SEVERITY_ERROR = 2,
    PGMSG_SEVERITY_WARNING = 3,
    PGMSG_SEVERITY_NOTICE = 4,
    PGMSG_SEVERITY_DEBUG = 5,
    PGMSG_SEVERITY_INFO = 6,
    PGMSG_SEVERITY_LOG = 7,
};

/* Whether a transaction is open, in a ReadyForQuery: none, one, or one that has failed. */
enum pgmsg_status {
    PGMSG_STATUS_IDLE = 'I',
    PGMSG_STATUS_TRANSACTION = 'T',
    PGMSG_STATUS_ERROR = 'E',
};

/* What a Describe or a Close names. */
enum pgmsg_target_kind {
    PGMSG_TARGET_STATEMENT = 'S',
    PGMSG_TARGET_PORTAL = 'P',
};

/* How a value is spelled. */
enum pgmsg_format {
    PGMSG_FORMAT_TEXT = 0,
    PGMSG_FORMAT_BINARY = 1,
};

/* What is wrong with bytes that were read. `number` is what the call returned. `at` is an offset in
 * them, where the fault has one, else 0. `words` are `words_len` bytes of ASCII, none where there
 * was no memory for them. */
typedef struct {
    int32_t number;
    size_t at;
    size_t words_len;
    uint8_t words[256];
} pgmsg_fault;

/* A place in the bytes that were passed: `len` of them from `at` on. */
typedef struct {
    size_t at;
    size_t len;
} pgmsg_span;

/* A list in the bytes that were passed: `count` items, of which the first is at `at`. */
typedef struct {
    size_t at;
    size_t count;
} pgmsg_list;

/* The name of a setting and its value. */
typedef struct {
    const uint8_t *name;
    size_t name_len;
    const uint8_t *value;
    size_t value_len;
} pgmsg_setting;

/* The value of a parameter, or of a row. Where `is_null` is true, the bytes aren't looked at. */
typedef struct {
    const uint8_t *bytes;
    size_t bytes_len;
    bool is_null;
} pgmsg_value;

/* A message at the front of a stream. `length` is how many bytes of the stream it takes; where it
 * isn't whole, how many are needed at least. */
typedef struct {
    uint8_t tag;
    pgmsg_span body;
    size_t length;
} pgmsg_frame;

/* A cell of a row, or a value that a client sends: `len` bytes from `at` on, or NULL where `len` is
 * -1. */
typedef struct {
    uint32_t at;
    int32_t len;
} pgmsg_cell;

/* A column of a result. `table` and `attribute` are 0 where it is of no table. `type_size` is below
 * 0 where it varies. `format` is 0 for text, 1 for binary. */
typedef struct {
    pgmsg_span name;
    uint32_t table;
    int16_t attribute;
    uint32_t type_id;
    int16_t type_size;
    int32_t type_modifier;
    int16_t format;
} pgmsg_column;

/* A field of an error or a notice, by its letter. */
typedef struct {
    uint8_t letter;
    pgmsg_span value;
} pgmsg_field;

/* A notification from another session. */
typedef struct {
    uint32_t process_id;
    pgmsg_span channel;
    pgmsg_span payload;
} pgmsg_notification;

/* A setting of the server and its value, or one by which a client opens a session. */
typedef struct {
    pgmsg_span name;
    pgmsg_span value;
} pgmsg_parameter_status;

/* The process that serves a session, and the key that a request to cancel has to name too, of 4 to
 * 256 bytes. */
typedef struct {
    uint32_t process_id;
    pgmsg_span secret_key;
} pgmsg_key_data;

/* What a command has done: the text of its tag, such as `INSERT 0 1`, and the number of rows, which
 * is the number after the last space of the tag, or 0 where there is none. */
typedef struct {
    pgmsg_span tag;
    uint64_t rows;
} pgmsg_command;

/* The format of the data of a COPY, 0 for text and 1 for binary, and the number of columns, which
 * may be below 0 for none. */
typedef struct {
    int8_t format;
    int16_t columns;
} pgmsg_copy_response;

/* What the server asks for, by the number of a method, and what follows it: 0 nothing more, 3 a
 * password in clear, 5 an MD5 digest with the salt of four bytes that follows, 7, 8 and 9 an
 * exchange of GSSAPI or SSPI, 10 SASL by one of the mechanisms that `pgmsg_read_mechanisms` gives,
 * 11 and 12 the next and the last of a SASL exchange. */
typedef struct {
    uint32_t method;
    pgmsg_span content;
} pgmsg_authentication;

/* The challenge of a SASL exchange: how long its salt and its nonce are, in bytes. */
typedef struct {
    uint32_t iterations;
    size_t salt_len;
    size_t nonce_len;
} pgmsg_challenge;

/* The newest version of the protocol that a server speaks, by its two halves: `major` is 3 of
 * PostgreSQL's servers, and 0 where the server sends the minor version alone. */
typedef struct {
    uint16_t major;
    uint16_t minor;
} pgmsg_negotiation;

/* A first message of the kind that `kind` says, by one of the numbers PGMSG_FIRST_STARTUP and so
 * on. A Startup has the minor version of the protocol's version 3 and its settings: names and
 * values, each with its NUL, and the NUL after them; `pgmsg_read_settings` gives them. A
 * CancelRequest has the process and the key of the other session. What is of other kinds is 0 and
 * empty. */
typedef struct {
    uint32_t kind;
    uint16_t minor;
    uint32_t process_id;
    pgmsg_span settings;
    pgmsg_span secret_key;
} pgmsg_first;

/* A statement that is prepared, empty for the one without a name, its text, and the types of its
 * parameters, each of four bytes: `pgmsg_read_types` gives them. */
typedef struct {
    pgmsg_span statement;
    pgmsg_span query;
    pgmsg_list types;
} pgmsg_parse;

/* What is described or closed: `letter` is S for a prepared statement, and P for a portal; the name
 * is empty for the one without a name. */
typedef struct {
    uint8_t letter;
    pgmsg_span name;
} pgmsg_target;

/* A portal that is run, empty for the one without a name, and the most rows to send back: 0 for all
 * of them, and a server takes a number from 2147483648 on for all of them too. */
typedef struct {
    pgmsg_span portal;
    uint32_t max_rows;
} pgmsg_execute;

/* The mechanism that a client chose, and its first message: its `len` is -1 where it sent none. */
typedef struct {
    pgmsg_span mechanism;
    pgmsg_cell response;
} pgmsg_sasl_initial;

/* A portal to make of a prepared statement: the names of both, empty for those without one, the
 * format codes of the values and of the result, for `pgmsg_read_codes`, and the values: `values.at`
 * is where the length of the first stands. Whether there are as many codes as values isn't
 * tested. */
typedef struct {
    pgmsg_span portal;
    pgmsg_span statement;
    pgmsg_list formats;
    pgmsg_list values;
    pgmsg_list result_formats;
} pgmsg_bind;

/* A call of a function by its object id: the format codes of the arguments, for `pgmsg_read_codes`,
 * and the arguments: `arguments.at` is where the length of the first stands. `result_format` is 0
 * for text and 1 for binary; others are no fault. Whether there are as many codes as arguments
 * isn't tested. */
typedef struct {
    uint32_t function;
    pgmsg_list formats;
    pgmsg_list arguments;
    uint16_t result_format;
} pgmsg_function_call;

/* Some bytes. */
typedef struct {
    const uint8_t *bytes;
    size_t bytes_len;
} pgmsg_bytes;

/* A column of a result that is written. `table` and `attribute` say which column of a table it is,
 * and are 0 where it is none; `type_size` is below 0 where the sizes of values differ; 0 in
 * `format` is text and 1 binary. */
typedef struct {
    const uint8_t *name;
    size_t name_len;
    uint32_t table;
    int16_t attribute;
    uint32_t type_id;
    int16_t type_size;
    int32_t type_modifier;
    int16_t format;
} pgmsg_column_text;

/* A field of an error or a notice that is written, by the letter of what it says. */
typedef struct {
    uint8_t letter;
    const uint8_t *text;
    size_t text_len;
} pgmsg_field_text;

/* What the data of a CopyData says in replication, by the letter that it begins with (PostgreSQL's
 * documentation, "Streaming Replication Protocol"). From the server: `w`, XLogData, has in
 * `content` a piece of the log that begins at `start`, of a log that ends at `end`. `k`, Primary
 * keepalive: the log ends at `end`, and `wants_reply` asks the client to answer at once. From the
 * client: `r`, Standby status update, has the positions after the last byte that was `written`,
 * `flushed` and `applied`, and `wants_reply` asks the server. `h`, Hot standby feedback: the oldest
 * transactions that the client needs, `xmin`, and `catalog_xmin` of its slots, each with its epoch,
 * and 0 for none. From the server in a backup: `n`, a new archive, has the `name` of its file, and
 * the `location` of its tablespace, which is empty for the main folder of the data. `m`: the
 * manifest begins. `d`: `content` is a part of the archive or the manifest that began last. `p`: so
 * many bytes were `processed`. Positions count the bytes of the log. `clock` of `w`, `k`, `r` and
 * `h` is the sender's, in microseconds since the beginning of the year 2000. What a message hasn't
 * is 0, false or empty. */
typedef struct {
    uint8_t letter;
    uint64_t start;
    uint64_t end;
    uint64_t written;
    uint64_t flushed;
    uint64_t applied;
    uint64_t processed;
    int64_t clock;
    bool wants_reply;
    uint32_t xmin;
    uint32_t xmin_epoch;
    uint32_t catalog_xmin;
    uint32_t catalog_xmin_epoch;
    pgmsg_span name;
    pgmsg_span location;
    pgmsg_span content;
} pgmsg_replication;

/* A message of replication that is written: its letter, and its parts as `pgmsg_replication` has
 * them. What is no part of it is passed over. */
typedef struct {
    uint8_t letter;
    uint64_t start;
    uint64_t end;
    uint64_t written;
    uint64_t flushed;
    uint64_t applied;
    uint64_t processed;
    int64_t clock;
    bool wants_reply;
    uint32_t xmin;
    uint32_t xmin_epoch;
    uint32_t catalog_xmin;
    uint32_t catalog_xmin_epoch;
    const uint8_t *name;
    size_t name_len;
    const uint8_t *location;
    size_t location_len;
    const uint8_t *content;
    size_t content_len;
} pgmsg_replication_text;

/* The value of a column in a row that changes. `kind` is `n` for NULL, and in a key for a column
 * that isn't part of it, `u` for a large value that wasn't changed and isn't sent, `t` for a
 * `value` as text, and `b` for one in the binary format of its type. A `value` of the first two is
 * empty. */
typedef struct {
    uint8_t kind;
    pgmsg_span value;
} pgmsg_datum;

/* A column of a table whose rows change. `flags` are 1 where it is a part of the key, else 0. */
typedef struct {
    uint8_t flags;
    pgmsg_span name;
    uint32_t type_id;
    int32_t type_modifier;
} pgmsg_table_column;

/* What a server streams of the changes of its tables, by the letter that it begins with
 * (PostgreSQL's documentation, "Logical Replication Message Formats"). `B`, Begin: the
 * `transaction`, whose commit is at `lsn`. `M`, Message: its position `lsn`, its prefix in `name`,
 * its `content`, and `flags` of 1 where it is a part of its transaction. `C`, Commit: its position
 * `lsn`, and the transaction's end `end_lsn`. `O`, Origin: the `name` of the server that the
 * transaction came from, and its commit's `lsn` there. `R`, Relation: a table's number `relation`,
 * its `schema`, which is empty for pg_catalog, its `name`, the letter of its `replica_identity`,
 * and its `columns`, for `pgmsg_read_table_columns`. `Y`, Type: a type's number `type_id`, its
 * `schema` and its `name`. `I`, Insert: the table `relation` and the `new_row`. `U`, Update: the
 * same, and an `old_letter` of `K` where `old_row` has the old key, `O` where it has the old row,
 * and 0 where there is none. `D`, Delete: the table and such an `old_row`. Rows are for
 * `pgmsg_read_tuple`. `T`, Truncate: the numbers of the tables `relations`, for `pgmsg_read_types`,
 * and in `flags` 1 for CASCADE and 2 for RESTART IDENTITY. `S`, Stream Start: the `transaction` of
 * the messages up to the Stream Stop, and whether they are the first of it. `E`: Stream Stop. `c`,
 * Stream Commit: the `transaction`, and what a Commit has. `A`, Stream Abort: the `transaction`,
 * and the `subtransaction` that is undone, which is the same where all is. `b`, Begin Prepare, `P`,
 * Prepare, `K`, Commit Prepared, and `p`, Stream Prepare: the `transaction`, its GID in `name`, the
 * position `lsn` of the prepare or the commit, and the `end_lsn` of the transaction or its commit.
 * `r`, Rollback Prepared: the `transaction`, its GID in `name`, its `end_lsn`, and the
 * `rollback_end_lsn` and `rollback_clock` of its rollback. `clock` is when a transaction was
 * committed or prepared, in microseconds since the beginning of the year 2000; positions count the
 * bytes of the log. `has_transaction` says that there is a `transaction`: between a Stream Start
 * and a Stream Stop `M`, `R`, `Y`, `I`, `U`, `D` and `T` have one too. What a message hasn't is 0,
 * false or empty. */
typedef struct {
    uint8_t letter;
    bool has_transaction;
    uint32_t transaction;
    uint32_t subtransaction;
    uint8_t flags;
    bool is_first;
    uint64_t lsn;
    uint64_t end_lsn;
    uint64_t rollback_end_lsn;
    int64_t clock;
    int64_t rollback_clock;
    uint32_t relation;
    uint32_t type_id;
    uint8_t replica_identity;
    pgmsg_span schema;
    pgmsg_span name;
    pgmsg_span content;
    pgmsg_list columns;
    pgmsg_list relations;
    uint8_t old_letter;
    pgmsg_list old_row;
    pgmsg_list new_row;
} pgmsg_logical;

/* The value of a column in a row that is written. `kind` is as in `pgmsg_datum`; the `value` of an
 * `n` or a `u` isn't looked at. */
typedef struct {
    uint8_t kind;
    const uint8_t *value;
    size_t value_len;
} pgmsg_datum_text;

/* A column of a table that is written. `flags` are as in `pgmsg_table_column`. */
typedef struct {
    uint8_t flags;
    const uint8_t *name;
    size_t name_len;
    uint32_t type_id;
    int32_t type_modifier;
} pgmsg_table_column_text;

/* A message of logical replication that is written: its letter, and its parts as `pgmsg_logical`
 * has them, with lists in arrays. `old_values` are those of an `old_row`, and `values` those of a
 * `new_row`. What is no part of it is passed over. */
typedef struct {
    uint8_t letter;
    bool has_transaction;
    uint32_t transaction;
    uint32_t subtransaction;
    uint8_t flags;
    bool is_first;
    uint64_t lsn;
    uint64_t end_lsn;
    uint64_t rollback_end_lsn;
    int64_t clock;
    int64_t rollback_clock;
    uint32_t relation;
    uint32_t type_id;
    uint8_t replica_identity;
    const uint8_t *schema;
    size_t schema_len;
    const uint8_t *name;
    size_t name_len;
    const uint8_t *content;
    size_t content_len;
    const pgmsg_table_column_text *columns;
    size_t columns_len;
    const uint32_t *relations;
    size_t relations_len;
    uint8_t old_letter;
    const pgmsg_datum_text *old_values;
    size_t old_values_len;
    const pgmsg_datum_text *values;
    size_t values_len;
} pgmsg_logical_text;

/* One direction of a connection that is passed on. Set `limit` to the most bytes of a message that
 * is taken whole, `left` to 0, and `is_first` where a client's first message comes next;
 * `pgmsg_relay_next` moves the last two on, and leaves `limit` as it is. */
typedef struct {
    size_t limit;
    size_t left;
    bool is_first;
} pgmsg_relay;

/* What is at the front of a stream. `length` bytes of it go out together; where more bytes are
 * needed, it is how many at least. `tag` is 0 for a first message. */
typedef struct {
    uint8_t tag;
    size_t length;
} pgmsg_passage;

/* A session, as its client or its server follows it: begin by `pgmsg_flow_client` or
 * `pgmsg_flow_server`. `mode` is one of PGMSG_MODE_LOGIN and those after it; `status` is the letter
 * of the last ReadyForQuery, 0 before the first; `count` is how many requests were said, whose
 * numbers begin with 0, and `first` the number of the first that waits. What follows them is the
 * library's. The struct may be copied. */
typedef struct {
    uint8_t mode;
    uint8_t status;
    bool has_left;
    bool is_server;
    uint64_t first;
    uint64_t count;
    uint8_t stage;
    uint8_t place;
    uint8_t request;
    uint8_t early;
    bool skips;
    bool is_quiet;
    uint64_t group;
    uint64_t least;
    uint64_t more;
    size_t behind;
    uint8_t requests[1024];
} pgmsg_flow;

/* Which request a message of a server answers: the one of the number `first`, or one of the Syncs
 * from `first` to `last`; `is_last` says that nothing more comes for it. Where it answers none,
 * they are 0 and false. */
typedef struct {
    uint64_t first;
    uint64_t last;
    bool is_last;
} pgmsg_heard;

/* A few words for the number below 0 by which a call refused; the words of its fault say more. For
 * 0 and above they are "no error", and for a number that no call returns "unknown error". They last
 * as long as the program. */
const char *pgmsg_strerror(int32_t number);

/* The version of the library, and after a space `proved build`, or `plain build` for one that rustc
 * made of the same sources. The version is for comparison with `PGMSG_VERSION` of the header. It
 * lasts as long as the program. */
const char *pgmsg_version(void);

/* A StartupMessage: opens a session by a minor version of the protocol's version 3, 0 or 2, with
 * these settings, of which `user` is required by the server. A name or a value that holds a NUL, or
 * an empty name, is refused as a text that holds a NUL: the server would read other settings. */
ptrdiff_t pgmsg_put_startup(uint16_t minor, const pgmsg_setting *settings, size_t settings_len,
    uint8_t *out, size_t out_len);

/* An SSLRequest: asks for TLS, before the session is opened. The server answers with one byte, `S`
 * or `N`. */
ptrdiff_t pgmsg_put_ssl_request(uint8_t *out, size_t out_len);

/* A GSSENCRequest: asks for encryption by GSSAPI, before the session is opened. The server answers
 * with one byte, `G` or `N`. */
ptrdiff_t pgmsg_put_gss_enc_request(uint8_t *out, size_t out_len);

/* A CancelRequest: asks the server to stop what a session does, by the process and the key of its
 * BackendKeyData. It goes alone on a connection of its own. The key has 4 bytes in protocol 3.0,
 * and up to 256 from 3.2 on; one of another length is refused with PGMSG_BAD_KEY_LENGTH. */
ptrdiff_t pgmsg_put_cancel_request(uint32_t process_id, const uint8_t *secret_key,
    size_t secret_key_len, uint8_t *out, size_t out_len);

/* A PasswordMessage: answers a request for a password with any bytes, before the NUL that ends
 * them. A password that holds a NUL is refused. */
ptrdiff_t pgmsg_put_password(const uint8_t *password, size_t password_len, uint8_t *out,
    size_t out_len);

/* A PasswordMessage that answers a request for an MD5 digest. First take the digest of the password
 * with the user's name after it; `digest` is that of the hexadecimal digits of this one with the
 * salt after them. */
ptrdiff_t pgmsg_put_md5_password(const uint8_t digest[16], uint8_t *out, size_t out_len);

/* A SASLInitialResponse: chooses a mechanism of SASL, such as `SCRAM-SHA-256`, and begins it with
 * `response`. Without `has_response` the server begins. A mechanism that holds a NUL is refused. */
ptrdiff_t pgmsg_put_sasl_initial(const uint8_t *mechanism, size_t mechanism_len, bool has_response,
    const uint8_t *response, size_t response_len, uint8_t *out, size_t out_len);

/* A SASLResponse: answers a challenge of the SASL exchange. A GSSResponse has the same form. */
ptrdiff_t pgmsg_put_sasl_response(const uint8_t *response, size_t response_len, uint8_t *out,
    size_t out_len);

/* A Query: runs the statements of a text. One that holds a NUL is refused. */
ptrdiff_t pgmsg_put_query(const uint8_t *query, size_t query_len, uint8_t *out, size_t out_len);

/* A CopyFail: fails a COPY, and says why. A reason that holds a NUL is refused. */
ptrdiff_t pgmsg_put_copy_fail(const uint8_t *reason, size_t reason_len, uint8_t *out,
    size_t out_len);

/* A Parse: prepares a statement. `types` are those of the parameters from the first on; the server
 * infers those that are 0 or missing. A name or a query that holds a NUL is refused. */
ptrdiff_t pgmsg_put_parse(const uint8_t *statement, size_t statement_len, const uint8_t *query,
    size_t query_len, const uint32_t *types, size_t types_len, uint8_t *out, size_t out_len);

/* A Bind: makes a portal of a prepared statement and the values of its parameters. Formats are
 * codes, 0 for text and 1 for binary: none where all are text, one for all, or one each. A name
 * that holds a NUL is refused. */
ptrdiff_t pgmsg_put_bind(const uint8_t *portal, size_t portal_len, const uint8_t *statement,
    size_t statement_len, const uint16_t *formats, size_t formats_len, const pgmsg_value *values,
    size_t values_len, const uint16_t *result_formats, size_t result_formats_len, uint8_t *out,
    size_t out_len);

/* A Describe of a prepared statement, where `kind` is `S`, or of a portal, where it is `P`. Another
 * `kind` is refused with PGMSG_UNKNOWN_TARGET, and then a name that holds a NUL with
 * PGMSG_TEXT_HOLDS_NUL. */
ptrdiff_t pgmsg_put_describe(uint8_t kind, const uint8_t *name, size_t name_len, uint8_t *out,
    size_t out_len);

/* A Close of a prepared statement or a portal, with `kind`, `name` and refusals as in
 * `pgmsg_put_describe`. */
ptrdiff_t pgmsg_put_close(uint8_t kind, const uint8_t *name, size_t name_len, uint8_t *out,
    size_t out_len);

/* An Execute: runs a portal. `limit` is the most rows to send back, 0 for all of them; a server
 * takes a number from 2147483648 on for all of them too. A name that holds a NUL is refused. */
ptrdiff_t pgmsg_put_execute(const uint8_t *portal, size_t portal_len, uint32_t limit, uint8_t *out,
    size_t out_len);

/* A FunctionCall: calls a function by its object id. Formats are as in `pgmsg_put_bind`. The answer
 * is a FunctionCallResponse, for `pgmsg_read_function_result`. */
ptrdiff_t pgmsg_put_function_call(uint32_t object_id, const uint16_t *formats, size_t formats_len,
    const pgmsg_value *arguments, size_t arguments_len, uint16_t result_format, uint8_t *out,
    size_t out_len);

/* A CopyData: a part of the data of a COPY, from a client or a server. */
ptrdiff_t pgmsg_put_copy_data(const uint8_t *data, size_t data_len, uint8_t *out, size_t out_len);

/* The five bytes before `len` bytes of the data of a COPY, which the caller sends after them. 0, or
 * why there are none. */
int32_t pgmsg_put_copy_head(size_t len, uint8_t head[5]);

/* A message without a body, by its tag. Of a client `H` is Flush, `S` Sync and `X` Terminate; of a
 * server `1` is ParseComplete, `2` BindComplete, `3` CloseComplete, `I` EmptyQueryResponse, `n`
 * NoData and `s` PortalSuspended; of both `c` is CopyDone. Of other tags it is refused with
 * PGMSG_UNKNOWN_MESSAGE_TYPE. */
ptrdiff_t pgmsg_put_no_body(uint8_t tag, uint8_t *out, size_t out_len);

/* The name of the prepared statement with a number N: `sqlx_s_N`, or no byte for 0. Returns its
 * length without a NUL. Where `out` is longer than the name, the name is written with the NUL that
 * ends it. */
size_t pgmsg_put_statement_name(uint32_t number, uint8_t *out, size_t out_len);

/* The name of the portal with a number N: `sqlx_p_N`, or no byte for 0, as
 * `pgmsg_put_statement_name` writes that of a statement. */
size_t pgmsg_put_portal_name(uint32_t number, uint8_t *out, size_t out_len);

/* How many bytes at the front of a text are UTF-8: the length of the text where all of it is, else
 * the offset of the first character that isn't. */
size_t pgmsg_check_utf8(const uint8_t *text, size_t text_len);

/* The message at the front of a stream, of any tag: 1 where it is whole, 0 where more bytes are
 * needed; then `tag` is given as soon as its byte is there. A length below 4 is refused, whatever
 * bytes come after it. */
int32_t pgmsg_next_frame(const uint8_t *stream, size_t stream_len, pgmsg_frame *frame,
    pgmsg_fault *fault);

/* The messages at the front of a stream, of any tag, each as `pgmsg_next_frame` gives it, with
 * places in the whole stream. Returns how many were written: as many as are whole and have room in
 * `frames`. The next message begins where the lengths of these end. Where there is room for a
 * message and the length of the very first is below 4, the call refuses; such a length after other
 * messages only ends them. */
ptrdiff_t pgmsg_next_frames(const uint8_t *stream, size_t stream_len, pgmsg_frame *frames,
    size_t frames_len, pgmsg_fault *fault);

/* The cells of a row, by the body of its DataRow: how many it has. As many as there is room for are
 * written; the rest are read too, so a row is refused for any of its cells. */
ptrdiff_t pgmsg_read_row(const uint8_t *body, size_t body_len, pgmsg_cell *cells, size_t cells_len,
    pgmsg_fault *fault);

/* The columns of a result, by the body of its RowDescription: how many there are. As many as there
 * is room for are written; the rest are read too. */
ptrdiff_t pgmsg_read_columns(const uint8_t *body, size_t body_len, pgmsg_column *columns,
    size_t columns_len, pgmsg_fault *fault);

/* The types of a statement's parameters, by the body of its ParameterDescription: how many there
 * are. As many as there is room for are written. */
ptrdiff_t pgmsg_read_parameter_types(const uint8_t *body, size_t body_len, uint32_t *types,
    size_t types_len, pgmsg_fault *fault);

/* The fields of an error or a notice, in order: how many there are. As many as there is room for
 * are written. */
size_t pgmsg_read_fields(const uint8_t *body, size_t body_len, pgmsg_field *fields,
    size_t fields_len);

/* The severity of an error or a notice: 0 PANIC, 1 FATAL, 2 ERROR, 3 WARNING, 4 NOTICE, 5 DEBUG, 6
 * INFO, 7 LOG. Where the message or the code isn't UTF-8, the call refuses with
 * PGMSG_NOTICE_NOT_UTF8; a body of the field `V` alone is read in any encoding. */
int32_t pgmsg_read_severity(const uint8_t *body, size_t body_len, pgmsg_fault *fault);

/* A notification, by the body of its NotificationResponse. 0, or why it is refused. */
int32_t pgmsg_read_notification(const uint8_t *body, size_t body_len,
    pgmsg_notification *notification, pgmsg_fault *fault);

/* A setting of the server, by the body of its ParameterStatus. 0, or why it is refused. */
int32_t pgmsg_read_parameter_status(const uint8_t *body, size_t body_len,
    pgmsg_parameter_status *status, pgmsg_fault *fault);

/* What a request to cancel has to name, by the body of a BackendKeyData of any version: its key has
 * 4 bytes in protocol 3.0, and up to 256 from 3.2 on. 0, or why it is refused. */
int32_t pgmsg_read_key_data(const uint8_t *body, size_t body_len, pgmsg_key_data *key,
    pgmsg_fault *fault);

/* What a command has done, by the body of its CommandComplete. 0, or why it is refused. */
int32_t pgmsg_read_command_complete(const uint8_t *body, size_t body_len, pgmsg_command *command,
    pgmsg_fault *fault);

/* The letter of the transaction's status, by the body of a ReadyForQuery: I where none is open, T
 * in one, E in one that has failed. */
int32_t pgmsg_read_ready(const uint8_t *body, size_t body_len, pgmsg_fault *fault);

/* The format of the data of a COPY, by the body of a CopyInResponse, a CopyOutResponse or a
 * CopyBothResponse: how many columns have a code. As many codes as there is room for are
 * written. */
ptrdiff_t pgmsg_read_copy_response(const uint8_t *body, size_t body_len,
    pgmsg_copy_response *response, int16_t *codes, size_t codes_len, pgmsg_fault *fault);

/* What the server asks for, by the body of its Authentication. Any method is read, and what follows
 * its number isn't looked at. 0, or why it is refused. */
int32_t pgmsg_read_authentication(const uint8_t *body, size_t body_len,
    pgmsg_authentication *authentication, pgmsg_fault *fault);

/* The mechanisms that the server offers, by the body of an Authentication of method 10: how many
 * there are. As many as there is room for are written. */
size_t pgmsg_read_mechanisms(const uint8_t *body, size_t body_len, pgmsg_span *mechanisms,
    size_t mechanisms_len);

/* The challenge of a SASL exchange, by the body of an Authentication of method 11. Salt and nonce
 * are written where their rooms are long enough. 0, or why it is refused: with PGMSG_NOT_UTF8 where
 * an item isn't UTF-8, which RFC 5802 asks for. */
int32_t pgmsg_read_challenge(const uint8_t *body, size_t body_len, pgmsg_challenge *challenge,
    uint8_t *salt, size_t salt_len, uint8_t *nonce, size_t nonce_len, pgmsg_fault *fault);

/* The verifier that ends a SASL exchange, by the body of an Authentication of method 12: its length
 * in bytes. It is written where its room is that long. */
ptrdiff_t pgmsg_read_verifier(const uint8_t *body, size_t body_len, uint8_t *verifier,
    size_t verifier_len, pgmsg_fault *fault);

/* The result of a function, by the body of its FunctionCallResponse: its `len` is -1 where it is
 * NULL. 0, or why it is refused. */
int32_t pgmsg_read_function_result(const uint8_t *body, size_t body_len, pgmsg_cell *value,
    pgmsg_fault *fault);

/* What a server doesn't speak, by the body of its NegotiateProtocolVersion: how many options of the
 * Startup it doesn't know. As many of their names as there is room for are written; the rest are
 * read too. */
ptrdiff_t pgmsg_read_negotiate_version(const uint8_t *body, size_t body_len,
    pgmsg_negotiation *version, pgmsg_span *options, size_t options_len, pgmsg_fault *fault);

/* The offset after the last part of a body, by the tag of its message: `body_len` where nothing
 * follows the parts that the documentation lists. A body is refused where a part can't be read or a
 * list has no end, and with PGMSG_UNKNOWN_MESSAGE_TYPE where the tag is none of the 21 that
 * sqlx-postgres knows. Texts are any bytes, and data of an exchange by GSSAPI, SSPI or SASL isn't
 * looked at, nor what follows the number of a method that no server has. */
ptrdiff_t pgmsg_read_end(uint8_t tag, const uint8_t *body, size_t body_len, pgmsg_fault *fault);

/* The first message of a connection at the front of a stream, or the one after an SSLRequest or a
 * GSSENCRequest: 1 where it is whole, 0 where more bytes are needed. It has no tag: where it is
 * whole, `tag` is 0, and `length` that of its length and its body. A length below 8 or above
 * `limit`, which is PGMSG_MAX_FIRST_LENGTH for PostgreSQL's own servers, is refused, whatever bytes
 * come after it. */
int32_t pgmsg_next_first_frame(const uint8_t *stream, size_t stream_len, size_t limit,
    pgmsg_frame *frame, pgmsg_fault *fault);

/* The message at the front of a stream from a client, after the first ones: 1 where it is whole, 0
 * where more bytes are needed; then `tag` is given as soon as its byte is there. A tag that no
 * message from a client has, or a length below 4, is refused, whatever bytes come after it. */
int32_t pgmsg_next_frontend_frame(const uint8_t *stream, size_t stream_len, pgmsg_frame *frame,
    pgmsg_fault *fault);

/* A first message, by its body. 0, or why it is refused. */
int32_t pgmsg_read_first(const uint8_t *body, size_t body_len, pgmsg_first *first,
    pgmsg_fault *fault);

/* The text of a Query, a CopyFail or a PasswordMessage, by its body: the bytes before its NUL. 0,
 * or why it is refused. */
int32_t pgmsg_read_text(const uint8_t *body, size_t body_len, pgmsg_span *text, pgmsg_fault *fault);

/* Whether a message has no body, as those of `pgmsg_put_no_body` have none: 0, or
 * PGMSG_TRAILING_BYTES where it has one, or PGMSG_BODY_TOO_LONG where that has more than 2147483643
 * bytes. */
int32_t pgmsg_read_no_body(const uint8_t *body, size_t body_len, pgmsg_fault *fault);

/* A Parse, by its body. 0, or why it is refused. */
int32_t pgmsg_read_parse(const uint8_t *body, size_t body_len, pgmsg_parse *parse,
    pgmsg_fault *fault);

/* What a Describe or a Close names, by its body. 0, or why it is refused. */
int32_t pgmsg_read_target(const uint8_t *body, size_t body_len, pgmsg_target *target,
    pgmsg_fault *fault);

/* An Execute, by its body. 0, or why it is refused. */
int32_t pgmsg_read_execute(const uint8_t *body, size_t body_len, pgmsg_execute *execute,
    pgmsg_fault *fault);

/* A SASLInitialResponse, by its body; a SASLResponse is the bytes of its body. 0, or why it is
 * refused. */
int32_t pgmsg_read_sasl_initial(const uint8_t *body, size_t body_len, pgmsg_sasl_initial *initial,
    pgmsg_fault *fault);

/* A portal to make of a prepared statement, by the body of a Bind: how many values it has. As many
 * as there is room for are written; the rest are read too. */
ptrdiff_t pgmsg_read_bind(const uint8_t *body, size_t body_len, pgmsg_cell *values,
    size_t values_len, pgmsg_bind *bind, pgmsg_fault *fault);

/* A call of a function, by the body of a FunctionCall: how many arguments it has. As many as there
 * is room for are written; the rest are read too. */
ptrdiff_t pgmsg_read_function_call(const uint8_t *body, size_t body_len, pgmsg_cell *arguments,
    size_t arguments_len, pgmsg_function_call *call, pgmsg_fault *fault);

/* The format codes of a list that `pgmsg_read_bind` or `pgmsg_read_function_call` gave of this
 * body: how many there are, 0 where the list isn't in the body. As many as there is room for are
 * written. A code is 0 for text and 1 for binary; others are no fault. */
size_t pgmsg_read_codes(const uint8_t *body, size_t body_len, pgmsg_list list, uint16_t *codes,
    size_t codes_len);

/* The types of the parameters in a list that `pgmsg_read_parse` gave of this body, or the numbers
 * of the tables in one that `pgmsg_read_logical` gave: how many there are, 0 where the list isn't
 * in the body. As many as there is room for are written. A type is 0 where the server is to find
 * it. */
size_t pgmsg_read_types(const uint8_t *body, size_t body_len, pgmsg_list list, uint32_t *types,
    size_t types_len);

/* The settings that open a session, by the body of a Startup, in the client's encoding: how many
 * there are. As many as there is room for are written. */
size_t pgmsg_read_settings(const uint8_t *body, size_t body_len, pgmsg_parameter_status *settings,
    size_t settings_len);

/* A request for authentication, by the number of its method and what follows it. 0 says that the
 * client is who it says, and 3 asks for its password as it is: nothing follows. 5 asks for the MD5
 * digest of its password, with the salt of four bytes that follows. 7 and 9 begin an exchange of
 * GSSAPI or SSPI, and 2 and 6 ask for Kerberos V5 and the credentials of a Unix socket, as servers
 * before versions 9.4 and 9.1 do: nothing follows. 8 is the next of an exchange of GSSAPI or SSPI,
 * 11 and 12 are the next and the last of a SASL exchange, whose data follows; 10 begins one, by
 * `pgmsg_put_authentication_sasl`. Of other numbers, or with another count of bytes, it is refused
 * with PGMSG_UNKNOWN_AUTHENTICATION. */
ptrdiff_t pgmsg_put_authentication(uint32_t method, const uint8_t *content, size_t content_len,
    uint8_t *out, size_t out_len);

/* A request for an exchange of SASL by one of these mechanisms, the best first. A name that is
 * empty or holds a NUL is refused as a text that holds a NUL: the client would read other names. */
ptrdiff_t pgmsg_put_authentication_sasl(const pgmsg_bytes *mechanisms, size_t mechanisms_len,
    uint8_t *out, size_t out_len);

/* The newest minor version of the protocol's version 3 that the server speaks, and the names of the
 * options that it doesn't know. A NUL in one is refused. The message has the whole version, as
 * PostgreSQL's servers send it. */
ptrdiff_t pgmsg_put_negotiate_version(uint16_t minor, const pgmsg_bytes *options,
    size_t options_len, uint8_t *out, size_t out_len);

/* The process that serves the client, and the secret key that a request to cancel its work has to
 * name too: 4 bytes, or up to 256 of a server that speaks version 3.2 of the protocol. Of another
 * length it is refused with PGMSG_BAD_KEY_LENGTH. */
ptrdiff_t pgmsg_put_backend_key_data(uint32_t process_id, const uint8_t *secret_key,
    size_t secret_key_len, uint8_t *out, size_t out_len);

/* The value of a setting, at the start of a session and whenever it changes. A NUL in a text is
 * refused. */
ptrdiff_t pgmsg_put_parameter_status(const uint8_t *name, size_t name_len, const uint8_t *value,
    size_t value_len, uint8_t *out, size_t out_len);

/* The server is ready for the next query. `status` is `I` where no transaction is open, `T` where
 * one is, and `E` where one is and has failed; another letter is refused with
 * PGMSG_UNKNOWN_STATUS. */
ptrdiff_t pgmsg_put_ready(uint8_t status, uint8_t *out, size_t out_len);

/* The columns of a result, at most 65535, else it is refused with PGMSG_TOO_MANY. A name that holds
 * a NUL is refused. */
ptrdiff_t pgmsg_put_columns(const pgmsg_column_text *columns, size_t columns_len, uint8_t *out,
    size_t out_len);

/* The values of a row, each in the format that was asked for, or NULL: at most 65535, else it is
 * refused with PGMSG_TOO_MANY. */
ptrdiff_t pgmsg_put_row(const pgmsg_value *values, size_t values_len, uint8_t *out, size_t out_len);

/* The types of the parameters of a statement: at most 65535, else it is refused with
 * PGMSG_TOO_MANY. */
ptrdiff_t pgmsg_put_parameter_types(const uint32_t *types, size_t types_len, uint8_t *out,
    size_t out_len);

/* A CommandComplete: a command has ended. `command` is its tag, as `INSERT 0 1`; a NUL in it is
 * refused. */
ptrdiff_t pgmsg_put_command_complete(const uint8_t *command, size_t command_len, uint8_t *out,
    size_t out_len);

/* Where the data of a COPY goes: to the server by a CopyInResponse, whose tag is `G`, from it by a
 * CopyOutResponse, `H`, and both ways by a CopyBothResponse, `W`; of other tags it is refused with
 * PGMSG_UNKNOWN_MESSAGE_TYPE. `format` is that of the data as a whole, and `codes` are those of the
 * columns, at most 32767, else it is refused with PGMSG_TOO_MANY: 0 is text and 1 binary. */
ptrdiff_t pgmsg_put_copy_response(uint8_t tag, int8_t format, const int16_t *codes,
    size_t codes_len, uint8_t *out, size_t out_len);

/* A FunctionCallResponse: the result of a function that was called, or NULL. */
ptrdiff_t pgmsg_put_function_result(const uint8_t *value, size_t value_len, bool is_null,
    uint8_t *out, size_t out_len);

/* A message with any tag and any body: what only passes through, or what this library doesn't
 * know. */
ptrdiff_t pgmsg_put_frame(uint8_t tag, const uint8_t *body, size_t body_len, uint8_t *out,
    size_t out_len);

/* An ErrorResponse, whose tag is `E`, or a NoticeResponse, `N`, by its fields in order: a client
 * asks for `S`, the severity, `C`, the code, and `M`, the message. A field of the letter 0, or a
 * text that holds a NUL, is refused: it would end the fields. Of other tags it is refused with
 * PGMSG_UNKNOWN_MESSAGE_TYPE. */
ptrdiff_t pgmsg_put_notice(uint8_t tag, const pgmsg_field_text *fields, size_t fields_len,
    uint8_t *out, size_t out_len);

/* A NotificationResponse: what the session was notified of, by which process, on which channel, and
 * what was said. A NUL in a text is refused. */
ptrdiff_t pgmsg_put_notification(uint32_t process_id, const uint8_t *channel, size_t channel_len,
    const uint8_t *payload, size_t payload_len, uint8_t *out, size_t out_len);

/* What the data of a CopyData says in replication, of either side. Places are in `content`. 0, or
 * why it is refused: of a letter of no kind with PGMSG_UNKNOWN_MESSAGE_TYPE, and where bytes follow
 * the last part of a message with PGMSG_TRAILING_BYTES. */
int32_t pgmsg_read_replication(const uint8_t *content, size_t content_len,
    pgmsg_replication *message, pgmsg_fault *fault);

/* A message of replication, as a whole CopyData. One of a letter of no kind is refused with
 * PGMSG_UNKNOWN_MESSAGE_TYPE, a NUL in a `name` or a `location` with PGMSG_TEXT_HOLDS_NUL, and a
 * message that is longer than a length field can say with PGMSG_MESSAGE_TOO_LONG. */
ptrdiff_t pgmsg_put_replication(const pgmsg_replication_text *message, uint8_t *out,
    size_t out_len);

/* The values of a row that `pgmsg_read_logical` gave of this content: how many there are. As many
 * as there is room for are written; the rest are read too. A row that it gave is not refused. */
ptrdiff_t pgmsg_read_tuple(const uint8_t *content, size_t content_len, pgmsg_list list,
    pgmsg_datum *values, size_t values_len, pgmsg_fault *fault);

/* The columns of a table that `pgmsg_read_logical` gave of this content: how many there are. As
 * many as there is room for are written; the rest are read too. A list that it gave is not
 * refused. */
ptrdiff_t pgmsg_read_table_columns(const uint8_t *content, size_t content_len, pgmsg_list list,
    pgmsg_table_column *columns, size_t columns_len, pgmsg_fault *fault);

/* What the content of an XLogData of a logical slot says, or a row of
 * `pg_logical_slot_get_binary_changes`, in the versions 1 to 3 of the protocol: how many values its
 * `new_row` has, 0 where it has none. As many as there is room for are written, and
 * `pgmsg_read_tuple` gives all. `streamed` is the caller's, false before the first message of a
 * slot, and passed with each in order: a Stream Start sets it, and a Stream Stop clears it. Places
 * are in `content`. A message is refused with PGMSG_UNKNOWN_MESSAGE_TYPE where no kind has its
 * letter, with PGMSG_UNKNOWN_LETTER where no row or value has one, and with PGMSG_TRAILING_BYTES
 * where bytes follow its last part. */
ptrdiff_t pgmsg_read_logical(const uint8_t *content, size_t content_len, bool *streamed,
    pgmsg_datum *values, size_t values_len, pgmsg_logical *message, pgmsg_fault *fault);

/* A message of logical replication, as the content of an XLogData, which `pgmsg_put_replication`
 * writes as a CopyData of the letter `w`. Refused with PGMSG_UNKNOWN_MESSAGE_TYPE where its letter
 * is of no kind, and with PGMSG_UNKNOWN_LETTER where that of an old row or of a value in its rows
 * is; then for the first of its parts that breaks a limit, with PGMSG_TOO_MANY where a row has more
 * than 65535 values or a table more columns, or with PGMSG_TEXT_HOLDS_NUL for a NUL in a `schema`
 * or a `name`, also of a column; then with PGMSG_MESSAGE_TOO_LONG where it is longer than
 * 2147483643 bytes. */
ptrdiff_t pgmsg_put_logical(const pgmsg_logical_text *message, uint8_t *out, size_t out_len);

/* What is at the front of a stream that is passed on: 1 for a whole message that is wanted whole,
 * or a first one; 2 for the next bytes of one that isn't; 0 where more bytes are needed. Messages
 * with a tag are wanted whole where `wanted` has no 0 at the tag; a first message always is. While
 * a message goes on in parts, `tag` stays as it is. The call refuses a length below 4, or below 8
 * for a first message, and a message that is wanted whole and is longer than `limit`. */
int32_t pgmsg_relay_next(pgmsg_relay *relay, const uint8_t wanted[256], const uint8_t *stream,
    size_t stream_len, pgmsg_passage *passage, pgmsg_fault *fault);

/* Whether bytes are whole messages one after the other, so that they may be added to a stream.
 * `is_first` says whether the first of them is a first message. Where they are, the call returns 0
 * and sets `is_first` for what comes after them; else it refuses. */
int32_t pgmsg_check_frames(const uint8_t *bytes, size_t bytes_len, bool *is_first,
    pgmsg_fault *fault);

/* Begins to follow the session of a client that has said nothing yet. */
void pgmsg_flow_client(pgmsg_flow *flow);

/* Begins to follow the session of a server that has taken nothing yet. */
void pgmsg_flow_server(pgmsg_flow *flow);

/* Takes a message of the client, as a client before the message is sent and a server when it has
 * come: 1 where it is a request, and its `number`; 0 where it is none. A message without a tag has
 * the tag 0, and its body begins with its code. Six bytes of a body are enough. Refused where the
 * message can't come now, which changes nothing, and with PGMSG_FLOW_FULL where 1025 requests wait
 * or no memory is there. */
int32_t pgmsg_flow_said(pgmsg_flow *flow, uint8_t tag, const uint8_t *body, size_t body_len,
    uint64_t *number, pgmsg_fault *fault);

/* Takes a message of the server, as a client when it has come and a server before the message is
 * sent, and gives which request it answers: PGMSG_HEARD_ANSWER, PGMSG_HEARD_GROUP, or another of
 * these numbers where it answers none. The byte that answers a request for encryption is a tag,
 * with no body. Four bytes of a body are enough, and of a run of DataRow the first. Refused where
 * the message can't come now, which changes nothing: a client closes the connection then. Refused
 * too with PGMSG_FLOW_FULL where no memory is there, which is needed while more than one request
 * waits. */
int32_t pgmsg_flow_heard(pgmsg_flow *flow, uint8_t tag, const uint8_t *body, size_t body_len,
    pgmsg_heard *heard, pgmsg_fault *fault);

#ifdef __cplusplus
}
#endif

#endif
