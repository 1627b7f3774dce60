#include "connection.h"
#include "scram.h"

#include <stdlib.h>
#include <string.h>

/* What the server asks for, by the numbers of the protocol. */
enum method {
    METHOD_ACCEPTED = 0,
    METHOD_CLEAR_TEXT = 3,
    METHOD_MD5 = 5,
    METHOD_SASL = 10,
    METHOD_SASL_CHALLENGE = 11,
    METHOD_SASL_VERIFIER = 12
};

/* How far a login is. */
struct login {
    struct connection *connection;
    const struct options *options;
    struct scram scram;
};

static pgmsg_setting setting(const char *name, const char *value)
{
    return (pgmsg_setting){
        .name = (const uint8_t *)name,
        .name_len = strlen(name),
        .value = (const uint8_t *)value,
        .value_len = strlen(value),
    };
}

static enum status send_startup(struct connection *connection, const struct options *options)
{
    const char *encoding = getenv("PGCLIENTENCODING");
    const pgmsg_setting settings[] = {
        setting("user", options->user),
        setting("database", options->database),
        setting("application_name", options->application),
        setting("client_encoding", encoding != NULL && *encoding != '\0' ? encoding : "UTF8"),
    };
    PUT(connection, pgmsg_put_startup(0, settings, sizeof settings / sizeof *settings, SPARE(connection)));
    return connection_flush(connection);
}

static enum status send_clear_text(struct login *login)
{
    const char *password = login->options->password;
    PUT(login->connection,
        pgmsg_put_password((const uint8_t *)password, strlen(password), SPARE(login->connection)));
    return connection_flush(login->connection);
}

static enum status send_md5(struct login *login, const pgmsg_authentication *asked, const struct message *message)
{
    uint8_t digest[MD5_LENGTH];
    pgmsg_fault fault;
    if (pgmsg_read_end(message->tag, message->body, message->len, &fault) < 0)
        return complain_of_fault(&fault);
    const uint8_t *salt = message->body + asked->content.at;
    enum status status = md5_of_password(login->options->password, login->options->user, salt, digest);
    if (status != STATUS_OK)
        return status;
    PUT(login->connection, pgmsg_put_md5_password(digest, SPARE(login->connection)));
    return connection_flush(login->connection);
}

/* Answers with the password, for which the connection lets a server ask once. */
static enum status answer_with_password(struct login *login, const pgmsg_authentication *asked,
                                        const struct message *message)
{
    if (login->options->password == NULL)
        return complain(STATUS_REFUSED, "the server asks for a password: set PGPASSWORD");
    switch (asked->method) {
    case METHOD_CLEAR_TEXT: return send_clear_text(login);
    case METHOD_MD5: return send_md5(login, asked, message);
    default: return scram_begin(&login->scram, login->connection, message);
    }
}

static enum status answer(struct login *login, const struct message *message)
{
    pgmsg_authentication asked;
    pgmsg_fault fault;
    if (pgmsg_read_authentication(message->body, message->len, &asked, &fault) < 0)
        return complain_of_fault(&fault);
    switch (asked.method) {
    case METHOD_ACCEPTED: return STATUS_OK;
    case METHOD_CLEAR_TEXT:
    case METHOD_MD5:
    case METHOD_SASL: return answer_with_password(login, &asked, message);
    case METHOD_SASL_CHALLENGE:
        return scram_answer(&login->scram, login->connection, login->options->password, message);
    case METHOD_SASL_VERIFIER: return scram_verify(&login->scram, message);
    default: return complain(STATUS_REFUSED, "unknown authentication method: %u", (unsigned)asked.method);
    }
}

static enum status take(struct login *login, const struct message *message)
{
    switch (message->tag) {
    case 'R': return answer(login, message);
    case 'E': report(message); return STATUS_REFUSED;
    case 'N': report(message); return STATUS_OK;
    case 'Z': return check_ready(message);
    default: return STATUS_OK;
    }
}

enum status log_in(struct connection *connection, const struct options *options)
{
    struct login login = {.connection = connection, .options = options};
    enum status status = send_startup(connection, options);
    while (status == STATUS_OK && connection->flow.mode == PGMSG_MODE_LOGIN) {
        struct message message;
        status = connection_receive(connection, &message);
        if (status == STATUS_OK)
            status = take(&login, &message);
    }
    return status;
}
