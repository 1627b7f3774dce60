#include "scram.h"

#include <stdio.h>
#include <string.h>

enum {
    MECHANISMS = 16,
    SALT_ROOM = 256,
    SERVER_NONCE_ROOM = 512,
    FINAL_ROOM = SERVER_NONCE_ROOM + SHA_BASE64_ROOM + 32,
    FIRST_ROOM = NONCE_ROOM + 32,
    /* A server may ask for any number; more takes many seconds. */
    MOST_ITERATIONS = 10000000,
    /* The bytes of a body before the data of SASL. */
    METHOD_LENGTH = 4
};

/* Without a user's name, as the server takes that of the session. */
#define FIRST_BARE "n=,r=%s"

static const char wanted[] = "SCRAM-SHA-256";

static bool is_offered(const struct message *message)
{
    pgmsg_span offered[MECHANISMS];
    size_t count = pgmsg_read_mechanisms(message->body, message->len, offered, MECHANISMS);
    for (size_t i = 0; i < count && i < MECHANISMS; i++)
        if (offered[i].len == sizeof wanted - 1
            && memcmp(message->body + offered[i].at, wanted, sizeof wanted - 1) == 0)
            return true;
    return false;
}

enum status scram_begin(struct scram *scram, struct connection *connection, const struct message *message)
{
    char first[FIRST_ROOM];
    if (!is_offered(message))
        return complain(STATUS_REFUSED, "the server offers no SCRAM-SHA-256");
    enum status status = make_nonce(scram->nonce);
    if (status != STATUS_OK)
        return status;
    int len = snprintf(first, sizeof first, "n,," FIRST_BARE, scram->nonce);
    PUT(connection, pgmsg_put_sasl_initial((const uint8_t *)wanted, sizeof wanted - 1, true, (const uint8_t *)first, (size_t)len,
                                           SPARE(connection)));
    return connection_flush(connection);
}

/* What a challenge says. */
struct challenge {
    pgmsg_challenge read;
    uint8_t salt[SALT_ROOM];
    char nonce[SERVER_NONCE_ROOM];
};

static enum status read_challenge(const struct scram *scram, const struct message *message,
                                  struct challenge *challenge)
{
    pgmsg_fault fault;
    size_t own_len = strlen(scram->nonce);
    if (pgmsg_read_challenge(message->body, message->len, &challenge->read, challenge->salt, SALT_ROOM,
                             (uint8_t *)challenge->nonce, SERVER_NONCE_ROOM - 1, &fault) < 0)
        return complain_of_fault(&fault);
    const pgmsg_challenge *read = &challenge->read;
    if (read->salt_len == 0 || read->salt_len > SALT_ROOM || read->nonce_len >= SERVER_NONCE_ROOM)
        return complain(STATUS_PROTOCOL, "the salt or the nonce of the server is too long, or isn't there");
    challenge->nonce[read->nonce_len] = '\0';
    if (read->nonce_len <= own_len || memcmp(challenge->nonce, scram->nonce, own_len) != 0)
        return complain(STATUS_PROTOCOL, "the server's nonce doesn't begin with the client's");
    if (read->iterations == 0 || read->iterations > MOST_ITERATIONS)
        return complain(STATUS_PROTOCOL, "the server asks for %u iterations", (unsigned)read->iterations);
    return STATUS_OK;
}

/* All that was said, between commas: the client's first message, the challenge, and the client's final
 * message up to its proof. */
static enum status make_keys(const struct scram *scram, const char *password,
                             const struct message *message, const struct challenge *challenge,
                             const char *final, struct scram_keys *keys)
{
    char first[FIRST_ROOM];
    struct buffer said;
    snprintf(first, sizeof first, FIRST_BARE ",", scram->nonce);
    if (!buffer_make(&said, message->len + FIRST_ROOM + FINAL_ROOM))
        return complain_of_memory();
    enum status status = STATUS_OK;
    if (!buffer_add_text(&said, first)
        || !buffer_add(&said, message->body + METHOD_LENGTH, message->len - METHOD_LENGTH)
        || !buffer_add_text(&said, ",") || !buffer_add_text(&said, final))
        status = complain_of_memory();
    const struct salting salting = {challenge->salt, challenge->read.salt_len, challenge->read.iterations};
    if (status == STATUS_OK)
        status = scram_keys_of(password, &salting, said.bytes, said.end, keys);
    buffer_free(&said);
    return status;
}

enum status scram_answer(struct scram *scram, struct connection *connection, const char *password,
                         const struct message *message)
{
    struct challenge challenge;
    struct scram_keys keys;
    char final[FINAL_ROOM], proof[SHA_BASE64_ROOM];
    enum status status = read_challenge(scram, message, &challenge);
    if (status != STATUS_OK)
        return status;
    /* "biws" is "n,," in base64: no channel binding. */
    snprintf(final, sizeof final, "c=biws,r=%s", challenge.nonce);
    status = make_keys(scram, password, message, &challenge, final, &keys);
    if (status != STATUS_OK)
        return status;
    memcpy(scram->signature, keys.signature, SHA_LENGTH);
    base64_of(keys.proof, proof);
    int len = snprintf(final, sizeof final, "c=biws,r=%s,p=%s", challenge.nonce, proof);
    PUT(connection, pgmsg_put_sasl_response((const uint8_t *)final, (size_t)len, SPARE(connection)));
    return connection_flush(connection);
}

enum status scram_verify(struct scram *scram, const struct message *message)
{
    uint8_t verifier[SHA_LENGTH];
    pgmsg_fault fault;
    ptrdiff_t len = pgmsg_read_verifier(message->body, message->len, verifier, sizeof verifier, &fault);
    if (len < 0)
        return complain_of_fault(&fault);
    if (len != SHA_LENGTH || !are_equal(verifier, scram->signature))
        return complain(STATUS_PROTOCOL, "the server doesn't know the password: it is another one");
    return STATUS_OK;
}
