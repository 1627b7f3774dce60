/* A login by SCRAM-SHA-256, without channel binding. Documentation: "SASL Authentication"; RFC 5802. */
#ifndef SCRAM_H
#define SCRAM_H

#include "connection.h"
#include "secrets.h"

/* The connection sees to it that what the server says comes in order. */
struct scram {
    char nonce[NONCE_ROOM];
    uint8_t signature[SHA_LENGTH]; /* what the server is to show */
};

/* Takes the list of mechanisms, and sends the first message. */
enum status scram_begin(struct scram *scram, struct connection *connection, const struct message *message);

/* Takes the challenge, and sends the proof. */
enum status scram_answer(struct scram *scram, struct connection *connection, const char *password,
                         const struct message *message);

/* Takes the server's signature. */
enum status scram_verify(struct scram *scram, const struct message *message);

#endif
