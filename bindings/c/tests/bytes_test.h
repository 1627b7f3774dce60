/* What the tests over bytes share. */
#ifndef BYTES_TEST_H
#define BYTES_TEST_H

#include "pg_message.h"
#include "tally.h"

/* A message that a call writes, with its bytes. */
struct sample {
    ptrdiff_t (*put)(uint8_t *out, size_t out_len);
    const char *bytes;
    size_t len;
};

/* A message of each call that writes one: of those to the server, and of those to a client. */
const struct sample *put_samples(size_t *count);
const struct sample *server_samples(size_t *count);

/* Puts messages into rooms, some of which are too short. */
void test_rooms(struct tally *tally, const struct sample *put, size_t count);

/* Passes a test so many zeros, none of which takes memory before it is read. */
void with_zeros(struct tally *tally, size_t len, void (*test)(struct tally *tally, const uint8_t *zeros));

void test_put(struct tally *tally);
void test_put_faults(struct tally *tally);
void test_read(struct tally *tally);
void test_read_login(struct tally *tally);
void test_client(struct tally *tally);
void test_client_lists(struct tally *tally);
void test_flow(struct tally *tally);
void test_logical(struct tally *tally);
void test_logical_put(struct tally *tally);
void test_relay(struct tally *tally);
void test_replication(struct tally *tally);
void test_server(struct tally *tally);
void test_server_faults(struct tally *tally);
void test_faults(struct tally *tally);

#endif
