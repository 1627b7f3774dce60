/* The arithmetic of passwords, by libcrypto. */
#ifndef SECRETS_H
#define SECRETS_H

#include "status.h"

enum {
    MD5_LENGTH = 16,
    SHA_LENGTH = 32,
    SHA_BASE64_ROOM = 45, /* for 32 bytes in base64, and a NUL */
    NONCE_ROOM = 25       /* for 18 bytes in base64, and a NUL */
};

/* What a server with method 5 asks for: the digest of the salt after the hexadecimal digest of the
 * user's name after the password. */
enum status md5_of_password(const char *password, const char *user, const uint8_t salt[4],
                            uint8_t digest[MD5_LENGTH]);

/* A text that nobody can guess. */
enum status make_nonce(char nonce[NONCE_ROOM]);

/* What SCRAM-SHA-256 makes of a password and of what was said. */
struct scram_keys {
    uint8_t proof[SHA_LENGTH];     /* that the client knows the password */
    uint8_t signature[SHA_LENGTH]; /* that the server does */
};

/* How a password is salted. */
struct salting {
    const uint8_t *salt;
    size_t salt_len;
    uint32_t iterations;
};

enum status scram_keys_of(const char *password, const struct salting *salting, const uint8_t *said,
                          size_t said_len, struct scram_keys *keys);

/* Thirty-two bytes in base64. */
void base64_of(const uint8_t bytes[SHA_LENGTH], char text[SHA_BASE64_ROOM]);

/* Whether thirty-two bytes are the same, in a time that doesn't depend on them. */
bool are_equal(const uint8_t one[SHA_LENGTH], const uint8_t other[SHA_LENGTH]);

#endif
