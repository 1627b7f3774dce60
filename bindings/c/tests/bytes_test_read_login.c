/* What a server asks of a client that logs in. */
#include "bytes_test.h"

#include <string.h>

static void test_methods(struct tally *tally)
{
    static const char body[] = "\0\0\0\10" "token";
    pgmsg_authentication asked;
    pgmsg_fault fault;
    CHECK(tally, pgmsg_read_authentication(BYTES("\0\0\0\0"), &asked, &fault) == 0 && asked.method == 0);
    CHECK(tally, asked.content.at == 4 && asked.content.len == 0);
    CHECK(tally, pgmsg_read_authentication(BYTES("\0\0\0\5" "\1\2\3\4"), &asked, &fault) == 0);
    CHECK(tally, asked.method == 5 && asked.content.at == 4 && asked.content.len == 4);
    CHECK(tally, pgmsg_read_authentication(BYTES(body), &asked, &fault) == 0);
    CHECK(tally, asked.method == 8 && are_bytes((const uint8_t *)body + asked.content.at, asked.content.len, "token", 5));
    CHECK(tally, pgmsg_read_authentication(BYTES("\377\0\0\1"), &asked, &fault) == 0 && asked.method == 0xff000001);
    CHECK(tally, pgmsg_read_authentication(BYTES("\0\0\0\13" "r"), &asked, &fault) == 0);
    CHECK(tally, asked.method == 11 && asked.content.len == 1);
    CHECK(tally, pgmsg_read_authentication(BYTES("\0\0\0"), &asked, &fault) == PGMSG_SHORT);
    CHECK(tally, asked.method == 11 && fault.at == 0);
}

static void test_mechanisms(struct tally *tally)
{
    static const char body[] = "\0\0\0\12" "SCRAM-SHA-256-PLUS\0" "caf\351\0" "\0";
    pgmsg_span spans[3];
    memset(spans, UNTOUCHED, sizeof spans);
    CHECK(tally, pgmsg_read_mechanisms(BYTES(body), spans, 3) == 2);
    CHECK(tally, are_bytes((const uint8_t *)body + spans[0].at, spans[0].len, "SCRAM-SHA-256-PLUS", 18));
    CHECK(tally, are_bytes((const uint8_t *)body + spans[1].at, spans[1].len, "caf\351", 4));
    CHECK(tally, are_untouched(&spans[2], sizeof *spans));
    memset(spans, UNTOUCHED, sizeof spans);
    CHECK(tally, pgmsg_read_mechanisms(BYTES(body), spans, 1) == 2 && are_untouched(&spans[1], 2 * sizeof *spans));
    CHECK(tally, pgmsg_read_mechanisms(BYTES("\0\0\0\12" "A"), spans, 3) == 0);
    CHECK(tally, pgmsg_read_mechanisms(BYTES("\0\0"), spans, 3) == 0);
}

static void test_challenges(struct tally *tally)
{
    static const char body[] = "\0\0\0\13" "r=abc,s=AQID,i=8192";
    pgmsg_challenge challenge;
    uint8_t salt[4] = "----", nonce[4] = "----";
    pgmsg_fault fault;
    CHECK(tally, pgmsg_read_challenge(BYTES(body), &challenge, salt, 4, nonce, 4, &fault) == 0);
    CHECK(tally, challenge.iterations == 8192 && challenge.salt_len == 3 && challenge.nonce_len == 3);
    CHECK(tally, memcmp(salt, "\1\2\3-", 4) == 0 && memcmp(nonce, "abc-", 4) == 0);
    memcpy(salt, "----", 4);
    memcpy(nonce, "----", 4);
    CHECK(tally, pgmsg_read_challenge(BYTES(body), &challenge, salt, 2, nonce, 2, &fault) == 0);
    CHECK(tally, challenge.salt_len == 3 && challenge.nonce_len == 3);
    CHECK(tally, memcmp(salt, "----", 4) == 0 && memcmp(nonce, "----", 4) == 0);
    CHECK(tally, pgmsg_read_challenge(BYTES("\0\0\0\13" "s=?"), &challenge, salt, 4, nonce, 4, &fault)
                     == PGMSG_BASE64);
    CHECK(tally, pgmsg_read_challenge(BYTES("\0\0\0\13" "r"), &challenge, salt, 4, nonce, 4, &fault)
                     == PGMSG_SHORT_SASL_ITEM);
    CHECK(tally, pgmsg_read_challenge(BYTES("\0\0\0\13" "r=\344"), &challenge, salt, 4, nonce, 4, &fault)
                     == PGMSG_NOT_UTF8);
    /* A body of another method. */
    CHECK(tally, pgmsg_read_challenge(BYTES("\0\0\0\0"), &challenge, salt, 4, nonce, 4, &fault) < 0);
}

static void test_verifiers(struct tally *tally)
{
    uint8_t verifier[4] = "----";
    pgmsg_fault fault;
    CHECK(tally, pgmsg_read_verifier(BYTES("\0\0\0\14" "v=AQID"), verifier, 2, &fault) == 3);
    CHECK(tally, memcmp(verifier, "----", 4) == 0);
    CHECK(tally, pgmsg_read_verifier(BYTES("\0\0\0\14" "v=AQID"), verifier, 4, &fault) == 3);
    CHECK(tally, memcmp(verifier, "\1\2\3-", 4) == 0);
    CHECK(tally, pgmsg_read_verifier(BYTES("\0\0\0\14" "e=no"), verifier, 4, &fault) == 0);
    CHECK(tally, pgmsg_read_verifier(BYTES("\0\0\0\14" "v=?"), verifier, 4, &fault) == PGMSG_BASE64);
    CHECK(tally, pgmsg_read_verifier(BYTES("\0\0\0\3"), verifier, 4, &fault) < 0);
}

/* Base64 of more than one piece: padding stands at its end alone, and what is wrong is found in each. */
static void test_long_verifiers(struct tally *tally)
{
    uint8_t body[6 + 200] = "\0\0\0\14v=", verifier[150];
    pgmsg_fault fault;
    for (size_t groups = 1; groups <= 50; groups++) {
        size_t len = 6 + 4 * groups;
        memset(body + 6, 'A', 4 * groups);
        memset(verifier, 0xaa, sizeof verifier);
        CHECK(tally, pgmsg_read_verifier(body, len, verifier, 3 * groups, &fault) == (ptrdiff_t)(3 * groups));
        CHECK(tally, verifier[0] == 0 && verifier[3 * groups - 1] == 0);
        body[len - 1] = '=';
        CHECK(tally, pgmsg_read_verifier(body, len, verifier, 3 * groups, &fault) == (ptrdiff_t)(3 * groups) - 1);
        CHECK(tally, pgmsg_read_verifier(body, len - 1, verifier, 3 * groups, &fault) == PGMSG_BASE64);
        for (size_t at = 6; at + 1 < len; at++) {
            body[at] = '=';
            int32_t due = at + 2 == len ? 0 : PGMSG_BASE64;
            CHECK(tally, pgmsg_read_verifier(body, len, verifier, 0, &fault) == (due ? due : (ptrdiff_t)(3 * groups) - 2));
            body[at] = 'A';
        }
    }
}

void test_read_login(struct tally *tally)
{
    test_methods(tally);
    test_mechanisms(tally);
    test_challenges(tally);
    test_verifiers(tally);
    test_long_verifiers(tally);
}
