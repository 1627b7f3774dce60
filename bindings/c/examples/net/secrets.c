#include "secrets.h"

#include <openssl/crypto.h>
#include <openssl/evp.h>
#include <openssl/hmac.h>
#include <openssl/rand.h>
#include <string.h>

enum { NONCE_BYTES = 18 };

static enum status complain_of_libcrypto(const char *what)
{
    return complain(STATUS_REFUSED, "libcrypto gives no %s", what);
}

/* The MD5 digest of two texts, one after the other. */
static bool md5(const void *first, size_t first_len, const void *second, size_t second_len,
                uint8_t digest[MD5_LENGTH])
{
    EVP_MD_CTX *context = EVP_MD_CTX_new();
    bool is_made = context != NULL && EVP_DigestInit_ex(context, EVP_md5(), NULL) == 1
        && EVP_DigestUpdate(context, first, first_len) == 1
        && EVP_DigestUpdate(context, second, second_len) == 1
        && EVP_DigestFinal_ex(context, digest, NULL) == 1;
    EVP_MD_CTX_free(context);
    return is_made;
}

enum status md5_of_password(const char *password, const char *user, const uint8_t salt[4],
                            uint8_t digest[MD5_LENGTH])
{
    static const char digits[] = "0123456789abcdef";
    uint8_t inner[MD5_LENGTH];
    char text[2 * MD5_LENGTH];
    bool is_made = md5(password, strlen(password), user, strlen(user), inner);
    for (size_t i = 0; is_made && i < MD5_LENGTH; i++) {
        text[2 * i] = digits[inner[i] >> 4];
        text[2 * i + 1] = digits[inner[i] & 15];
    }
    is_made = is_made && md5(text, sizeof text, salt, 4, digest);
    /* With the user's name the text is as good as the password. */
    OPENSSL_cleanse(inner, sizeof inner);
    OPENSSL_cleanse(text, sizeof text);
    return is_made ? STATUS_OK : complain_of_libcrypto("MD5");
}

enum status make_nonce(char nonce[NONCE_ROOM])
{
    uint8_t bytes[NONCE_BYTES];
    if (RAND_bytes(bytes, sizeof bytes) != 1)
        return complain_of_libcrypto("random bytes");
    EVP_EncodeBlock((uint8_t *)nonce, bytes, sizeof bytes);
    return STATUS_OK;
}

static bool hmac(const uint8_t key[SHA_LENGTH], const void *text, size_t len, uint8_t code[SHA_LENGTH])
{
    return HMAC(EVP_sha256(), key, SHA_LENGTH, text, len, code, NULL) != NULL;
}

static bool hmac_of_text(const uint8_t key[SHA_LENGTH], const char *text, uint8_t code[SHA_LENGTH])
{
    return hmac(key, text, strlen(text), code);
}

/* RFC 5802, section 3. */
static bool make_keys(const uint8_t salted[SHA_LENGTH], const uint8_t *said, size_t said_len,
                      struct scram_keys *keys)
{
    uint8_t client_key[SHA_LENGTH], stored_key[SHA_LENGTH], server_key[SHA_LENGTH];
    bool are_made = hmac_of_text(salted, "Client Key", client_key)
        && EVP_Digest(client_key, SHA_LENGTH, stored_key, NULL, EVP_sha256(), NULL) == 1
        && hmac(stored_key, said, said_len, keys->proof) && hmac_of_text(salted, "Server Key", server_key)
        && hmac(server_key, said, said_len, keys->signature);
    for (size_t i = 0; are_made && i < SHA_LENGTH; i++)
        keys->proof[i] ^= client_key[i];
    OPENSSL_cleanse(client_key, sizeof client_key);
    OPENSSL_cleanse(stored_key, sizeof stored_key);
    OPENSSL_cleanse(server_key, sizeof server_key);
    return are_made;
}

enum status scram_keys_of(const char *password, const struct salting *salting, const uint8_t *said,
                          size_t said_len, struct scram_keys *keys)
{
    uint8_t salted[SHA_LENGTH];
    bool are_made = PKCS5_PBKDF2_HMAC(password, (int)strlen(password), salting->salt, (int)salting->salt_len,
                                      (int)salting->iterations, EVP_sha256(), SHA_LENGTH, salted) == 1
        && make_keys(salted, said, said_len, keys);
    OPENSSL_cleanse(salted, sizeof salted);
    return are_made ? STATUS_OK : complain_of_libcrypto("SHA-256");
}

void base64_of(const uint8_t bytes[SHA_LENGTH], char text[SHA_BASE64_ROOM])
{
    EVP_EncodeBlock((uint8_t *)text, bytes, SHA_LENGTH);
}

bool are_equal(const uint8_t one[SHA_LENGTH], const uint8_t other[SHA_LENGTH])
{
    return CRYPTO_memcmp(one, other, SHA_LENGTH) == 0;
}
