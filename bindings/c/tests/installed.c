/* What a program needs of an installation: the header, and a library to link. */
#include <pg_message.h>

#include <stdio.h>
#include <string.h>

#ifdef OTHER
/* The same call of another library that this toolchain made. */
ptrdiff_t other_put_query(const uint8_t *query, size_t query_len, uint8_t *out, size_t out_len);
#endif

int main(void)
{
    uint8_t out[64];
    ptrdiff_t len = pgmsg_put_query(pgmsg_text("SELECT 1"), out, sizeof out);
    if (len != 14 || memcmp(out, "Q\0\0\0\x0dSELECT 1", 14) != 0)
        return 1;
#ifdef OTHER
    uint8_t other[64];
    if (other_put_query((const uint8_t *)"SELECT 1", 8, other, sizeof other) != len || memcmp(out, other, 14) != 0)
        return 1;
#endif
    if (strncmp(pgmsg_version(), PGMSG_VERSION " ", sizeof PGMSG_VERSION) != 0)
        return 1;
    puts(PGMSG_VERSION);
    return 0;
}
