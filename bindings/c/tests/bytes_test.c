/* Tests the message layer over bytes that are written down here by the documentation of PostgreSQL, "Message
 * Formats": each call once as it should go, and once as it refuses, where it does other than for memory. The words of
 * a fault are also tested with memory for them; all else is without any: each request is refused. No server is needed. */
#define _DEFAULT_SOURCE

#include "bytes_test.h"
#include "refusing.h"

#include <sys/mman.h>

void with_zeros(struct tally *tally, size_t len, void (*test)(struct tally *tally, const uint8_t *zeros))
{
    void *zeros = mmap(NULL, len, PROT_READ, MAP_PRIVATE | MAP_ANONYMOUS | MAP_NORESERVE, -1, 0);
    CHECK(tally, zeros != MAP_FAILED);
    if (zeros == MAP_FAILED)
        return;
    test(tally, zeros);
    CHECK(tally, munmap(zeros, len) == 0);
}

static void (*const tests[])(struct tally *tally) = {
    test_put,    test_put_faults, test_read,          test_read_login,  test_client,  test_client_lists, test_faults,
    test_relay,  test_server,     test_server_faults, test_replication, test_logical, test_logical_put,
    test_flow,
};

int main(void)
{
    struct tally tally = {0};
    for (size_t i = 0; i < sizeof tests / sizeof *tests; i++) {
        refuse_all();
        tests[i](&tally);
    }
    return report(&tally);
}
