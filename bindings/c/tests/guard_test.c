/* Tests that a call touches nothing beside the memory that it is passed: that lies right before or right after a
 * page that can't be touched. */
#define _DEFAULT_SOURCE

#include "guard_test.h"

#include <signal.h>
#include <stdio.h>
#include <stdlib.h>
#include <string.h>
#include <sys/mman.h>
#include <unistd.h>

static const char *volatile running = "no call";

struct guarded guarded_page(void)
{
    size_t size = (size_t)sysconf(_SC_PAGESIZE);
    uint8_t *pages = mmap(NULL, 3 * size, PROT_NONE, MAP_PRIVATE | MAP_ANONYMOUS, -1, 0);
    if (pages == MAP_FAILED || mprotect(pages + size, size, PROT_READ | PROT_WRITE) != 0) {
        perror("guard_test");
        exit(1);
    }
    return (struct guarded){pages + size, pages + 2 * size};
}

uint8_t *place(const struct guarded *page, size_t len, enum side side)
{
    return side == AT_FRONT ? page->from : page->end - len;
}

void name_call(const char *name)
{
    running = name;
}

static void stop(int number)
{
    static const char words[] = " touches memory beside what it is passed\n";
    (void)number;
    ssize_t ignored = write(STDERR_FILENO, running, strlen(running));
    ignored = write(STDERR_FILENO, words, sizeof words - 1);
    (void)ignored;
    _exit(2);
}

int main(void)
{
    struct tally tally = {0};
    struct sigaction action = {.sa_handler = stop};
    if (sigaction(SIGSEGV, &action, NULL) != 0 || sigaction(SIGBUS, &action, NULL) != 0)
        return 1;
    test_guarded_put(&tally);
    test_guarded_read(&tally);
    return report(&tally);
}
