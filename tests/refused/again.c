// Has each request for memory of a test refused in turn: at each, a child goes on without that memory to the end of
// the test or of its round, before the test itself goes on with it. Each may end as docs/ASSURANCE.md says. Some tests are run
// once: those that refuse requests at every size themselves, and that of a stored run, which makes too many.
#include "grants.h"
#include "planted.h"

#include <signal.h>
#include <stdio.h>
#include <stdlib.h>
#include <string.h>
#include <sys/syscall.h>
#include <sys/wait.h>
#include <unistd.h>

// How a test ends whose result is an error; a failed assertion ends by a signal.
#define RESULT_IS_AN_ERROR 101

// What is written where a test has ended, in which case the program first looks at the name of each other test.
#define ENDED_WELL "\ntest result: ok\n"
#define ENDED_BY_AN_ERROR "the test failed: its result gives status 1\n"

// What the address sanitizer runs where nothing takes the place of its functions of two underscores.
void *___interceptor_malloc(size_t size);
void *___interceptor_realloc(void *old, size_t size);
ssize_t ___interceptor_write(int file, const void *bytes, size_t count);

// How the names of the tests begin that are run once.
static const char *const once[] = {
    "memory::",
    "pg_answers::tests::stored::",
};

// The test, once it has begun; none in a child, and none that is run once.
static const char *test;
static int is_child;

__attribute__((constructor)) static void begin(int count, char **arguments) {
    if (count != 2 || !strcmp(arguments[1], "--list") || run_planted(arguments[1])) return;
    for (size_t at = 0; at < sizeof once / sizeof *once; at++)
        if (!strncmp(arguments[1], once[at], strlen(once[at]))) return;
    test = arguments[1];
}

// Counts requests from here on, and refuses those of these numbers and those between them.
void refuse_requests(size_t first, size_t last) {
    requests = 0;
    refuse(first, last);
}

// How many requests there were since. From here on none is refused.
size_t count_requests(void) {
    first_refused = 0;
    return requests;
}

static int may_end(int status) {
    return WIFEXITED(status) && (WEXITSTATUS(status) == 0 || WEXITSTATUS(status) == RESULT_IS_AN_ERROR);
}

// Ends as a child did that mustn't.
static void end_as(int status) {
    fprintf(stderr, "%s, with request %zu refused:\n", test, requests);
    if (WIFSIGNALED(status)) raise(WTERMSIG(status));
    _exit(WIFEXITED(status) && WEXITSTATUS(status) ? WEXITSTATUS(status) : 2);
}

// Whether this request is refused, as it is in the child alone.
static int is_refused_again(void) {
    if (!test) return 0;
    // The test has one thread, so there is nothing to do for others, as the sanitizer does it at a fork.
    pid_t child = (pid_t)syscall(SYS_clone, SIGCHLD, NULL, NULL, NULL, NULL);
    if (child == 0) {
        test = NULL;
        is_child = 1;
        return 1;
    }
    int status;
    if (child < 0 || waitpid(child, &status, 0) < 0) _exit(2);
    if (!may_end(status)) end_as(status);
    return 0;
}

static void end_round(void) {
    if (is_child) _exit(0);
}

static int is_text(const char *text, const void *bytes, size_t count) {
    return count == strlen(text) && !memcmp(bytes, text, count);
}

// A child has ended as soon as its test has.
ssize_t __interceptor_write(int file, const void *bytes, size_t count) {
    ssize_t written = ___interceptor_write(file, bytes, count);
    if (is_child && is_text(ENDED_WELL, bytes, count)) _exit(0);
    if (is_child && is_text(ENDED_BY_AN_ERROR, bytes, count)) _exit(RESULT_IS_AN_ERROR);
    return written;
}

void *__interceptor_malloc(size_t size) {
    return grants(size) ? ___interceptor_malloc(given(size)) : refused();
}

void *__interceptor_realloc(void *old, size_t size) {
    return grants(size) ? ___interceptor_realloc(old, size) : refused();
}
