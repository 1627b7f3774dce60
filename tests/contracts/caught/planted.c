// Runs a test with each wrong body that it must catch, or that any test may, before the test itself: tests/contracts/planted.py.
#include <fcntl.h>
#include <signal.h>
#include <stdbool.h>
#include <stdio.h>
#include <string.h>
#include <sys/wait.h>
#include <unistd.h>

#include "planted.h"

// How long a test may take with a wrong body, in seconds.
#define SECONDS 60

static const struct {
    const char *test;
    unsigned number;
    const char *name;
} all[] = {
#include "planted.inc"
    {NULL, 0, NULL},
};

static unsigned planted;

int is_planted(unsigned number) {
    return number == planted;
}

// Keeps which test has seen a wrong body, in a file that the compiler is told.
static void keep(const char *test, const char *name) {
    FILE *file = fopen(SEEN, "a");
    if (!file) _exit(2);
    fprintf(file, "%s %s\n", test, name);
    fclose(file);
}

// Goes on to the test with a wrong body, whose words nobody needs.
static void begin_with(unsigned number) {
    int nowhere = open("/dev/null", O_WRONLY);
    if (nowhere < 0 || dup2(nowhere, 1) < 0 || dup2(nowhere, 2) < 0) _exit(0);
    planted = number;
    alarm(SECONDS);
}

int run_planted(const char *test) {
    for (size_t at = 0; all[at].test; at++) {
        bool is_of_each = !strcmp(all[at].test, "*");
        if (!is_of_each && strcmp(all[at].test, test)) continue;
        pid_t child = fork();
        if (child == 0) {
            begin_with(all[at].number);
            return 1;
        }
        int status;
        if (child < 0 || waitpid(child, &status, 0) < 0) _exit(2);
        bool is_seen = !WIFEXITED(status) || WEXITSTATUS(status);
        if (is_of_each && is_seen) keep(test, all[at].name);
        if (!is_of_each && !is_seen) {
            fprintf(stderr, "%s doesn't catch %s\n", test, all[at].name);
            _exit(2);
        }
    }
    return 0;
}
