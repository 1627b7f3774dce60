// Refuses requests for memory in the process that it is loaded into: REFUSE_AT=N refuses the Nth and then makes the
// file REFUSE_MARK.
#define _GNU_SOURCE
#include "grants.h"

#include <dlfcn.h>
#include <fcntl.h>
#include <stdlib.h>
#include <unistd.h>

static void *(*real_malloc)(size_t);
static void *(*real_realloc)(void *, size_t);
static size_t refused_at;

static void prepare(void) {
    if (real_malloc) return;
    real_malloc = dlsym(RTLD_NEXT, "malloc");
    real_realloc = dlsym(RTLD_NEXT, "realloc");
    const char *at = getenv("REFUSE_AT");
    refused_at = at ? strtoul(at, NULL, 10) : 0;
}

static int is_refused_again(void) {
    if (requests != refused_at) return 0;
    const char *path = getenv("REFUSE_MARK");
    if (path) close(open(path, O_CREAT | O_WRONLY, 0600));
    return 1;
}

static void end_round(void) {}

void *malloc(size_t size) {
    prepare();
    return grants(size) ? real_malloc(given(size)) : refused();
}

void *realloc(void *old, size_t size) {
    prepare();
    return grants(size) ? real_realloc(old, size) : refused();
}
