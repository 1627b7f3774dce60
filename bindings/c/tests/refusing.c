/* An allocator that refuses requests. */
#define _GNU_SOURCE

#include "refusing.h"

#include <dlfcn.h>
#include <errno.h>
#include <stdlib.h>

static void *(*real_malloc)(size_t);
static void *(*real_realloc)(void *, size_t);

/* Which request is refused, from 1, none at 0; and whether each is. */
static size_t requests, refused_at;
static bool refuses_all, has_refused;

static bool grants(void)
{
    if (real_malloc == NULL) {
        *(void **)&real_malloc = dlsym(RTLD_NEXT, "malloc");
        *(void **)&real_realloc = dlsym(RTLD_NEXT, "realloc");
    }
    requests++;
    if (!refuses_all && requests != refused_at)
        return true;
    has_refused = true;
    errno = ENOMEM;
    return false;
}

void *malloc(size_t size)
{
    return grants() ? real_malloc(size) : NULL;
}

void *realloc(void *old, size_t size)
{
    return grants() ? real_realloc(old, size) : NULL;
}

void refuse_nth(size_t nth)
{
    refused_at = requests + nth;
    refuses_all = false;
    has_refused = false;
}

void refuse_all(void)
{
    refuses_all = true;
    has_refused = false;
}

bool was_refused(void)
{
    refused_at = 0;
    refuses_all = false;
    return has_refused;
}
