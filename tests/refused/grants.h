// Which requests for memory are granted: a test has some refused by requests of sizes of its own, as docs/ASSURANCE.md says.
#include <errno.h>
#include <stddef.h>
#include <stdint.h>

// sizes that no request has but by intent: from here on every request is refused, or again none
#define REFUSE_ALL ((size_t)0x524546555345)
// with n added, the nth request from here on is refused; alone, it asks whether one was
#define REFUSE_NTH ((size_t)0x5245465553450000)
#define MOST_NTH ((size_t)0xffff)
// with n added, the nth request from here on and each after it is refused
#define REFUSE_FROM ((size_t)0x5245465553460000)
// a round of the test ends, and what comes next begins anew
#define END_ROUND ((size_t)0x524546555346)

// How many requests there were, and those that the test has refused: from one to another, or none where the first is 0.
static size_t requests, first_refused, last_refused;
static int refuses_all, has_refused;

// Whether the request that is made now is refused by what the test is run by.
static int is_refused_again(void);

// What that does where a round of the test ends.
static void end_round(void);

static void refuse(size_t first, size_t last) {
    first_refused = first;
    last_refused = last;
    has_refused = 0;
}

static int is_refused(void) {
    requests += 1;
    int by_test = refuses_all || (first_refused && first_refused <= requests && requests <= last_refused);
    if (!by_test && !is_refused_again()) return 0;
    has_refused = 1;
    return 1;
}

// Whether a request of a size is granted.
static int grants(size_t size) {
    if (size == REFUSE_ALL) {
        refuses_all = !refuses_all;
        return 0;
    }
    if (size == END_ROUND) {
        end_round();
        return 0;
    }
    if (size == REFUSE_NTH) {
        first_refused = 0;
        return has_refused;
    }
    if (size > REFUSE_NTH && size - REFUSE_NTH <= MOST_NTH) {
        refuse(requests + (size - REFUSE_NTH), requests + (size - REFUSE_NTH));
        return 0;
    }
    if (size > REFUSE_FROM && size - REFUSE_FROM <= MOST_NTH) {
        refuse(requests + (size - REFUSE_FROM), SIZE_MAX);
        return 0;
    }
    return !is_refused();
}

// How many bytes a granted request is given: nobody touches those of an answer.
static size_t given(size_t size) {
    return size == REFUSE_NTH ? 1 : size;
}

static void *refused(void) {
    errno = ENOMEM;
    return NULL;
}
