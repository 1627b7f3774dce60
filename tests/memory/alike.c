// Compares long runs of bytes, sooner than the checked program does.
#include <stddef.h>
#include <string.h>

// A slice.
struct bytes {
    const unsigned char *at;
    size_t len;
};

int are_alike(struct bytes left, struct bytes right) {
    return left.len == right.len && !memcmp(left.at, right.at, left.len);
}
