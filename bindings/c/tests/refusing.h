/* An allocator that refuses requests. It takes the place of malloc and realloc of the program. */
#ifndef REFUSING_H
#define REFUSING_H

#include <stdbool.h>
#include <stddef.h>

/* More requests than any call makes. */
enum { MANY_REQUESTS = 1000 };

/* Has the nth request from here on refused, and no other. */
void refuse_nth(size_t nth);

/* Has each request from here on refused. */
void refuse_all(void);

/* Grants requests again, and says whether one was refused since. */
bool was_refused(void);

#endif
