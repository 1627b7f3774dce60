/* Where a server accepts connections. */
#ifndef ADDRESS_H
#define ADDRESS_H

#include "status.h"

#include <netdb.h>
#include <sys/un.h>

/* The addresses of a host, or a Unix socket. It stays where it was found. */
struct address {
    const char *host;
    const char *port;
    struct addrinfo *all;
    struct addrinfo local;
    struct sockaddr_un path;
};

/* Looks up a host, or where it begins with '/', the socket in that folder. */
enum status address_find(struct address *address, const char *host, const char *port);
void address_free(struct address *address);

/* Connects to the first of the addresses that accepts it. The socket is -1 where none does. */
enum status address_connect(const struct address *address, int *connected);

#endif
