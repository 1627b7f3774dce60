#define _DEFAULT_SOURCE

#include "address.h"

#include <errno.h>
#include <netinet/in.h>
#include <netinet/tcp.h>
#include <stdio.h>
#include <string.h>
#include <sys/socket.h>
#include <unistd.h>

/* The Unix socket of a port in a folder, where libpq looks for a server. */
static enum status find_local(struct address *address)
{
    address->path = (struct sockaddr_un){.sun_family = AF_UNIX};
    int len = snprintf(address->path.sun_path, sizeof address->path.sun_path, "%s/.s.PGSQL.%s", address->host,
                       address->port);
    if (len < 0 || (size_t)len >= sizeof address->path.sun_path)
        return complain(STATUS_UNREACHABLE, "the path of a socket in %s is too long", address->host);
    address->local = (struct addrinfo){
        .ai_family = AF_UNIX,
        .ai_socktype = SOCK_STREAM,
        .ai_addr = (struct sockaddr *)&address->path,
        .ai_addrlen = sizeof address->path,
    };
    address->all = &address->local;
    return STATUS_OK;
}

enum status address_find(struct address *address, const char *host, const char *port)
{
    struct addrinfo hints = {.ai_family = AF_UNSPEC, .ai_socktype = SOCK_STREAM};
    *address = (struct address){.host = host, .port = port};
    if (*host == '/')
        return find_local(address);
    int failure = getaddrinfo(host, port, &hints, &address->all);
    if (failure == EAI_MEMORY)
        return complain_of_memory();
    if (failure != 0)
        return complain(STATUS_UNREACHABLE, "no address of %s is found: %s", host, gai_strerror(failure));
    return STATUS_OK;
}

void address_free(struct address *address)
{
    if (address->all != NULL && address->all != &address->local)
        freeaddrinfo(address->all);
    address->all = NULL;
}

/* Makes messages over TCP go out at once, and a server that is gone be noticed after a while. */
static void tune(int connected)
{
    int on = 1;
    (void)setsockopt(connected, IPPROTO_TCP, TCP_NODELAY, &on, sizeof on);
    (void)setsockopt(connected, SOL_SOCKET, SO_KEEPALIVE, &on, sizeof on);
}

enum status address_connect(const struct address *address, int *connected)
{
    int failure = 0;
    for (const struct addrinfo *to = address->all; to != NULL; to = to->ai_next) {
        *connected = socket(to->ai_family, to->ai_socktype, to->ai_protocol);
        if (*connected >= 0 && connect(*connected, to->ai_addr, to->ai_addrlen) == 0) {
            if (to->ai_family != AF_UNIX)
                tune(*connected);
            return STATUS_OK;
        }
        failure = errno;
        if (*connected >= 0)
            close(*connected);
        *connected = -1;
    }
    return complain(STATUS_UNREACHABLE, "no connection to %s port %s: %s", address->host, address->port,
                    strerror(failure));
}
