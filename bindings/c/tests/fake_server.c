/* Says what a server never would: sends the bytes of a file to the first connection.
 *
 *     fake_server FILE RECEIVED
 *
 * Prints the port on which it waits. Once the client has said something it sends the bytes of FILE, and ends
 * its side of the connection. What the client says is written to RECEIVED until it ends too, at most so many
 * seconds. */
#define _DEFAULT_SOURCE

#include <arpa/inet.h>
#include <errno.h>
#include <netinet/in.h>
#include <poll.h>
#include <signal.h>
#include <stdio.h>
#include <stdlib.h>
#include <string.h>
#include <sys/socket.h>
#include <unistd.h>

enum { PATIENCE = 10000, PIECE = 65536 };

static int fail(const char *what)
{
    fprintf(stderr, "fake_server: %s: %s\n", what, strerror(errno));
    exit(1);
}

/* Waits on a free port of this machine, and prints it. */
static int accept_one(void)
{
    struct sockaddr_in here = {.sin_family = AF_INET, .sin_addr.s_addr = htonl(INADDR_LOOPBACK)};
    socklen_t len = sizeof here;
    int listening = socket(AF_INET, SOCK_STREAM, 0);
    if (listening < 0 || bind(listening, (struct sockaddr *)&here, len) < 0 || listen(listening, 1) < 0
        || getsockname(listening, (struct sockaddr *)&here, &len) < 0)
        fail("listen");
    printf("%d\n", ntohs(here.sin_port));
    if (fflush(stdout) == EOF)
        fail("standard output");
    struct pollfd ready = {.fd = listening, .events = POLLIN};
    if (poll(&ready, 1, PATIENCE) != 1)
        fail("no connection");
    int client = accept(listening, NULL, NULL);
    if (client < 0)
        fail("accept");
    close(listening);
    return client;
}

/* Writes what comes to a file. Answers false at the end. */
static int take_some(int client, FILE *received)
{
    char piece[PIECE];
    struct pollfd ready = {.fd = client, .events = POLLIN};
    if (poll(&ready, 1, PATIENCE) != 1)
        return 0;
    ssize_t count = read(client, piece, sizeof piece);
    if (count <= 0)
        return 0;
    return fwrite(piece, 1, (size_t)count, received) == (size_t)count;
}

static void send_file(int client, FILE *file)
{
    char piece[PIECE];
    size_t count;
    while ((count = fread(piece, 1, sizeof piece, file)) > 0) {
        for (size_t at = 0; at < count;) {
            ssize_t sent = write(client, piece + at, count - at);
            if (sent < 0)
                return;
            at += (size_t)sent;
        }
    }
}

int main(int argc, char **argv)
{
    if (argc != 3) {
        fprintf(stderr, "usage: fake_server FILE RECEIVED\n");
        return 1;
    }
    FILE *file = fopen(argv[1], "rb"), *received = fopen(argv[2], "wb");
    if (file == NULL || received == NULL)
        fail("a file");
    signal(SIGPIPE, SIG_IGN);
    int client = accept_one();
    if (take_some(client, received)) {
        send_file(client, file);
        shutdown(client, SHUT_WR);
        while (take_some(client, received))
            continue;
    }
    close(client);
    fclose(file);
    return fclose(received) == EOF;
}
