/* Preloaded into a served cluster: a connection to 127.0.0.1:PORT goes to TO where REDIRECT has `PORT:TO ` in it, where a proxy listens. */
#define _GNU_SOURCE
#include <dlfcn.h>
#include <netinet/in.h>
#include <stdio.h>
#include <stdlib.h>
#include <sys/socket.h>

int connect(int socket, const struct sockaddr *address, socklen_t length)
{
    static int (*next)(int, const struct sockaddr *, socklen_t);
    const char *pairs = getenv("REDIRECT");
    int port, to, read;
    if (!next)
        next = (int (*)(int, const struct sockaddr *, socklen_t))dlsym(RTLD_NEXT, "connect");
    if (pairs && address->sa_family == AF_INET && length >= sizeof(struct sockaddr_in)) {
        struct sockaddr_in there = *(const struct sockaddr_in *)address;
        for (; sscanf(pairs, "%d:%d %n", &port, &to, &read) == 2; pairs += read)
            if (port == ntohs(there.sin_port)) {
                there.sin_port = htons(to);
                return next(socket, (const struct sockaddr *)&there, sizeof there);
            }
    }
    return next(socket, address, length);
}
