/* Memory, threads and sockets. */
#define _POSIX_C_SOURCE 200809L
#include <arpa/inet.h>
#include <netinet/tcp.h>
#include <stdio.h>
#include <stdlib.h>
#include <sys/socket.h>
#include <sys/time.h>

#include "parts.h"

void fail(const char *why) {
    perror(why);
    exit(1);
}

void *allocate(size_t size) {
    void *place = calloc(1, size);
    if (!place)
        fail("small-target");
    return place;
}

pthread_t begin_thread(void *(*body)(void *), void *argument) {
    pthread_t thread;
    if (pthread_create(&thread, NULL, body, argument))
        fail("small-target: no thread");
    return thread;
}

int listen_at(uint16_t port) {
    struct sockaddr_in address = {.sin_family = AF_INET, .sin_addr.s_addr = htonl(INADDR_LOOPBACK), .sin_port = htons(port)};
    socklen_t length = sizeof address;
    int listener = socket(AF_INET, SOCK_STREAM, 0), yes = 1;
    setsockopt(listener, SOL_SOCKET, SO_REUSEADDR, &yes, sizeof yes);
    if (bind(listener, (struct sockaddr *)&address, length) || listen(listener, CIDS) || getsockname(listener, (struct sockaddr *)&address, &length))
        fail("small-target: the port");
    printf("small-target listens at 127.0.0.1:%u\n", ntohs(address.sin_port));
    fflush(stdout);
    return listener;
}

int accept_next(int listener) {
    int accepted = accept(listener, NULL, NULL), yes = 1;
    struct timeval patience = {.tv_sec = PATIENCE};
    if (accepted < 0)
        fail("small-target: accept");
    setsockopt(accepted, IPPROTO_TCP, TCP_NODELAY, &yes, sizeof yes);
    setsockopt(accepted, SOL_SOCKET, SO_SNDTIMEO, &patience, sizeof patience);
    return accepted;
}

bool send_bytes(int to, const uint8_t *bytes, size_t length) {
    return !length || send(to, bytes, length, MSG_NOSIGNAL) == (ssize_t)length; /* fewer where PATIENCE is over */
}

bool receive(int from, uint8_t *bytes, size_t length) {
    return !length || recv(from, bytes, length, MSG_WAITALL) == (ssize_t)length;
}
