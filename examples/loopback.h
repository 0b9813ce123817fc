/*
 * Messages between processes of one machine, for node.c: over sockets of the loopback interface,
 * each at the port of its node. A message is one of Bitcoin's without network and checksum: a name
 * in 12 bytes, the length of the payload in 4, and the payload.
 */
#ifndef LOOPBACK_H
#define LOOPBACK_H

#include <netinet/in.h>
#include <stdbool.h>
#include <stddef.h>
#include <stdint.h>
#include <string.h>
#include <sys/socket.h>
#include <sys/time.h>
#include <unistd.h>

enum { HEADER = 16, MAX_RECEIVED = 600000 };

typedef struct {
    int socket;  /* -1 if there is no connection */
    size_t have; /* bytes that have come and are not yet handled */
    uint8_t in[HEADER + MAX_RECEIVED];
} link_to;

typedef struct {
    char name[13];
    const uint8_t *payload;
    size_t length;
} message;

static struct sockaddr_in at_port(uint16_t port)
{
    struct sockaddr_in at = { .sin_family = AF_INET, .sin_port = htons(port) };
    at.sin_addr.s_addr = htonl(INADDR_LOOPBACK);
    return at;
}

/* A socket that waits for connections at a port, or -1. */
static int listen_at(uint16_t port)
{
    struct sockaddr_in at = at_port(port);
    int listener = socket(AF_INET, SOCK_STREAM, 0), yes = 1;
    setsockopt(listener, SOL_SOCKET, SO_REUSEADDR, &yes, sizeof yes);
    if (bind(listener, (struct sockaddr *)&at, sizeof at) || listen(listener, 16)) return -1;
    return listener;
}

/* A socket that is connected to a port, or -1. */
static int connect_at(uint16_t port)
{
    struct sockaddr_in at = at_port(port);
    int one = socket(AF_INET, SOCK_STREAM, 0);
    if (one < 0 || connect(one, (struct sockaddr *)&at, sizeof at) == 0) return one;
    close(one);
    return -1;
}

/* Begins a link over a socket. */
static void begin_link(link_to *to, int socket)
{
    struct timeval second = { 1, 0 };
    setsockopt(socket, SOL_SOCKET, SO_SNDTIMEO, &second, sizeof second);
    to->socket = socket;
    to->have = 0;
}

/* Sends a message. A link that does not take it in a second ends, which receive_some then says. */
static void send_message(link_to *to, const char *name, const uint8_t *payload, size_t length)
{
    uint8_t header[HEADER] = { 0 };
    memcpy(header, name, strlen(name));
    for (int i = 0; i < 4; i++) header[12 + i] = (uint8_t)(length >> 8 * i);
    if (send(to->socket, header, HEADER, MSG_NOSIGNAL | MSG_MORE) != HEADER
        || (length && send(to->socket, payload, length, MSG_NOSIGNAL) != (ssize_t)length))
        shutdown(to->socket, SHUT_RDWR);
}

/* Reads what came. Returns false if the link has ended. */
static bool receive_some(link_to *from)
{
    ssize_t some = read(from->socket, from->in + from->have, sizeof from->in - from->have);
    if (some > 0) from->have += (size_t)some;
    return some > 0;
}

/* Whether the next message is too long to be read. */
static bool is_too_long(const link_to *from)
{
    return from->have == sizeof from->in;
}

/* The next message that has come whole, if there is one. It is there until drop_message. */
static bool next_message(const link_to *from, message *next)
{
    const uint8_t *in = from->in;
    if (from->have < HEADER) return false;
    next->length = in[12] | (size_t)in[13] << 8 | (size_t)in[14] << 16 | (size_t)in[15] << 24;
    next->payload = in + HEADER;
    memcpy(next->name, in, 12);
    next->name[12] = 0;
    return from->have - HEADER >= next->length;
}

static void drop_message(link_to *from, const message *done)
{
    from->have -= HEADER + done->length;
    memmove(from->in, from->in + HEADER + done->length, from->have);
}

#endif
