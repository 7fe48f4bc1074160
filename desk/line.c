#define _POSIX_C_SOURCE 200809L

#include "line.h"

#include <errno.h>
#include <fcntl.h>
#include <netdb.h>
#include <poll.h>
#include <string.h>
#include <sys/socket.h>
#include <time.h>
#include <unistd.h>

#include "wipe.h"

/* TPDU, then header: application 60, version 32, state 0, processing request 0, software 320001. */
static const uint8_t sent_front[LINE_FRONT] = {0x60, 0x00, 0x03, 0x00, 0x00, 0x60, 0x32, 0x00, 0x32, 0x00, 0x01};
static const uint8_t received_front[LINE_FRONT] = {0x60, 0x00, 0x00, 0x00, 0x03, 0x60, 0x32, 0x00, 0x32, 0x00, 0x01};

static void connect_line(struct line *line, int64_t deadline);
static bool connect_to(struct line *line, const struct addrinfo *address, int64_t deadline);
static bool wait_for(const struct line *line, short events, int64_t deadline);
static bool receive_some(struct line *line);
static void drop_waiting(struct line *line);
static size_t held_frame(struct line *line);
static void drop_frame(struct line *line, size_t size);

int64_t line_clock(void)
{
    struct timespec now;

    clock_gettime(CLOCK_MONOTONIC, &now);
    return (int64_t)now.tv_sec * 1000 + now.tv_nsec / 1000000;
}

bool line_prepare(struct line *line, const char *host, const char *port)
{
    struct addrinfo hints = {.ai_socktype = SOCK_STREAM};

    line->connection = -1;
    line->held_size = 0;
    return getaddrinfo(host, port, &hints, &line->addresses) == 0;
}

bool line_send(struct line *line, const uint8_t *message, size_t length, int64_t deadline)
{
    uint8_t frame[2 + LINE_FRAME_MOST];
    size_t size = 2 + LINE_FRONT + length;
    size_t sent = 0;

    drop_waiting(line);
    connect_line(line, deadline);
    frame[0] = (uint8_t)((LINE_FRONT + length) >> 8);
    frame[1] = (uint8_t)(LINE_FRONT + length);
    memcpy(frame + 2, sent_front, LINE_FRONT);
    memcpy(frame + 2 + LINE_FRONT, message, length);
    while (line->connection >= 0 && sent < size) {
        ssize_t n = send(line->connection, frame + sent, size - sent, MSG_NOSIGNAL);

        if (n > 0) {
            sent += (size_t)n;
        } else if (errno != EINTR && (errno != EAGAIN || !wait_for(line, POLLOUT, deadline))) {
            line_break(line);
        }
    }
    return line->connection >= 0;
}

bool line_receive(struct line *line, uint8_t *message, size_t *length, int64_t deadline)
{
    for (;;) {
        size_t size = held_frame(line);

        if (size > 0) {
            bool is_ours = memcmp(line->held + 2, received_front, LINE_FRONT) == 0;

            *length = size - 2 - LINE_FRONT;
            memcpy(message, line->held + 2 + LINE_FRONT, *length);
            drop_frame(line, size);
            if (is_ours) {
                return true;
            }
        } else if (!wait_for(line, POLLIN, deadline)) {
            return false;
        } else if (!receive_some(line)) {
            line_break(line);
        }
    }
}

void line_break(struct line *line)
{
    if (line->connection >= 0) {
        close(line->connection);
    }
    line->connection = -1;
    wipe(line->held, line->held_size);
    line->held_size = 0;
}

static void connect_line(struct line *line, int64_t deadline)
{
    const struct addrinfo *address = line->addresses;

    while (line->connection < 0 && address != NULL) {
        if (!connect_to(line, address, deadline)) {
            line_break(line);
        }
        address = address->ai_next;
    }
}

static bool connect_to(struct line *line, const struct addrinfo *address, int64_t deadline)
{
    int error = 0;
    socklen_t size = sizeof error;

    line->connection = socket(address->ai_family, address->ai_socktype, address->ai_protocol);
    if (line->connection < 0 || fcntl(line->connection, F_SETFL, O_NONBLOCK) < 0) {
        return false;
    }
    if (connect(line->connection, address->ai_addr, address->ai_addrlen) == 0) {
        return true;
    }
    return errno == EINPROGRESS && wait_for(line, POLLOUT, deadline) &&
           getsockopt(line->connection, SOL_SOCKET, SO_ERROR, &error, &size) == 0 && error == 0;
}

/* Waits until the connection is ready or the deadline has passed; without a connection, until the deadline. */
static bool wait_for(const struct line *line, short events, int64_t deadline)
{
    struct pollfd waiting = {.fd = line->connection, .events = events};
    int64_t left = deadline - line_clock();

    while (left > 0) {
        int ready = poll(&waiting, 1, (int)left);

        if (ready > 0) {
            return true;
        }
        left = deadline - line_clock();
    }
    return false;
}

/* Receives what is there, as far as there is room. False where the connection has ended. */
static bool receive_some(struct line *line)
{
    ssize_t n = recv(line->connection, line->held + line->held_size, sizeof line->held - line->held_size, 0);

    if (n > 0) {
        line->held_size += (size_t)n;
        return true;
    }
    return n < 0 && (errno == EAGAIN || errno == EINTR);
}

/* Drops the messages that wait unread. One that has come in part takes the connection with it. */
static void drop_waiting(struct line *line)
{
    size_t before;

    if (line->connection < 0) {
        return;
    }
    do {
        size_t size;

        while ((size = held_frame(line)) > 0) {
            drop_frame(line, size);
        }
        before = line->held_size;
        if (line->connection >= 0 && !receive_some(line)) {
            line_break(line);
        }
    } while (line->connection >= 0 && line->held_size > before);
    if (line->held_size > 0) {
        line_break(line);
    }
}

/* The size of the first frame, its length included, once it is whole; else 0. A length that is not allowed breaks the connection. */
static size_t held_frame(struct line *line)
{
    size_t size;

    if (line->held_size < 2) {
        return 0;
    }
    size = (size_t)line->held[0] << 8 | line->held[1];
    if (size < LINE_FRONT || size > LINE_FRAME_MOST) {
        line_break(line);
        return 0;
    }
    return line->held_size < 2 + size ? 0 : 2 + size;
}

static void drop_frame(struct line *line, size_t size)
{
    line->held_size -= size;
    memmove(line->held, line->held + size, line->held_size);
    wipe(line->held + line->held_size, size);
}
