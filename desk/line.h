/*
 * The line to the centre: TCP, each message after a length of two bytes, TPDU and header. A connection that is refused or breaks is a
 * silent line: nothing is received until the time is out. An answer may hold keys, so what is taken or dropped is wiped.
 */
#ifndef DESK_LINE_H
#define DESK_LINE_H

#include <stdbool.h>
#include <stddef.h>
#include <stdint.h>

/* The most bytes after the length, and of them TPDU and header, and the message. */
enum { LINE_FRAME_MOST = 2048, LINE_FRONT = 11, LINE_MESSAGE_MOST = LINE_FRAME_MOST - LINE_FRONT };

struct addrinfo;

struct line {
    struct addrinfo *addresses;
    int connection;                     /* -1 where there is none */
    uint8_t held[2 + LINE_FRAME_MOST];  /* bytes received and not yet taken */
    size_t held_size;
};

/* Milliseconds of the monotonic clock. */
int64_t line_clock(void);

/* Looks the centre's address up. Connects nothing yet. */
bool line_prepare(struct line *line, const char *host, const char *port);

/* Drops what waits unread, connects where there is no connection, and sends a message. False where it could not leave as a whole. */
bool line_send(struct line *line, const uint8_t *message, size_t length, int64_t deadline);

/* Waits for a message until the deadline; message has room for LINE_MESSAGE_MOST bytes. False where none has come. */
bool line_receive(struct line *line, uint8_t *message, size_t *length, int64_t deadline);

/* Closes the connection, and drops what comes late with it. */
void line_break(struct line *line);

#endif
