#define _POSIX_C_SOURCE 200809L

#include "input.h"

#include <errno.h>
#include <limits.h>
#include <poll.h>
#include <stdlib.h>
#include <string.h>
#include <unistd.h>

#include "line.h"

enum { PIECE = 4096 };

static bool is_ready(const struct input *input, int64_t deadline);
static void read_some(struct input *input);
static bool take_line(struct input *input, char **line, size_t *length);

enum input_result input_line(struct input *input, char **line, size_t *length, int64_t deadline)
{
    if (input->taken > 0) {
        input->held_size -= input->taken;
        memmove(input->held, input->held + input->taken, input->held_size);
        input->taken = 0;
    }
    while (!take_line(input, line, length)) {
        if (input->is_ended) {
            return INPUT_ENDED;
        }
        if (!is_ready(input, deadline)) {
            return INPUT_SILENT;
        }
        read_some(input);
    }
    return INPUT_LINE;
}

void input_close(struct input *input)
{
    free(input->held);
}

/* Waits until there is something to read; false where the deadline has passed. */
static bool is_ready(const struct input *input, int64_t deadline)
{
    struct pollfd waiting = {.fd = input->file, .events = POLLIN};
    int64_t left = deadline == INPUT_ANY_TIME ? INT_MAX : deadline - line_clock();

    while (left > 0) {
        if (poll(&waiting, 1, deadline == INPUT_ANY_TIME ? -1 : (int)left) > 0) {
            return true;
        }
        left = deadline == INPUT_ANY_TIME ? INT_MAX : deadline - line_clock();
    }
    return false;
}

/* Reads what is there. Where nothing can be read or held, the input has ended. */
static void read_some(struct input *input)
{
    ssize_t n;

    if (input->room < input->held_size + PIECE + 1) {
        char *larger = realloc(input->held, 2 * input->room + PIECE + 1);

        if (larger == NULL) {
            input->is_ended = true;
            return;
        }
        input->held = larger;
        input->room = 2 * input->room + PIECE + 1;
    }
    n = read(input->file, input->held + input->held_size, PIECE);
    if (n > 0) {
        input->held_size += (size_t)n;
    } else if (n == 0 || (errno != EINTR && errno != EAGAIN)) {
        input->is_ended = true;
    }
}

/* Takes the first line, once it is whole. There is room for a zero after what is held. */
static bool take_line(struct input *input, char **line, size_t *length)
{
    char *end = input->held_size == 0 ? NULL : memchr(input->held, '\n', input->held_size);

    if (end == NULL && (!input->is_ended || input->held_size == 0)) {
        return false;
    }
    *line = input->held;
    *length = end == NULL ? input->held_size : (size_t)(end - input->held);
    input->held[*length] = '\0';
    input->taken = end == NULL ? input->held_size : *length + 1;
    return true;
}
