/* The lines that are keyed at the desk, and how long to wait for one. */
#ifndef DESK_INPUT_H
#define DESK_INPUT_H

#include <stdbool.h>
#include <stddef.h>
#include <stdint.h>

/* A deadline that never passes. */
#define INPUT_ANY_TIME INT64_MAX

struct input {
    int file;
    char *held;          /* bytes read, the line that was handed out last in front */
    size_t held_size;
    size_t room;
    size_t taken;        /* bytes of that line */
    bool is_ended;
};

enum input_result { INPUT_LINE, INPUT_SILENT, INPUT_ENDED };

/*
 * Waits for a line until the deadline of line_clock. The line ends with a zero in place of its line end, and stands until the next call;
 * length is the bytes before that zero. What stands after the last line end is a line too.
 */
enum input_result input_line(struct input *input, char **line, size_t *length, int64_t deadline);

void input_close(struct input *input);

#endif
