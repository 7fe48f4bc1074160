/* How the program ends when it cannot go on. */
#ifndef DESK_TROUBLE_H
#define DESK_TROUBLE_H

enum exit_status {
    STATUS_OUTPUT = 1,   /* standard output cannot be written */
    STATUS_USAGE = 2,    /* options or settings */
    STATUS_STORE = 3     /* the store is locked, damaged, or cannot be written */
};

/* Writes one line "desk: ..." to standard error and ends the process. */
_Noreturn void end_with(enum exit_status status, const char *format, ...) __attribute__((format(printf, 2, 3)));

#endif
