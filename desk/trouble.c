#include "trouble.h"

#include <stdarg.h>
#include <stdio.h>
#include <stdlib.h>

_Noreturn void end_with(enum exit_status status, const char *format, ...)
{
    va_list values;

    va_start(values, format);
    fputs("desk: ", stderr);
    vfprintf(stderr, format, values);
    fputc('\n', stderr);
    va_end(values);
    exit(status);
}
