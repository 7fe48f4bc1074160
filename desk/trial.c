#include "trial.h"

#include <inttypes.h>
#include <signal.h>
#include <stdio.h>
#include <stdlib.h>
#include <string.h>

void trial_point(const char *name)
{
    static unsigned long passages;
    const char *kill_at = getenv("DESK_KILL");
    size_t length = strlen(name);

    if (kill_at == NULL || strncmp(kill_at, name, length) != 0 || kill_at[length] != ':') {
        return;
    }
    passages++;
    if (passages == strtoul(kill_at + length + 1, NULL, 10)) {
        raise(SIGKILL);
    }
}

/* The check value is FNV-1a. */
void trial_keys(const uint8_t *keys, size_t size)
{
    const char *path = getenv("DESK_KEYS");
    FILE *file = path == NULL ? NULL : fopen(path, "a");
    uint64_t check = UINT64_C(14695981039346656037);

    if (file == NULL) {
        return;
    }
    for (size_t i = 0; i < size; i++) {
        check = (check ^ keys[i]) * UINT64_C(1099511628211);
    }
    fprintf(file, "%zu %016" PRIx64 "\n", size, check);
    fclose(file);
}
