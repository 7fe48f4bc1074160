#include "wipe.h"

/* The compiler leaves no volatile write out. */
void wipe(uint8_t *bytes, size_t size)
{
    volatile uint8_t *at = bytes;

    for (size_t i = 0; i < size; i++) {
        at[i] = 0;
    }
}
