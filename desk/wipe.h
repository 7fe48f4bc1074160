/* Overwrites bytes that must not stay in memory. */
#ifndef DESK_WIPE_H
#define DESK_WIPE_H

#include <stddef.h>
#include <stdint.h>

/* Puts zeros over bytes, also where nothing reads them any more. */
void wipe(uint8_t *bytes, size_t size);

#endif
