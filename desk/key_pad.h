/*
 * Stand-in for the key pad: the three functions that a real one offers to the desk. The rule here is plain, needs no keys and protects
 * nothing; a maker puts the calls to the key pad's own MAC and key memory in its place.
 */
#ifndef DESK_KEY_PAD_H
#define DESK_KEY_PAD_H

#include <stdbool.h>
#include <stddef.h>
#include <stdint.h>

/* Writes the MAC over field 64, the last eight bytes; a message without the field stays as it is. */
void key_pad_write(uint8_t *message, size_t length);

/* Whether a message has field 64 and its MAC fits. */
bool key_pad_judges(const uint8_t *message, size_t length);

/* Takes the key material of a sign-on, field 62 as the centre sent it: 24, 40, 56, 60 or 84 bytes, which the desk keeps nowhere. */
void key_pad_take_keys(const uint8_t *keys, size_t size);

#endif
