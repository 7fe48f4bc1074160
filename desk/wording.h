/* Numbers as they are keyed, and the words of what the desk tells. */
#ifndef DESK_WORDING_H
#define DESK_WORDING_H

#include <stdbool.h>
#include <stddef.h>
#include <stdint.h>

#include "request.h"

/* Reads a text of 1 to 19 decimal digits. */
bool read_number(const char *text, uint64_t *number);

/* Reads a text of hexadecimal digits, two a byte, or `-` for no bytes. False where it is none, or of more bytes than there is room for. */
bool read_bytes(const char *text, uint8_t *bytes, size_t room, size_t *size);

/* The number that packed digits say, two a byte, from the first on; at most 19. */
uint64_t packed_number(const uint8_t *packed, size_t digits);

/* Writes a card's digits, all but the first six and last four as stars. */
void mask_card(uint64_t number, size_t length, char card[20]);

/* Copies a text of the centre; a space, which cannot be keyed, becomes an underscore. */
void copy_centre_text(char *text, const uint8_t *bytes, size_t size);

/* The word of a kind of card request, as it is keyed and told. */
const char *kind_word(uint8_t kind);

/* The word of a phase; the card's word is awaited or not. */
const char *phase_word(uint64_t phase, bool card_is_awaited);

/* What a refusal number means. */
const char *refusal_words(uint8_t number);

/* These write to standard output. */
void tell_amount(uint64_t fen);

/* How a request stands; where a part of its amount is approved, a second line says what is still to pay. */
void tell_request(const struct request *request);

/* That the centre approves a request for this amount, and its card has the last word. */
void tell_card_awaited(const struct request *request, uint64_t approved);
void tell_entry(const uint8_t *entry);

#endif
