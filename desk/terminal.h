/* The terminal: what the calls are lent, and the last request beside it. Each call that is not refused is stored before it returns. */
#ifndef DESK_TERMINAL_H
#define DESK_TERMINAL_H

#include <stdbool.h>
#include <stddef.h>
#include <stdint.h>

#include "request.h"
#include "store.h"
#include "whistlaurel.h"

struct terminal {
    struct store *store;
    uint8_t image[WHISTLAUREL_IMAGE_SIZE];
    uint8_t journal[JOURNAL_SIZE];
    uint8_t message[WHISTLAUREL_MESSAGE_SIZE];
    size_t length;         /* bytes of message that are to be sent */
    struct request last;   /* the last card request that left */
};

enum call_name {
    SIGN_ON,
    START,
    ANSWER,
    NO_ANSWER,
    POWER_RETURNED,
    CARD_AGREES,
    CARD_DECLINES,
    SEND_REVERSAL,
    SETTLE,
    SEND_NEXT_UPLOAD
};

/* The most bytes of a chip that can be keyed. The terminal takes WHISTLAUREL_MOST_CHIP_BYTES. */
enum { KEYED_CHIP_MOST = 300 };

/* What is keyed for a card request; zeros where a kind does not need it. */
struct keyed {
    uint8_t kind;
    uint64_t amount;
    uint64_t card_number;
    uint8_t card_length;
    uint32_t original;
    uint8_t month;
    uint8_t day;
    uint8_t authorisation[6];
    uint8_t reference[12];
    bool has_chip;
    uint8_t chip[KEYED_CHIP_MOST];   /* field 55 */
    size_t chip_size;
};

/* A call with what it is handed: START keyed, ANSWER bytes, size and mac_is_good. */
struct call {
    enum call_name name;
    struct keyed keyed;
    const uint8_t *bytes;
    size_t size;
    bool mac_is_good;
};

/* Makes a call and, unless it is refused, stores what it changed. Gives the call's result back (enum whistlaurel_result). */
uint8_t terminal_make(struct terminal *terminal, const struct call *call);

/* The number of a row of the image. */
uint64_t terminal_number(const struct terminal *terminal, enum whistlaurel_row row);

#endif
