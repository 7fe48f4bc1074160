/* A card request as the desk keeps it beside the terminal's own state: the last one, and each that is in doubt. */
#ifndef DESK_REQUEST_H
#define DESK_REQUEST_H

#include <stdbool.h>
#include <stdint.h>

enum ending { PENDING, APPROVED, DECLINED, REVERSED, GIVEN_UP, UNANSWERED };

/* Texts end with a zero. Where there is no request, kind is 0. */
struct request {
    uint8_t kind;            /* enum whistlaurel_kind */
    enum ending ending;
    uint32_t trace;
    uint64_t amount;         /* in fen, as it was asked */
    uint64_t approved;       /* in fen, of an approval: a prepaid card may cover a part of the amount */
    char card[20];           /* masked */
    bool has_chip;
    char code[3];            /* of a decline */
    char reference[13];      /* of an approval */
    char authorisation[7];   /* of an approval */
};

#endif
