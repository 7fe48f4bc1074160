/* The desk: reads commands, drives the terminal over the line, and tells how each ended. */
#ifndef DESK_DESK_H
#define DESK_DESK_H

#include <stdbool.h>
#include <stdint.h>

#include "line.h"
#include "terminal.h"

/* The last message that was made: where the terminal stood then, and what came of it. */
struct sending {
    uint64_t phase;       /* in which its answer was awaited; under a sign-on the phase before it */
    uint64_t batch;
    uint64_t totals[4];   /* as whistlaurel_totals gives them */
    uint64_t sums[10];    /* as whistlaurel_sums gives them */
    bool has_left;        /* false where the centre could not be reached */
    bool is_answered;     /* an answer was taken */
    char code[3];         /* its field 39, empty where it has none or no answer was taken */
    uint8_t refusal;      /* the number by which the latest answer was refused, 0 where none was */
};

struct desk {
    struct terminal terminal;
    struct line line;
    int64_t time_out;        /* milliseconds to wait for an answer */
    int64_t card_time_out;   /* milliseconds to wait for the card's word */
    int64_t card_deadline;   /* until when it is awaited */
    struct sending sending;
};

/*
 * Begins after a stop of any kind: power returned, signed on, reversal, settlement and upload brought to their end, and the last request
 * told, with the totals where the batch has an entry. Where it cannot sign on, it says so, and leaves what is not at its end as it is.
 */
void desk_begin(struct desk *desk);

/* Carries out the commands of a file until quit or its end. A card whose word is awaited then, or for too long, is silent. */
void desk_run(struct desk *desk, int file);

#endif
