#include "terminal.h"

#include <string.h>

#include "trial.h"
#include "wording.h"

enum { CODE_FIELD = 39 };

/* The counts of how requests end, as they stand before a call. */
struct counts {
    uint64_t ended[5];
};

/* A count and the ending that it counts. */
static const struct {
    enum whistlaurel_row row;
    enum ending ending;
} endings[5] = {
    {WHISTLAUREL_APPROVED, APPROVED}, {WHISTLAUREL_DECLINED, DECLINED},     {WHISTLAUREL_REVERSED, REVERSED},
    {WHISTLAUREL_GIVEN_UP, GIVEN_UP}, {WHISTLAUREL_UNANSWERED, UNANSWERED},
};

static bool is_decision(enum call_name name);
static uint8_t make(struct terminal *terminal, const struct call *call);
static uint8_t start(struct terminal *terminal, const struct keyed *keyed);
static struct counts counts_of(const struct terminal *terminal);
static bool note_request(struct terminal *terminal, const struct call *call, const struct counts *before);
static void note_start(struct terminal *terminal);
static void note_end(struct terminal *terminal, const struct call *call, enum ending ending);

/* What every call is lent. */
#define LENT(t) (t)->image, sizeof (t)->image, (t)->journal, sizeof (t)->journal, (t)->message, sizeof (t)->message, &(t)->length

uint8_t terminal_make(struct terminal *terminal, const struct call *call)
{
    struct counts before = counts_of(terminal);
    bool decides = is_decision(call->name);
    uint8_t result;
    bool noted;

    result = make(terminal, call);
    if (result != WHISTLAUREL_QUIET && result != WHISTLAUREL_SENDS) {
        return result;
    }
    noted = note_request(terminal, call, &before);
    if (result == WHISTLAUREL_SENDS) {
        trial_point("before-store");
    } else if (decides) {
        trial_point("before-answer-store");
    }
    store_save(terminal->store, terminal->image, terminal->journal, terminal_number(terminal, WHISTLAUREL_ENTRIES),
               noted ? &terminal->last : NULL);
    if (result == WHISTLAUREL_SENDS) {
        trial_point("after-store");
    } else if (decides) {
        trial_point("after-answer-store");
    }
    return result;
}

uint64_t terminal_number(const struct terminal *terminal, enum whistlaurel_row row)
{
    uint64_t number = 0;

    if (whistlaurel_number(terminal->image, sizeof terminal->image, row, &number) != 0) {
        store_is_damaged(terminal->store, "its image is out of form");
    }
    return number;
}

static bool is_decision(enum call_name name)
{
    return name == ANSWER || name == NO_ANSWER || name == CARD_AGREES || name == CARD_DECLINES;
}

static uint8_t make(struct terminal *terminal, const struct call *call)
{
    switch (call->name) {
    case SIGN_ON:
        return whistlaurel_sign_on(LENT(terminal));
    case START:
        return start(terminal, &call->keyed);
    case ANSWER:
        return whistlaurel_answer(LENT(terminal), call->bytes, call->size, call->mac_is_good);
    case NO_ANSWER:
        return whistlaurel_no_answer(LENT(terminal));
    case POWER_RETURNED:
        return whistlaurel_power_returned(LENT(terminal));
    case CARD_AGREES:
        return whistlaurel_card_agrees(LENT(terminal));
    case CARD_DECLINES:
        return whistlaurel_card_declines(LENT(terminal));
    case SEND_REVERSAL:
        return whistlaurel_send_reversal(LENT(terminal));
    case SETTLE:
        return whistlaurel_settle(LENT(terminal));
    case SEND_NEXT_UPLOAD:
    default:
        return whistlaurel_send_next_upload(LENT(terminal));
    }
}

static uint8_t start(struct terminal *terminal, const struct keyed *keyed)
{
    return whistlaurel_start(LENT(terminal), keyed->kind, keyed->amount, keyed->card_number, keyed->card_length, keyed->original,
                             keyed->month, keyed->day, keyed->authorisation, keyed->reference, keyed->has_chip, keyed->chip,
                             keyed->chip_size);
}

static struct counts counts_of(const struct terminal *terminal)
{
    struct counts counts;

    for (size_t i = 0; i < 5; i++) {
        counts.ended[i] = terminal_number(terminal, endings[i].row);
    }
    return counts;
}

/* Notes how the last request stands after a call; false where the call has not changed that. A count that grew says how it ended. */
static bool note_request(struct terminal *terminal, const struct call *call, const struct counts *before)
{
    struct counts after = counts_of(terminal);

    if (call->name == START) {
        note_start(terminal);
        return true;
    }
    for (size_t i = 0; i < 5; i++) {
        if (after.ended[i] > before->ended[i]) {
            note_end(terminal, call, endings[i].ending);
            return true;
        }
    }
    return false;
}

static void note_start(struct terminal *terminal)
{
    struct request *last = &terminal->last;

    memset(last, 0, sizeof *last);
    last->kind = (uint8_t)terminal_number(terminal, WHISTLAUREL_REQUEST_KIND);
    last->ending = PENDING;
    last->trace = (uint32_t)terminal_number(terminal, WHISTLAUREL_REQUEST_TRACE);
    last->amount = terminal_number(terminal, WHISTLAUREL_REQUEST_AMOUNT);
    mask_card(terminal_number(terminal, WHISTLAUREL_REQUEST_CARD_NUMBER), terminal_number(terminal, WHISTLAUREL_REQUEST_CARD_LENGTH),
              last->card);
    last->has_chip = terminal_number(terminal, WHISTLAUREL_CHIP_LENGTH) > 0;
}

/* The code of a decline stands in the answer; amount, reference and authorisation of an approval in the newest entry. */
static void note_end(struct terminal *terminal, const struct call *call, enum ending ending)
{
    struct request *last = &terminal->last;

    last->ending = ending;
    if (ending == APPROVED) {
        const uint8_t *entry = terminal->journal + (terminal_number(terminal, WHISTLAUREL_ENTRIES) - 1) * WHISTLAUREL_ENTRY_SIZE;

        last->approved = packed_number(entry + WHISTLAUREL_ENTRY_AMOUNT, 12);
        copy_centre_text(last->reference, entry + WHISTLAUREL_ENTRY_REFERENCE, 12);
        copy_centre_text(last->authorisation, entry + WHISTLAUREL_ENTRY_AUTHORISATION, 6);
    } else if (ending == DECLINED) {
        uint8_t code[2];
        size_t count;

        whistlaurel_field(call->bytes, call->size, CODE_FIELD, code, sizeof code, &count);
        copy_centre_text(last->code, code, sizeof code);
    }
}
