#include "wording.h"

#include <inttypes.h>
#include <stdio.h>
#include <string.h>

#include "whistlaurel.h"

enum { DIGITS_MOST = 19 };

static void tell_part(uint64_t approved, uint64_t asked);
static void tell_rest(uint64_t approved, uint64_t asked);

bool read_number(const char *text, uint64_t *number)
{
    size_t length = strlen(text);

    if (length < 1 || length > DIGITS_MOST || strspn(text, "0123456789") != length) {
        return false;
    }
    *number = 0;
    for (size_t i = 0; i < length; i++) {
        *number = *number * 10 + (uint64_t)(text[i] - '0');
    }
    return true;
}

bool read_bytes(const char *text, uint8_t *bytes, size_t room, size_t *size)
{
    static const char digits[] = "0123456789abcdef0123456789ABCDEF";
    size_t length = strcmp(text, "-") == 0 ? 0 : strlen(text);

    if (length % 2 != 0 || length / 2 > room || strspn(text, digits) < length) {
        return false;
    }
    for (size_t i = 0; i < length / 2; i++) {
        size_t high = (size_t)(strchr(digits, text[2 * i]) - digits) % 16;
        size_t low = (size_t)(strchr(digits, text[2 * i + 1]) - digits) % 16;

        bytes[i] = (uint8_t)(16 * high + low);
    }
    *size = length / 2;
    return true;
}

uint64_t packed_number(const uint8_t *packed, size_t digits)
{
    uint64_t number = 0;

    for (size_t i = 0; i < digits; i++) {
        number = number * 10 + (i % 2 == 0 ? packed[i / 2] >> 4 : packed[i / 2] & 15);
    }
    return number;
}

void mask_card(uint64_t number, size_t length, char card[20])
{
    char digits[DIGITS_MOST + 2];

    snprintf(digits, sizeof digits, "%0*" PRIu64, (int)length, number);
    for (size_t i = 0; i < length; i++) {
        card[i] = i < 6 || i + 4 >= length ? digits[i] : '*';
    }
    card[length] = '\0';
}

void copy_centre_text(char *text, const uint8_t *bytes, size_t size)
{
    for (size_t i = 0; i < size; i++) {
        text[i] = bytes[i] == ' ' ? '_' : (char)bytes[i];
    }
    text[size] = '\0';
}

const char *kind_word(uint8_t kind)
{
    switch (kind) {
    case WHISTLAUREL_AUTHORISATION:
        return "authorise";
    case WHISTLAUREL_AUTHORISATION_VOID:
        return "authorise-void";
    case WHISTLAUREL_COMPLETION:
        return "complete";
    case WHISTLAUREL_COMPLETION_VOID:
        return "complete-void";
    case WHISTLAUREL_SALE:
        return "sale";
    case WHISTLAUREL_SALE_VOID:
        return "sale-void";
    case WHISTLAUREL_REFUND:
        return "refund";
    default:
        return "unknown";
    }
}

const char *phase_word(uint64_t phase, bool card_is_awaited)
{
    static const char *const words[] = {
        [WHISTLAUREL_RESTING] = "resting",
        [WHISTLAUREL_REQUEST_AWAITED] = "request-awaited",
        [WHISTLAUREL_REVERSAL_AWAITED] = "reversal-awaited",
        [WHISTLAUREL_SETTLEMENT_AWAITED] = "settlement-awaited",
        [WHISTLAUREL_ITEM_AWAITED] = "item-awaited",
        [WHISTLAUREL_END_AWAITED] = "end-awaited",
        [WHISTLAUREL_PENDING] = "pending",
        [WHISTLAUREL_SETTLING] = "settling",
        [WHISTLAUREL_UPLOADING] = "uploading",
    };

    return card_is_awaited ? "card-awaited" : words[phase];
}

const char *refusal_words(uint8_t number)
{
    static const char *const words[] = {
        [WHISTLAUREL_BUFFER_TOO_SHORT] = "message buffer or journal is too short",
        [WHISTLAUREL_OUT_OF_FORM] = "settings, state or journal are out of form; take the terminal out of service",
        [WHISTLAUREL_MESSAGE_ENDS] = "the message ends too early",
        [WHISTLAUREL_TYPE_NOT_LISTED] = "the message's type is not listed",
        [WHISTLAUREL_FIELD_NOT_LISTED] = "the message names a field that is not listed",
        [WHISTLAUREL_NOT_A_DIGIT] = "the message has a digit above 9 or a filler",
        [WHISTLAUREL_LENGTH_NOT_ALLOWED] = "the message has a length that is not allowed",
        [WHISTLAUREL_NOT_PRINTABLE] = "the message has a byte that is not printable",
        [WHISTLAUREL_BYTES_FOLLOW] = "bytes follow the message",
        [WHISTLAUREL_SIGNED_OFF] = "signed off",
        [WHISTLAUREL_AWAITED] = "an answer or the card's word is awaited",
        [WHISTLAUREL_REVERSAL_PENDING] = "a reversal is pending",
        [WHISTLAUREL_BATCH_CLOSING] = "the batch is settling or uploading; settle first",
        [WHISTLAUREL_NOTHING_TO_DO] = "nothing is awaited, pending or to be uploaded",
        [WHISTLAUREL_AMOUNT] = "the amount is 0 or above 99999999.99 yuan",
        [WHISTLAUREL_DESK_OUT_OF_FORM] = "card, month, day or text is out of form",
        [WHISTLAUREL_REFUND_TOO_LARGE] = "a refund is above the setting",
        [WHISTLAUREL_JOURNAL_FULL] = "the journal is full; settle first",
        [WHISTLAUREL_NO_ORIGINAL] = "no sale or completion of this batch has that trace",
        [WHISTLAUREL_VOIDED_ALREADY] = "it is voided already",
        [WHISTLAUREL_TOTAL_TOO_LARGE] = "the total would pass 9999999999.99 yuan; settle first",
        [WHISTLAUREL_ANSWER_NOT_MATCHING] = "the answer does not match",
        [WHISTLAUREL_CHIP_OUT_OF_FORM] = "the chip's data are out of form",
        [WHISTLAUREL_KEYS_OUT_OF_FORM] = "the keys are out of form",
    };

    return number < sizeof words / sizeof words[0] && words[number] != NULL ? words[number] : "not known";
}

void tell_amount(uint64_t fen)
{
    printf("%" PRIu64 ".%02" PRIu64 " yuan", fen / 100, fen % 100);
}

void tell_request(const struct request *request)
{
    static const char *const endings[] = {
        [PENDING] = "pending",   [APPROVED] = "approved", [DECLINED] = "declined",
        [REVERSED] = "reversed", [GIVEN_UP] = "given up", [UNANSWERED] = "unanswered",
    };

    printf("%s %06" PRIu32 ": %s ", kind_word(request->kind), request->trace, endings[request->ending]);
    if (request->ending == DECLINED) {
        printf("(%s) ", request->code);
    }
    tell_part(request->ending == APPROVED ? request->approved : request->amount, request->amount);
    printf(", card %s%s", request->card, request->has_chip ? ", chip" : "");
    if (request->ending == APPROVED) {
        printf(", reference %s, authorisation %s", request->reference, request->authorisation);
    } else if (request->ending == GIVEN_UP || request->ending == UNANSWERED) {
        printf("; ask the centre");
    }
    printf("\n");
    if (request->ending == APPROVED) {
        tell_rest(request->approved, request->amount);
    }
}

void tell_card_awaited(const struct request *request, uint64_t approved)
{
    printf("%s %06" PRIu32 ": the centre approves ", kind_word(request->kind), request->trace);
    tell_part(approved, request->amount);
    printf(", card %s, chip; card-agrees or card-declines\n", request->card);
}

void tell_entry(const uint8_t *entry)
{
    size_t length = entry[WHISTLAUREL_ENTRY_CARD_LENGTH];
    char card[20];
    char authorisation[7];
    char reference[13];

    mask_card(packed_number(entry + WHISTLAUREL_ENTRY_CARD, length), length, card);
    copy_centre_text(authorisation, entry + WHISTLAUREL_ENTRY_AUTHORISATION, 6);
    copy_centre_text(reference, entry + WHISTLAUREL_ENTRY_REFERENCE, 12);
    printf("%s %06" PRIu64 ": ", kind_word(entry[WHISTLAUREL_ENTRY_KIND]), packed_number(entry + WHISTLAUREL_ENTRY_TRACE, 6));
    tell_amount(packed_number(entry + WHISTLAUREL_ENTRY_AMOUNT, 12));
    printf(", card %s, date %04" PRIu64 ", reference %s, authorisation %s%s\n", card, packed_number(entry + WHISTLAUREL_ENTRY_DATE, 4),
           reference, authorisation, entry[WHISTLAUREL_ENTRY_VOIDED] == 1 ? ", voided" : "");
}

/* An amount, and where it is a part, of which. */
static void tell_part(uint64_t approved, uint64_t asked)
{
    tell_amount(approved);
    if (approved < asked) {
        printf(" of ");
        tell_amount(asked);
    }
}

/* What the card has paid of an amount and what it has not; nothing where it has paid all. */
static void tell_rest(uint64_t approved, uint64_t asked)
{
    if (approved < asked) {
        printf("paid by the card ");
        tell_amount(approved);
        printf(", still to pay ");
        tell_amount(asked - approved);
        printf("\n");
    }
}
