/*
 * whistlaurel.h: the card terminal core of Whistlaurel, for C11 and C++.
 *
 * Link libwhistlaurel.a. It needs nothing but memcpy and memset, allocates nothing, keeps nothing between calls and does no input or
 * output. Every function is proved to do what is said here for every value that it is handed; docs/EMBEDDING.md says in which order to
 * call them and what to store.
 *
 * A terminal is three pieces of memory that belong to the caller:
 *   image    WHISTLAUREL_IMAGE_SIZE bytes, the whole state of the terminal; made by whistlaurel_fresh, changed by the calls, the same
 *            bytes on every machine, so that they can be stored and read back;
 *   journal  WHISTLAUREL_ENTRY_SIZE bytes for each entry up to the entry limit of the settings, oldest first;
 *   message  WHISTLAUREL_MESSAGE_SIZE bytes or more, where a message that is to be sent is written.
 *
 * Pointers are never NULL, not even with a length of 0, and the pieces that one call is lent do not overlap. Every function returns
 * before it reads or writes outside what it was lent.
 *
 * Threads: a call holds nothing but what it is lent. Calls on different terminals may run at the same time; calls on one terminal go one
 * after another, and nobody else touches its memory meanwhile.
 */
#ifndef WHISTLAUREL_H
#define WHISTLAUREL_H

#include <stdbool.h>
#include <stddef.h>
#include <stdint.h>

#ifdef __cplusplus
extern "C" {
#endif

/* Bytes of an image, of a message buffer and of a journal entry. */
#define WHISTLAUREL_IMAGE_SIZE 415
#define WHISTLAUREL_MESSAGE_SIZE 614
#define WHISTLAUREL_ENTRY_SIZE 48

/* The largest settings: entry limit, sendings of a reversal, largest refund in fen. The smallest of each is 1. */
#define WHISTLAUREL_MOST_ENTRIES 300
#define WHISTLAUREL_MOST_SENDINGS 9
#define WHISTLAUREL_LARGEST_REFUND 9999999999

/* The most bytes of field 55, and of field 62, the key material of a sign-on. */
#define WHISTLAUREL_MOST_CHIP_BYTES 255
#define WHISTLAUREL_MOST_KEY_BYTES 84

/*
 * What a function returns. WHISTLAUREL_QUIET: done, and nothing is to be sent. WHISTLAUREL_SENDS: the first *length bytes of message are
 * to be sent. Every other number is a refusal, and nothing has changed: neither image nor journal nor message, nor what another function
 * would have set; a refused call sets *length to 0.
 */
enum whistlaurel_result {
    WHISTLAUREL_QUIET = 0,
    WHISTLAUREL_BUFFER_TOO_SHORT = 1,      /* message or journal is too short */
    WHISTLAUREL_OUT_OF_FORM = 2,           /* no image, or settings, state or journal break a rule */
    WHISTLAUREL_MESSAGE_ENDS = 3,          /* a message ends before a field that it names */
    WHISTLAUREL_TYPE_NOT_LISTED = 4,
    WHISTLAUREL_FIELD_NOT_LISTED = 5,
    WHISTLAUREL_NOT_A_DIGIT = 6,           /* or a filler that is not zero */
    WHISTLAUREL_LENGTH_NOT_ALLOWED = 7,
    WHISTLAUREL_NOT_PRINTABLE = 8,
    WHISTLAUREL_BYTES_FOLLOW = 9,
    WHISTLAUREL_SIGNED_OFF = 10,
    WHISTLAUREL_AWAITED = 11,              /* an answer or the card's word is awaited */
    WHISTLAUREL_REVERSAL_PENDING = 12,
    WHISTLAUREL_BATCH_CLOSING = 13,        /* the batch is settling or uploading */
    WHISTLAUREL_NOTHING_TO_DO = 14,        /* nothing of the call's kind is awaited, pending or to be uploaded */
    WHISTLAUREL_AMOUNT = 15,
    WHISTLAUREL_DESK_OUT_OF_FORM = 16,     /* kind, card, month, day or desk text */
    WHISTLAUREL_REFUND_TOO_LARGE = 17,
    WHISTLAUREL_JOURNAL_FULL = 18,
    WHISTLAUREL_NO_ORIGINAL = 19,
    WHISTLAUREL_VOIDED_ALREADY = 20,
    WHISTLAUREL_TOTAL_TOO_LARGE = 21,
    WHISTLAUREL_ANSWER_NOT_MATCHING = 22,
    WHISTLAUREL_CHIP_OUT_OF_FORM = 23,     /* field 55: an element that is cut off, a length that is not allowed, a tag twice */
    WHISTLAUREL_KEYS_OUT_OF_FORM = 24,     /* field 62 has not 24, 40, 56, 60 or 84 bytes */
    WHISTLAUREL_ABSENT = 254,              /* whistlaurel_field: the message does not hold the field */
    WHISTLAUREL_SENDS = 255
};

/* The kinds of card request. */
enum whistlaurel_kind {
    WHISTLAUREL_AUTHORISATION = 10,
    WHISTLAUREL_AUTHORISATION_VOID = 11,
    WHISTLAUREL_COMPLETION = 20,
    WHISTLAUREL_COMPLETION_VOID = 21,
    WHISTLAUREL_SALE = 22,
    WHISTLAUREL_SALE_VOID = 23,
    WHISTLAUREL_REFUND = 25
};

/* The places of what whistlaurel_sums gives: that of a sum's amount; its count follows. */
enum whistlaurel_sum {
    WHISTLAUREL_SALES = 0,
    WHISTLAUREL_COMPLETIONS = 2,
    WHISTLAUREL_REFUNDS = 4,
    WHISTLAUREL_SALE_VOIDS = 6,
    WHISTLAUREL_COMPLETION_VOIDS = 8
};

/*
 * The numbers that whistlaurel_number gives. Those after WHISTLAUREL_PHASE belong to the phase, and are 0 where it has none of them; the last
 * belongs to a sign-on, which changes neither the phase nor the numbers of it.
 */
enum whistlaurel_row {
    WHISTLAUREL_VERSION,                   /* of the image's format */
    WHISTLAUREL_ENTRY_LIMIT,
    WHISTLAUREL_SENDINGS,
    WHISTLAUREL_REFUND_LIMIT,
    WHISTLAUREL_FIELD_41,                  /* its 8 bytes as one number, the first byte highest */
    WHISTLAUREL_FIELD_42_FRONT,            /* its first 8 bytes */
    WHISTLAUREL_FIELD_42_REST,             /* its other 7 bytes */
    WHISTLAUREL_IS_SIGNED_ON,              /* 1 or 0 */
    WHISTLAUREL_BATCH,
    WHISTLAUREL_NEXT_TRACE,
    WHISTLAUREL_ENTRIES,                   /* entries in the journal */
    WHISTLAUREL_SENT,                      /* card requests since the last closing, and what became of them */
    WHISTLAUREL_APPROVED,
    WHISTLAUREL_DECLINED,
    WHISTLAUREL_REVERSED,
    WHISTLAUREL_GIVEN_UP,
    WHISTLAUREL_UNANSWERED,
    WHISTLAUREL_DEBIT_AMOUNT,              /* in fen, of the batch's approved sales and completions; a voided one stays */
    WHISTLAUREL_DEBIT_COUNT,               /* how many these are */
    WHISTLAUREL_CREDIT_AMOUNT,             /* in fen, of the batch's approved refunds and voids of sales and completions */
    WHISTLAUREL_CREDIT_COUNT,              /* how many these are */
    WHISTLAUREL_PHASE,                     /* enum whistlaurel_phase */
    WHISTLAUREL_REQUEST_KIND,              /* of the request that is awaited or reversed */
    WHISTLAUREL_REQUEST_AMOUNT,
    WHISTLAUREL_REQUEST_CARD_NUMBER,
    WHISTLAUREL_REQUEST_CARD_LENGTH,
    WHISTLAUREL_REQUEST_TRACE,
    WHISTLAUREL_REQUEST_ORIGINAL,          /* trace of the entry that it voids */
    WHISTLAUREL_REVERSAL_REASON,           /* 0 silence, 1 a bad MAC, 2 the card has declined */
    WHISTLAUREL_REVERSAL_SENDINGS,         /* how often the reversal has left */
    WHISTLAUREL_OTHER,                     /* trace of a settlement or of an upload's end; place of an upload item */
    WHISTLAUREL_CHIP_LENGTH,               /* bytes of field 55 of the request that is awaited or reversed, 0 without a chip */
    WHISTLAUREL_CARD_AWAITED,              /* 1 where the centre has approved and the card's word is awaited, else 0 */
    WHISTLAUREL_APPROVED_AMOUNT,           /* for which it has approved then, else 0; of a sale it may be a part of the amount asked */
    WHISTLAUREL_SIGN_ON_AWAITED,           /* trace of the sign-on whose answer is awaited, 0 where none is */
    WHISTLAUREL_ROWS
};

/* What is awaited or to be done; while a sign-on's answer is awaited, what was so before it. */
enum whistlaurel_phase {
    WHISTLAUREL_RESTING = 0,
    WHISTLAUREL_REQUEST_AWAITED = 1,       /* the centre's answer or, where WHISTLAUREL_CARD_AWAITED is 1, the card's word */
    WHISTLAUREL_REVERSAL_AWAITED = 2,
    WHISTLAUREL_SETTLEMENT_AWAITED = 3,
    WHISTLAUREL_ITEM_AWAITED = 4,
    WHISTLAUREL_END_AWAITED = 5,
    WHISTLAUREL_PENDING = 6,
    WHISTLAUREL_SETTLING = 7,
    WHISTLAUREL_UPLOADING = 8
};

/* Where the parts of a journal entry begin. Packed digits stand two a byte. */
enum whistlaurel_entry {
    WHISTLAUREL_ENTRY_KIND = 0,
    WHISTLAUREL_ENTRY_VOIDED = 1,
    WHISTLAUREL_ENTRY_MARK = 2,            /* upload: 0 not sent, 1 silent, 2 accepted, 3 rejected, 4 given up */
    WHISTLAUREL_ENTRY_RESENDS = 3,
    WHISTLAUREL_ENTRY_TRACE = 4,           /* 3 bytes packed */
    WHISTLAUREL_ENTRY_AMOUNT = 7,          /* 6 bytes packed, in fen, as it was approved */
    WHISTLAUREL_ENTRY_CARD_LENGTH = 13,
    WHISTLAUREL_ENTRY_CARD = 14,           /* 10 bytes packed, from the left, zeros after the last digit */
    WHISTLAUREL_ENTRY_DATE = 24,           /* MMDD, 2 bytes packed */
    WHISTLAUREL_ENTRY_AUTHORISATION = 26,  /* 6 characters */
    WHISTLAUREL_ENTRY_REFERENCE = 32       /* 12 characters */
};

/* The sizes above, as the library has them. */
size_t whistlaurel_image_size(void);
size_t whistlaurel_message_size(void);
size_t whistlaurel_entry_size(void);

/*
 * Makes a fresh terminal: signed off, in batch 1, resting, journal empty, counts and totals 0, next trace 1. The settings are judged by
 * the calls, which refuse by 2. Returns 0, or 2 where image_size is not WHISTLAUREL_IMAGE_SIZE.
 */
uint8_t whistlaurel_fresh(uint8_t *image, size_t image_size, uint32_t entry_limit, uint8_t sendings, uint64_t largest_refund,
                          const uint8_t terminal[8], const uint8_t merchant[15]);

/*
 * The calls. Each is lent image, journal and message, and sets *length to the bytes that are to be sent, 0 where none are. Bytes that are
 * no image are refused by 2.
 */

/*
 * A sign-on leaves. It may go signed on or off, at rest, over a pending reversal, while settling and while uploading; however it ends, the
 * phase is what it was. Its answer goes to whistlaurel_answer. Only code 00 signs on; no other code and no silence of the line signs off. A
 * 00 must bring the centre's batch number, other than 000000, and key material, field 62, else it is refused by 22. The number is adopted at
 * rest where no card request has left in the batch. The keys are not kept: once the answer is taken, whistlaurel_field gives them from its
 * bytes.
 */
uint8_t whistlaurel_sign_on(uint8_t *image, size_t image_size, uint8_t *journal, size_t journal_size, uint8_t *message, size_t message_size,
                            size_t *length);

/*
 * A card request leaves. card_number is the card's digits as a number and card_length how many they are; original is the trace of the
 * entry that a void is for. has_chip: the card is read by its chip, whose field 55 is the chip_size bytes at chip, 1 to
 * WHISTLAUREL_MOST_CHIP_BYTES; a sale or a pre-authorisation sends it, and its approval is followed by the card's word. What a kind does
 * not send is not judged: lend zeros, and for a chip false and any byte with size 0.
 */
uint8_t whistlaurel_start(uint8_t *image, size_t image_size, uint8_t *journal, size_t journal_size, uint8_t *message, size_t message_size,
                          size_t *length, uint8_t kind, uint64_t amount, uint64_t card_number, uint8_t card_length, uint32_t original,
                          uint8_t month, uint8_t day, const uint8_t authorisation[6], const uint8_t reference[12], bool has_chip,
                          const uint8_t *chip, size_t chip_size);

/*
 * The centre's bytes, and the key pad's word on their MAC, which counts in an answer to a card request or a reversal alone. Code 10
 * approves a sale for a part, the amount in its field 4, from 1 to the amount asked: entry, void and totals have that amount, a reversal the
 * amount asked. Every other kind is declined by 10.
 */
uint8_t whistlaurel_answer(uint8_t *image, size_t image_size, uint8_t *journal, size_t journal_size, uint8_t *message, size_t message_size,
                           size_t *length, const uint8_t *bytes, size_t bytes_size, bool mac_is_good);

/* The line or the card has fallen silent: what is awaited counts as not answered, and a card whose word is awaited as declining. */
uint8_t whistlaurel_no_answer(uint8_t *image, size_t image_size, uint8_t *journal, size_t journal_size, uint8_t *message, size_t message_size,
                              size_t *length);

/* Power has returned: what is awaited counts as not answered, as above, and the terminal is signed off. */
uint8_t whistlaurel_power_returned(uint8_t *image, size_t image_size, uint8_t *journal, size_t journal_size, uint8_t *message,
                                   size_t message_size, size_t *length);

/* After the centre's approval of a request with a chip the card agrees: the request is approved, and its entry written. */
uint8_t whistlaurel_card_agrees(uint8_t *image, size_t image_size, uint8_t *journal, size_t journal_size, uint8_t *message,
                                size_t message_size, size_t *length);

/* Instead the card declines: a reversal is pending. */
uint8_t whistlaurel_card_declines(uint8_t *image, size_t image_size, uint8_t *journal, size_t journal_size, uint8_t *message,
                                  size_t message_size, size_t *length);

/* The pending reversal leaves. */
uint8_t whistlaurel_send_reversal(uint8_t *image, size_t image_size, uint8_t *journal, size_t journal_size, uint8_t *message,
                                  size_t message_size, size_t *length);

/* The batch's totals leave. */
uint8_t whistlaurel_settle(uint8_t *image, size_t image_size, uint8_t *journal, size_t journal_size, uint8_t *message, size_t message_size,
                           size_t *length);

/* The next entry of the upload leaves, or the upload's end. */
uint8_t whistlaurel_send_next_upload(uint8_t *image, size_t image_size, uint8_t *journal, size_t journal_size, uint8_t *message,
                                     size_t message_size, size_t *length);

/* Sets *number to the number of a row (enum whistlaurel_row). Returns 0, or 2 where there is no such row or the bytes are no image. */
uint8_t whistlaurel_number(const uint8_t *image, size_t image_size, size_t row, uint64_t *number);

/*
 * Sets totals to debit amount, debit count, credit amount and credit count of the batch, amounts in fen, as they stand in the image: a call
 * that is not refused leaves there the sums of the journal's entries. Returns 0, or 2 for no image.
 */
uint8_t whistlaurel_totals(const uint8_t *image, size_t image_size, uint64_t totals[4]);

/*
 * Adds up the batch's journal for a settlement report: sets sums to the amount, in fen, and the count of sales, completions, refunds, sale
 * voids and completion voids (enum whistlaurel_sum), in the order of Q/CUP 009.1, 4.3.2. The first two together are the debit of
 * whistlaurel_totals, the last three its credit. A closing empties the journal: ask before the answer to a settlement or an upload's end
 * is handed in. Returns 0, or as a call does 1 for a journal too short, 2 for no image or an image and a journal that do not fit together.
 */
uint8_t whistlaurel_sums(const uint8_t *image, size_t image_size, const uint8_t *journal, size_t journal_size, uint64_t sums[10]);

/* Whether bytes are a well-formed message: 0, or the number 3 to 9, 23 or 24 by which they are refused. */
uint8_t whistlaurel_read(const uint8_t *bytes, size_t bytes_size);

/*
 * Puts field n of a message to the front of out, as it stands on the wire without its length (digits packed two a byte), and sets *count to
 * its digits or bytes. Returns 0; 3 to 9, 23 or 24 where the bytes are no message; WHISTLAUREL_ABSENT where it does not hold the field; 1
 * where out is too short. Field 64 is the last eight bytes of a message that holds it.
 */
uint8_t whistlaurel_field(const uint8_t *bytes, size_t bytes_size, uint8_t n, uint8_t *out, size_t out_size, size_t *count);

#ifdef __cplusplus
}
#endif

#endif
