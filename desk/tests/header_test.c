/* Holds every constant of whistlaurel.h against what the library does. Prints the first that do not hold, and ends with 1 then. */
#include "whistlaurel.h"

#include <stdio.h>
#include <string.h>

enum { PRINTED_MOST = 20, FIRST_BATCH = 7, ROOM = WHISTLAUREL_ENTRY_SIZE * (WHISTLAUREL_MOST_ENTRIES + 1) };

#define CARD UINT64_C(6222021234561234)
#define CARD_LENGTH 16
#define AMOUNT_MOST UINT64_C(9999999999)

struct terminal {
    uint8_t image[WHISTLAUREL_IMAGE_SIZE];
    uint8_t journal[ROOM];
    uint8_t message[WHISTLAUREL_MESSAGE_SIZE];
    size_t length;
};

struct answer {
    uint8_t bytes[WHISTLAUREL_MESSAGE_SIZE];
    size_t size;
};

#define LENT(t) (t)->image, sizeof (t)->image, (t)->journal, sizeof (t)->journal, (t)->message, sizeof (t)->message, &(t)->length
#define HOLDS(condition) holds((condition), #condition, __LINE__)

static const uint8_t field_41[8] = {'L', 'I', 'B', '0', '0', '0', '0', '1'};
static const uint8_t field_42[15] = {'W', 'H', 'I', 'S', 'T', 'L', 'A', 'U', 'R', 'E', 'L', '0', '0', '0', '1'};
static const uint8_t authorisation[6] = {'B', '0', '0', '0', '0', '1'};
static const uint8_t reference[12] = {'0', '0', '0', '0', '0', '0', '0', '0', '0', '0', '7', '7'};
/* Field 55: two elements. */
static const uint8_t field_55[8] = {0x9F, 0x26, 0x02, 0xA1, 0xB2, 0x95, 0x01, 0x00};
/* The lengths of field 62. */
static const size_t key_sizes[5] = {24, 40, 56, 60, WHISTLAUREL_MOST_KEY_BYTES};
static unsigned failures;

static void sizes(void);
static void settings(void);
static void first_rows(void);
static void sign_on_at_rest(void);
static void sign_on_over_a_reversal(void);
static void sign_on_over_a_closing(void);
static void reversal_phases(void);
static void card_phases(void);
static void part_approvals(void);
static void part_approval_with_a_chip(void);
static void closing_phases(void);
static void kinds(void);
static void settlement_report(void);
static void entries(void);
static void refusals_of_memory(void);
static void refusals_of_messages(void);
static void refusals_of_phase(void);
static void refusals_of_requests(void);
static void refusals_of_chips(void);
static void refusals_of_sign_ons(void);
static void refusal_of_totals(void);
static void refusals_of_sums(void);
static void refusals_of_reports(void);

int main(void)
{
    sizes();
    settings();
    first_rows();
    sign_on_at_rest();
    sign_on_over_a_reversal();
    sign_on_over_a_closing();
    reversal_phases();
    card_phases();
    part_approvals();
    part_approval_with_a_chip();
    closing_phases();
    kinds();
    settlement_report();
    entries();
    refusals_of_memory();
    refusals_of_messages();
    refusals_of_phase();
    refusals_of_requests();
    refusals_of_chips();
    refusals_of_sign_ons();
    refusal_of_totals();
    refusals_of_sums();
    refusals_of_reports();
    printf("header_test: %s\n", failures == 0 ? "every constant holds" : "failed");
    return failures == 0 ? 0 : 1;
}

static void holds(bool held, const char *condition, int line)
{
    if (!held && failures < PRINTED_MOST) {
        printf("header_test.c:%d: does not hold: %s\n", line, condition);
    }
    failures += !held;
}

/* ---- a terminal, its requests and the centre's answers */

static uint64_t number(const struct terminal *t, enum whistlaurel_row row)
{
    uint64_t n = UINT64_MAX;

    HOLDS(whistlaurel_number(t->image, sizeof t->image, row, &n) == WHISTLAUREL_QUIET);
    return n;
}

/* A fresh terminal, signed off. */
static struct terminal fresh_terminal(uint32_t limit, uint8_t sendings)
{
    struct terminal t = {.length = 1};

    HOLDS(whistlaurel_fresh(t.image, sizeof t.image, limit, sendings, 100000, field_41, field_42) == 0);
    return t;
}

static uint8_t start(struct terminal *t, enum whistlaurel_kind kind, uint64_t amount, uint32_t original)
{
    return whistlaurel_start(LENT(t), (uint8_t)kind, amount, CARD, CARD_LENGTH, original, 11, 16, authorisation, reference, false, field_55,
                             0);
}

/* A request of 100 fen whose card is read by its chip. */
static uint8_t start_chip(struct terminal *t, enum whistlaurel_kind kind, const uint8_t *chip, size_t size)
{
    return whistlaurel_start(LENT(t), (uint8_t)kind, 100, CARD, CARD_LENGTH, 0, 11, 16, authorisation, reference, true, chip, size);
}

/* Appends a field and names it in the bitmap. */
static void put(struct answer *a, unsigned field, const void *bytes, size_t size)
{
    a->bytes[2 + (field - 1) / 8] = (uint8_t)(a->bytes[2 + (field - 1) / 8] | 0x80u >> (field - 1) % 8);
    memcpy(a->bytes + a->size, bytes, size);
    a->size += size;
}

/* Copies a field of the message that left, digits where it has any; 48 and 60 with their length. */
static void copy(struct answer *a, const struct terminal *t, uint8_t field)
{
    uint8_t bytes[2 + 64] = {0};
    size_t front = field == 48 || field == 60 ? 2 : 0;
    size_t count = 0;
    uint8_t result = whistlaurel_field(t->message, t->length, field, bytes + front, sizeof bytes - front, &count);

    if (result == WHISTLAUREL_ABSENT) {
        return;
    }
    HOLDS(result == WHISTLAUREL_QUIET);
    bytes[1] = front == 0 ? bytes[1] : (uint8_t)(count / 10 * 16 + count % 10);
    put(a, field, bytes, front + (field == 41 || field == 42 ? count : (count + 1) / 2));
}

/* The answer to what left, with a code, or with a digit for a settlement. */
static struct answer answer_to(const struct terminal *t, const char *code, unsigned digit)
{
    struct answer a = {.size = 10};

    a.bytes[0] = t->message[0];
    a.bytes[1] = (uint8_t)(t->message[1] + 0x10);
    copy(&a, t, 4);
    copy(&a, t, 11);
    put(&a, 13, "\x11\x16", 2);
    put(&a, 37, "000000000012", 12);
    put(&a, 38, "A00012", 6);
    put(&a, 39, code, 2);
    copy(&a, t, 41);
    copy(&a, t, 42);
    copy(&a, t, 48);
    if (digit > 0) {
        a.bytes[a.size - 16] = (uint8_t)(a.bytes[a.size - 16] | digit << 4);
    }
    copy(&a, t, 60);
    put(&a, 64, "\0\0\0\0\0\0\0\0", 8);
    return a;
}

static uint8_t reply(struct terminal *t, const char *code, unsigned digit, bool mac_is_good)
{
    struct answer a = answer_to(t, code, digit);

    HOLDS(whistlaurel_read(a.bytes, a.size) == WHISTLAUREL_QUIET);
    return whistlaurel_answer(LENT(t), a.bytes, a.size, mac_is_good);
}

/* The answer to a request that left with code 10 and this amount, packed, in field 4, its first. */
static struct answer part_answer(const struct terminal *t, const char *amount)
{
    struct answer a = answer_to(t, "10", 0);

    memcpy(a.bytes + 10, amount, 6);
    return a;
}

static uint8_t reply_part(struct terminal *t, const char *amount, bool mac_is_good)
{
    struct answer a = part_answer(t, amount);

    return whistlaurel_answer(LENT(t), a.bytes, a.size, mac_is_good);
}

/* The answer to a sign-on that left, with a code, a batch number below 10 and a field 62 of so many bytes, none for 0. */
static struct answer sign_on_answer(const struct terminal *t, const char *code, unsigned batch, size_t keys_size)
{
    struct answer a = {.bytes = {0x08, 0x10}, .size = 10};
    const uint8_t field_60[8] = {0x00, 0x11, 0x00, 0x00, 0x00, (uint8_t)batch, 0x00, 0x30};
    uint8_t field_62[2 + 99] = {0x00, (uint8_t)(keys_size / 10 * 16 + keys_size % 10)};

    for (size_t i = 0; i < keys_size; i++) {
        field_62[2 + i] = (uint8_t)(0xFF - i);
    }
    copy(&a, t, 11);
    put(&a, 39, code, 2);
    copy(&a, t, 41);
    copy(&a, t, 42);
    put(&a, 60, field_60, sizeof field_60);
    if (keys_size > 0) {
        put(&a, 62, field_62, 2 + keys_size);
    }
    return a;
}

static uint8_t reply_to_sign_on(struct terminal *t, const char *code, unsigned batch, size_t keys_size)
{
    struct answer a = sign_on_answer(t, code, batch, keys_size);

    return whistlaurel_answer(LENT(t), a.bytes, a.size, false);
}

static void sign_on(struct terminal *t, unsigned batch)
{
    HOLDS(whistlaurel_sign_on(LENT(t)) == WHISTLAUREL_SENDS);
    HOLDS(reply_to_sign_on(t, "00", batch, key_sizes[0]) == WHISTLAUREL_QUIET && t->length == 0);
    HOLDS(number(t, WHISTLAUREL_IS_SIGNED_ON) == 1);
}

/* A fresh terminal, signed on. Its next trace is 2. */
static struct terminal terminal_of(uint32_t limit, uint8_t sendings)
{
    struct terminal t = fresh_terminal(limit, sendings);

    sign_on(&t, FIRST_BATCH);
    return t;
}

static void approve(struct terminal *t, enum whistlaurel_kind kind, uint64_t amount, uint32_t original)
{
    HOLDS(start(t, kind, amount, original) == WHISTLAUREL_SENDS);
    HOLDS(reply(t, "00", 0, true) == WHISTLAUREL_QUIET);
}

/* ---- sizes and settings */

static void sizes(void)
{
    HOLDS(whistlaurel_image_size() == WHISTLAUREL_IMAGE_SIZE);
    HOLDS(whistlaurel_message_size() == WHISTLAUREL_MESSAGE_SIZE);
    HOLDS(whistlaurel_entry_size() == WHISTLAUREL_ENTRY_SIZE);
}

static uint8_t judged(uint32_t limit, uint8_t sendings, uint64_t refund)
{
    struct terminal t = {.length = 1};

    HOLDS(whistlaurel_fresh(t.image, sizeof t.image, limit, sendings, refund, field_41, field_42) == 0);
    return whistlaurel_power_returned(LENT(&t));
}

static void settings(void)
{
    HOLDS(judged(1, 1, 1) == WHISTLAUREL_QUIET);
    HOLDS(judged(WHISTLAUREL_MOST_ENTRIES, WHISTLAUREL_MOST_SENDINGS, WHISTLAUREL_LARGEST_REFUND) == WHISTLAUREL_QUIET);
    HOLDS(judged(0, 1, 1) == WHISTLAUREL_OUT_OF_FORM);
    HOLDS(judged(1, 0, 1) == WHISTLAUREL_OUT_OF_FORM);
    HOLDS(judged(1, 1, 0) == WHISTLAUREL_OUT_OF_FORM);
    HOLDS(judged(WHISTLAUREL_MOST_ENTRIES + 1, 1, 1) == WHISTLAUREL_OUT_OF_FORM);
    HOLDS(judged(1, WHISTLAUREL_MOST_SENDINGS + 1, 1) == WHISTLAUREL_OUT_OF_FORM);
    HOLDS(judged(1, 1, WHISTLAUREL_LARGEST_REFUND + 1) == WHISTLAUREL_OUT_OF_FORM);
}

/* ---- rows and phases */

/* Compares the phase and the rows that belong to it. */
static void phase_is(const struct terminal *t, enum whistlaurel_phase phase, const uint64_t rows[WHISTLAUREL_ROWS])
{
    HOLDS(number(t, WHISTLAUREL_PHASE) == phase);
    for (int row = WHISTLAUREL_PHASE + 1; row < WHISTLAUREL_ROWS; row++) {
        HOLDS(number(t, (enum whistlaurel_row)row) == rows[row]);
    }
}

/* Compares the six counts: sent, approved, declined, reversed, given up, unanswered. */
static void counts_are(const struct terminal *t, const uint64_t counts[6])
{
    HOLDS(number(t, WHISTLAUREL_SENT) == counts[0]);
    HOLDS(number(t, WHISTLAUREL_APPROVED) == counts[1]);
    HOLDS(number(t, WHISTLAUREL_DECLINED) == counts[2]);
    HOLDS(number(t, WHISTLAUREL_REVERSED) == counts[3]);
    HOLDS(number(t, WHISTLAUREL_GIVEN_UP) == counts[4]);
    HOLDS(number(t, WHISTLAUREL_UNANSWERED) == counts[5]);
}

static uint8_t take_sums(const struct terminal *t, uint64_t sums[10])
{
    return whistlaurel_sums(t->image, sizeof t->image, t->journal, sizeof t->journal, sums);
}

/*
 * Compares the totals, as the rows have them, as whistlaurel_totals gives them and as the sums make them up: debit amount and count, credit
 * amount and count.
 */
static void totals_are(const struct terminal *t, const uint64_t totals[4])
{
    uint64_t given[4] = {UINT64_MAX, UINT64_MAX, UINT64_MAX, UINT64_MAX};
    uint64_t sums[10];

    memset(sums, 0xFF, sizeof sums);
    HOLDS(take_sums(t, sums) == WHISTLAUREL_QUIET);
    for (size_t i = 0; i < 2; i++) {
        HOLDS(sums[WHISTLAUREL_SALES + i] + sums[WHISTLAUREL_COMPLETIONS + i] == totals[i]);
        HOLDS(sums[WHISTLAUREL_REFUNDS + i] + sums[WHISTLAUREL_SALE_VOIDS + i] + sums[WHISTLAUREL_COMPLETION_VOIDS + i] == totals[2 + i]);
    }
    HOLDS(whistlaurel_totals(t->image, sizeof t->image, given) == WHISTLAUREL_QUIET);
    HOLDS(memcmp(given, totals, sizeof given) == 0);
    HOLDS(number(t, WHISTLAUREL_DEBIT_AMOUNT) == totals[0]);
    HOLDS(number(t, WHISTLAUREL_DEBIT_COUNT) == totals[1]);
    HOLDS(number(t, WHISTLAUREL_CREDIT_AMOUNT) == totals[2]);
    HOLDS(number(t, WHISTLAUREL_CREDIT_COUNT) == totals[3]);
}

static uint64_t word_of(const uint8_t *bytes, size_t size)
{
    uint64_t word = 0;

    for (size_t i = 0; i < size; i++) {
        word = word << 8 | bytes[i];
    }
    return word;
}

static void first_rows(void)
{
    struct terminal t = terminal_of(10, 2);
    uint64_t n;

    HOLDS(number(&t, WHISTLAUREL_VERSION) == 5 && word_of(t.image, 2) == 5);
    HOLDS(number(&t, WHISTLAUREL_ENTRY_LIMIT) == 10);
    HOLDS(number(&t, WHISTLAUREL_SENDINGS) == 2);
    HOLDS(number(&t, WHISTLAUREL_REFUND_LIMIT) == 100000);
    HOLDS(number(&t, WHISTLAUREL_FIELD_41) == word_of(field_41, 8));
    HOLDS(number(&t, WHISTLAUREL_FIELD_42_FRONT) == word_of(field_42, 8));
    HOLDS(number(&t, WHISTLAUREL_FIELD_42_REST) == word_of(field_42 + 8, 7));
    HOLDS(number(&t, WHISTLAUREL_IS_SIGNED_ON) == 1);
    HOLDS(number(&t, WHISTLAUREL_BATCH) == FIRST_BATCH);
    HOLDS(number(&t, WHISTLAUREL_NEXT_TRACE) == 2);
    HOLDS(number(&t, WHISTLAUREL_ENTRIES) == 0);
    totals_are(&t, (uint64_t[4]){0});
    phase_is(&t, WHISTLAUREL_RESTING, (uint64_t[WHISTLAUREL_ROWS]){0});
    HOLDS(whistlaurel_number(t.image, sizeof t.image, WHISTLAUREL_ROWS, &n) == WHISTLAUREL_OUT_OF_FORM);
    approve(&t, WHISTLAUREL_SALE, 12000, 0);
    HOLDS(number(&t, WHISTLAUREL_NEXT_TRACE) == 3);
    HOLDS(number(&t, WHISTLAUREL_ENTRIES) == 1);
    totals_are(&t, (uint64_t[4]){12000, 1, 0, 0});
    HOLDS(whistlaurel_power_returned(LENT(&t)) == WHISTLAUREL_QUIET);
    HOLDS(number(&t, WHISTLAUREL_IS_SIGNED_ON) == 0);
    totals_are(&t, (uint64_t[4]){12000, 1, 0, 0});
}

/* A sign-on is awaited with this trace, and leaves the phase and its rows as they are. */
static void sign_on_awaited(struct terminal *t, uint64_t trace, enum whistlaurel_phase phase, uint64_t rows[WHISTLAUREL_ROWS])
{
    HOLDS(whistlaurel_sign_on(LENT(t)) == WHISTLAUREL_SENDS && word_of(t->message, 2) == 0x0800);
    rows[WHISTLAUREL_SIGN_ON_AWAITED] = trace;
    phase_is(t, phase, rows);
    rows[WHISTLAUREL_SIGN_ON_AWAITED] = 0;
}

/* The message, each way in which a sign-on ends, and the keys in each length. */
static void sign_on_at_rest(void)
{
    struct terminal t = fresh_terminal(10, 2);
    uint64_t rows[WHISTLAUREL_ROWS] = {0};
    uint8_t field[WHISTLAUREL_MOST_KEY_BYTES];
    size_t count = 0;

    sign_on_awaited(&t, 1, WHISTLAUREL_RESTING, rows);
    HOLDS(t.length == 44 && whistlaurel_field(t.message, t.length, 60, field, sizeof field, &count) == 0 && count == 11);
    HOLDS(memcmp(field, "\x00\x00\x00\x01\x00\x30", 6) == 0);
    HOLDS(reply_to_sign_on(&t, "96", 0, 0) == WHISTLAUREL_QUIET);
    phase_is(&t, WHISTLAUREL_RESTING, rows);
    sign_on_awaited(&t, 2, WHISTLAUREL_RESTING, rows);
    HOLDS(whistlaurel_no_answer(LENT(&t)) == WHISTLAUREL_QUIET);
    HOLDS(number(&t, WHISTLAUREL_IS_SIGNED_ON) == 0 && number(&t, WHISTLAUREL_BATCH) == 1);
    for (unsigned i = 0; i < 5; i++) {
        struct answer a;

        sign_on_awaited(&t, 3 + i, WHISTLAUREL_RESTING, rows);
        a = sign_on_answer(&t, "00", 2 + i, key_sizes[i]);
        HOLDS(whistlaurel_answer(LENT(&t), a.bytes, a.size, i % 2 == 0) == WHISTLAUREL_QUIET);
        HOLDS(number(&t, WHISTLAUREL_IS_SIGNED_ON) == 1 && number(&t, WHISTLAUREL_BATCH) == 2 + i);
        HOLDS(whistlaurel_field(a.bytes, a.size, 62, field, key_sizes[i] - 1, &count) == WHISTLAUREL_BUFFER_TOO_SHORT);
        HOLDS(whistlaurel_field(a.bytes, a.size, 62, field, key_sizes[i], &count) == 0 && count == key_sizes[i]);
        HOLDS(memcmp(field, a.bytes + a.size - count, count) == 0);
    }
    sign_on_awaited(&t, 8, WHISTLAUREL_RESTING, rows);
    HOLDS(reply_to_sign_on(&t, "96", 0, 0) == WHISTLAUREL_QUIET && number(&t, WHISTLAUREL_IS_SIGNED_ON) == 1);
    counts_are(&t, (uint64_t[6]){0});
}

/* Over a pending reversal: silence, power and an answer leave it as it is, and the batch number stays. */
static void sign_on_over_a_reversal(void)
{
    struct terminal t = terminal_of(10, 2);
    uint64_t rows[WHISTLAUREL_ROWS] = {
        [WHISTLAUREL_REQUEST_KIND] = WHISTLAUREL_SALE,   [WHISTLAUREL_REQUEST_AMOUNT] = 100,
        [WHISTLAUREL_REQUEST_CARD_NUMBER] = CARD,        [WHISTLAUREL_REQUEST_CARD_LENGTH] = CARD_LENGTH,
        [WHISTLAUREL_REQUEST_TRACE] = 2,                 [WHISTLAUREL_REVERSAL_SENDINGS] = 1,
    };

    HOLDS(start(&t, WHISTLAUREL_SALE, 100, 0) == WHISTLAUREL_SENDS);
    HOLDS(whistlaurel_no_answer(LENT(&t)) == WHISTLAUREL_QUIET);
    HOLDS(whistlaurel_send_reversal(LENT(&t)) == WHISTLAUREL_SENDS);
    HOLDS(whistlaurel_power_returned(LENT(&t)) == WHISTLAUREL_QUIET);
    HOLDS(whistlaurel_send_reversal(LENT(&t)) == WHISTLAUREL_SIGNED_OFF);
    sign_on_awaited(&t, 3, WHISTLAUREL_PENDING, rows);
    HOLDS(whistlaurel_no_answer(LENT(&t)) == WHISTLAUREL_QUIET);
    phase_is(&t, WHISTLAUREL_PENDING, rows);
    sign_on_awaited(&t, 4, WHISTLAUREL_PENDING, rows);
    HOLDS(reply_to_sign_on(&t, "00", FIRST_BATCH + 1, 24) == WHISTLAUREL_QUIET);
    phase_is(&t, WHISTLAUREL_PENDING, rows);
    HOLDS(number(&t, WHISTLAUREL_IS_SIGNED_ON) == 1 && number(&t, WHISTLAUREL_BATCH) == FIRST_BATCH);
    sign_on_awaited(&t, 5, WHISTLAUREL_PENDING, rows);
    HOLDS(whistlaurel_power_returned(LENT(&t)) == WHISTLAUREL_QUIET);
    phase_is(&t, WHISTLAUREL_PENDING, rows);
    HOLDS(number(&t, WHISTLAUREL_IS_SIGNED_ON) == 0);
    sign_on(&t, FIRST_BATCH + 1);
    HOLDS(whistlaurel_send_reversal(LENT(&t)) == WHISTLAUREL_SENDS);
    HOLDS(reply(&t, "00", 0, true) == WHISTLAUREL_QUIET);
    counts_are(&t, (uint64_t[]){1, 0, 0, 1, 0, 0});
    sign_on(&t, FIRST_BATCH + 1);
    HOLDS(number(&t, WHISTLAUREL_BATCH) == FIRST_BATCH);
}

/* While settling and while uploading; a closed batch takes the centre's number. */
static void sign_on_over_a_closing(void)
{
    struct terminal t = terminal_of(10, 2);
    uint64_t rows[WHISTLAUREL_ROWS] = {0};

    approve(&t, WHISTLAUREL_SALE, 100, 0);
    HOLDS(whistlaurel_settle(LENT(&t)) == WHISTLAUREL_SENDS);
    HOLDS(whistlaurel_power_returned(LENT(&t)) == WHISTLAUREL_QUIET);
    sign_on_awaited(&t, 4, WHISTLAUREL_SETTLING, rows);
    HOLDS(reply_to_sign_on(&t, "00", FIRST_BATCH + 1, 24) == WHISTLAUREL_QUIET);
    HOLDS(whistlaurel_settle(LENT(&t)) == WHISTLAUREL_SENDS);
    HOLDS(reply(&t, "00", 2, true) == WHISTLAUREL_QUIET);
    HOLDS(whistlaurel_send_next_upload(LENT(&t)) == WHISTLAUREL_SENDS);
    HOLDS(whistlaurel_power_returned(LENT(&t)) == WHISTLAUREL_QUIET);
    sign_on_awaited(&t, 6, WHISTLAUREL_UPLOADING, rows);
    HOLDS(reply_to_sign_on(&t, "00", FIRST_BATCH + 1, 24) == WHISTLAUREL_QUIET);
    phase_is(&t, WHISTLAUREL_UPLOADING, rows);
    HOLDS(t.journal[WHISTLAUREL_ENTRY_MARK] == 1 && number(&t, WHISTLAUREL_BATCH) == FIRST_BATCH);
    for (int message = 0; message < 2; message++) {
        HOLDS(whistlaurel_send_next_upload(LENT(&t)) == WHISTLAUREL_SENDS);
        HOLDS(reply(&t, "00", 0, true) == WHISTLAUREL_QUIET);
    }
    HOLDS(number(&t, WHISTLAUREL_IS_SIGNED_ON) == 0 && number(&t, WHISTLAUREL_BATCH) == FIRST_BATCH + 1);
    sign_on(&t, 9);
    HOLDS(number(&t, WHISTLAUREL_BATCH) == 9);
}

/* A request and its reversal: awaited, pending, reversal awaited; by silence and by a bad MAC. */
static void reversal_phases(void)
{
    struct terminal t = terminal_of(10, 2);
    uint64_t rows[WHISTLAUREL_ROWS] = {
        [WHISTLAUREL_REQUEST_KIND] = WHISTLAUREL_SALE_VOID,      [WHISTLAUREL_REQUEST_AMOUNT] = 12000,
        [WHISTLAUREL_REQUEST_CARD_NUMBER] = CARD,                [WHISTLAUREL_REQUEST_CARD_LENGTH] = CARD_LENGTH,
        [WHISTLAUREL_REQUEST_TRACE] = 3,                         [WHISTLAUREL_REQUEST_ORIGINAL] = 2,
    };

    approve(&t, WHISTLAUREL_SALE, 12000, 0);
    HOLDS(start(&t, WHISTLAUREL_SALE_VOID, 0, 2) == WHISTLAUREL_SENDS);
    phase_is(&t, WHISTLAUREL_REQUEST_AWAITED, rows);
    HOLDS(whistlaurel_no_answer(LENT(&t)) == WHISTLAUREL_QUIET);
    phase_is(&t, WHISTLAUREL_PENDING, rows);
    HOLDS(whistlaurel_send_reversal(LENT(&t)) == WHISTLAUREL_SENDS);
    rows[WHISTLAUREL_REVERSAL_SENDINGS] = 1;
    phase_is(&t, WHISTLAUREL_REVERSAL_AWAITED, rows);
    HOLDS(reply(&t, "25", 0, true) == WHISTLAUREL_QUIET);
    counts_are(&t, (uint64_t[]){2, 1, 0, 1, 0, 0});
    HOLDS(start(&t, WHISTLAUREL_SALE, 500, 0) == WHISTLAUREL_SENDS);
    HOLDS(reply(&t, "00", 0, false) == WHISTLAUREL_QUIET);
    HOLDS(number(&t, WHISTLAUREL_REVERSAL_REASON) == 1);
    for (int sending = 0; sending < 2; sending++) {
        HOLDS(whistlaurel_send_reversal(LENT(&t)) == WHISTLAUREL_SENDS);
        HOLDS(whistlaurel_no_answer(LENT(&t)) == WHISTLAUREL_QUIET);
    }
    counts_are(&t, (uint64_t[]){3, 1, 0, 1, 1, 0});
    HOLDS(start(&t, WHISTLAUREL_REFUND, 500, 0) == WHISTLAUREL_SENDS);
    HOLDS(whistlaurel_no_answer(LENT(&t)) == WHISTLAUREL_QUIET);
    HOLDS(start(&t, WHISTLAUREL_SALE, 500, 0) == WHISTLAUREL_SENDS);
    HOLDS(reply(&t, "51", 0, true) == WHISTLAUREL_QUIET);
    counts_are(&t, (uint64_t[]){5, 1, 1, 1, 1, 1});
    totals_are(&t, (uint64_t[4]){12000, 1, 0, 0});
}

/* The message that left holds this field 55, and says in field 22 that the chip was read; with reason, for a reversal. */
static void chip_left(const struct terminal *t, const char *reason)
{
    uint8_t field[WHISTLAUREL_MOST_CHIP_BYTES];
    size_t count = 0;

    HOLDS(whistlaurel_field(t->message, t->length, 55, field, sizeof field, &count) == 0);
    HOLDS(count == sizeof field_55 && memcmp(field, field_55, sizeof field_55) == 0);
    HOLDS(whistlaurel_field(t->message, t->length, 22, field, sizeof field, &count) == 0 && memcmp(field, "\x05\x20", 2) == 0);
    if (reason != NULL) {
        HOLDS(whistlaurel_field(t->message, t->length, 39, field, sizeof field, &count) == 0 && memcmp(field, reason, 2) == 0);
    }
}

/* A request with a chip up to the card's word: agreed, declined, silent. */
static void card_phases(void)
{
    struct terminal t = terminal_of(10, 1);
    uint64_t rows[WHISTLAUREL_ROWS] = {
        [WHISTLAUREL_REQUEST_KIND] = WHISTLAUREL_SALE,   [WHISTLAUREL_REQUEST_AMOUNT] = 100,
        [WHISTLAUREL_REQUEST_CARD_NUMBER] = CARD,        [WHISTLAUREL_REQUEST_CARD_LENGTH] = CARD_LENGTH,
        [WHISTLAUREL_REQUEST_TRACE] = 2,                 [WHISTLAUREL_CHIP_LENGTH] = sizeof field_55,
    };

    HOLDS(start_chip(&t, WHISTLAUREL_SALE, field_55, sizeof field_55) == WHISTLAUREL_SENDS);
    chip_left(&t, NULL);
    phase_is(&t, WHISTLAUREL_REQUEST_AWAITED, rows);
    HOLDS(reply(&t, "00", 0, true) == WHISTLAUREL_QUIET);
    rows[WHISTLAUREL_CARD_AWAITED] = 1;
    rows[WHISTLAUREL_APPROVED_AMOUNT] = 100;
    phase_is(&t, WHISTLAUREL_REQUEST_AWAITED, rows);
    counts_are(&t, (uint64_t[]){1, 0, 0, 0, 0, 0});
    totals_are(&t, (uint64_t[4]){0});
    HOLDS(whistlaurel_card_agrees(LENT(&t)) == WHISTLAUREL_QUIET);
    phase_is(&t, WHISTLAUREL_RESTING, (uint64_t[WHISTLAUREL_ROWS]){0});
    counts_are(&t, (uint64_t[]){1, 1, 0, 0, 0, 0});
    totals_are(&t, (uint64_t[4]){100, 1, 0, 0});
    HOLDS(start_chip(&t, WHISTLAUREL_SALE, field_55, sizeof field_55) == WHISTLAUREL_SENDS);
    HOLDS(reply(&t, "00", 0, true) == WHISTLAUREL_QUIET);
    HOLDS(whistlaurel_card_declines(LENT(&t)) == WHISTLAUREL_QUIET);
    rows[WHISTLAUREL_REQUEST_TRACE] = 3;
    rows[WHISTLAUREL_REVERSAL_REASON] = 2;
    rows[WHISTLAUREL_CARD_AWAITED] = 0;
    rows[WHISTLAUREL_APPROVED_AMOUNT] = 0;
    phase_is(&t, WHISTLAUREL_PENDING, rows);
    HOLDS(whistlaurel_send_reversal(LENT(&t)) == WHISTLAUREL_SENDS);
    chip_left(&t, "06");
    HOLDS(reply(&t, "00", 0, true) == WHISTLAUREL_QUIET);
    phase_is(&t, WHISTLAUREL_RESTING, (uint64_t[WHISTLAUREL_ROWS]){0});
    HOLDS(start_chip(&t, WHISTLAUREL_AUTHORISATION, field_55, sizeof field_55) == WHISTLAUREL_SENDS);
    HOLDS(reply(&t, "00", 0, true) == WHISTLAUREL_QUIET);
    HOLDS(whistlaurel_no_answer(LENT(&t)) == WHISTLAUREL_QUIET);
    HOLDS(number(&t, WHISTLAUREL_PHASE) == WHISTLAUREL_PENDING && number(&t, WHISTLAUREL_REVERSAL_REASON) == 2);
    counts_are(&t, (uint64_t[]){3, 1, 0, 1, 0, 0});
    totals_are(&t, (uint64_t[4]){100, 1, 0, 0});
}

/* The message that left has this amount, packed, and in field 60 so many digits. */
static void amount_left(const struct terminal *t, const char *amount, size_t digits)
{
    uint8_t field[7];
    size_t count = 0;

    HOLDS(whistlaurel_field(t->message, t->length, 4, field, sizeof field, &count) == 0 && memcmp(field, amount, 6) == 0);
    HOLDS(whistlaurel_field(t->message, t->length, 60, field, sizeof field, &count) == 0 && count == digits);
}

/* A sale answered 10: the bounds of its amount, the entry, the void, a bad MAC. Another kind is declined. */
static void part_approvals(void)
{
    struct terminal t = terminal_of(10, 1);
    struct answer none;
    struct answer too_much;
    struct answer part;

    HOLDS(start(&t, WHISTLAUREL_SALE, 12000, 0) == WHISTLAUREL_SENDS);
    amount_left(&t, "\x00\x00\x00\x01\x20\x00", 14);
    none = part_answer(&t, "\x00\x00\x00\x00\x00\x00");
    too_much = part_answer(&t, "\x00\x00\x00\x01\x20\x01");
    part = part_answer(&t, "\x00\x00\x00\x00\x50\x00");
    HOLDS(whistlaurel_answer(LENT(&t), none.bytes, none.size, true) == WHISTLAUREL_ANSWER_NOT_MATCHING);
    HOLDS(whistlaurel_answer(LENT(&t), too_much.bytes, too_much.size, true) == WHISTLAUREL_ANSWER_NOT_MATCHING);
    HOLDS(whistlaurel_answer(LENT(&t), part.bytes, part.size, true) == WHISTLAUREL_QUIET);
    HOLDS(memcmp(t.journal + WHISTLAUREL_ENTRY_AMOUNT, "\x00\x00\x00\x00\x50\x00", 6) == 0);
    totals_are(&t, (uint64_t[4]){5000, 1, 0, 0});
    HOLDS(start(&t, WHISTLAUREL_SALE_VOID, 0, 2) == WHISTLAUREL_SENDS);
    amount_left(&t, "\x00\x00\x00\x00\x50\x00", 11);
    HOLDS(reply(&t, "00", 0, true) == WHISTLAUREL_QUIET);
    totals_are(&t, (uint64_t[4]){5000, 1, 5000, 1});
    HOLDS(start(&t, WHISTLAUREL_SALE, 100, 0) == WHISTLAUREL_SENDS);
    HOLDS(reply_part(&t, "\x00\x00\x00\x00\x00\x40", false) == WHISTLAUREL_QUIET);
    HOLDS(number(&t, WHISTLAUREL_PHASE) == WHISTLAUREL_PENDING && number(&t, WHISTLAUREL_REVERSAL_REASON) == 1);
    HOLDS(whistlaurel_send_reversal(LENT(&t)) == WHISTLAUREL_SENDS);
    amount_left(&t, "\x00\x00\x00\x00\x01\x00", 14);
    HOLDS(reply(&t, "00", 0, true) == WHISTLAUREL_QUIET);
    HOLDS(start(&t, WHISTLAUREL_COMPLETION, 100, 0) == WHISTLAUREL_SENDS);
    HOLDS(reply_part(&t, "\x00\x00\x00\x00\x00\x40", true) == WHISTLAUREL_QUIET);
    counts_are(&t, (uint64_t[]){4, 2, 1, 1, 0, 0});
    totals_are(&t, (uint64_t[4]){5000, 1, 5000, 1});
}

/* While the card's word is awaited the part stands beside the amount asked; the card's consent enters the part, its decline reverses all. */
static void part_approval_with_a_chip(void)
{
    struct terminal t = terminal_of(10, 1);

    for (int agrees = 1; agrees >= 0; agrees--) {
        HOLDS(start_chip(&t, WHISTLAUREL_SALE, field_55, sizeof field_55) == WHISTLAUREL_SENDS);
        HOLDS(reply_part(&t, "\x00\x00\x00\x00\x00\x40", true) == WHISTLAUREL_QUIET);
        HOLDS(number(&t, WHISTLAUREL_CARD_AWAITED) == 1);
        HOLDS(number(&t, WHISTLAUREL_REQUEST_AMOUNT) == 100 && number(&t, WHISTLAUREL_APPROVED_AMOUNT) == 40);
        HOLDS((agrees ? whistlaurel_card_agrees(LENT(&t)) : whistlaurel_card_declines(LENT(&t))) == WHISTLAUREL_QUIET);
        HOLDS(number(&t, WHISTLAUREL_APPROVED_AMOUNT) == 0);
        totals_are(&t, (uint64_t[4]){40, 1, 0, 0});
    }
    HOLDS(whistlaurel_send_reversal(LENT(&t)) == WHISTLAUREL_SENDS);
    amount_left(&t, "\x00\x00\x00\x00\x01\x00", 14);
    chip_left(&t, "06");
}

/* The message that left holds these first 30 digits of field 48, packed. */
static void settlement_carries(const struct terminal *t, const char sums[15])
{
    uint8_t field_48[31];
    size_t count = 0;

    HOLDS(whistlaurel_field(t->message, t->length, 48, field_48, sizeof field_48, &count) == 0 && count == 62);
    HOLDS(memcmp(field_48, sums, 15) == 0);
}

/* Settlement and upload, and the marks of an entry on the way. */
static void closing_phases(void)
{
    struct terminal t = terminal_of(10, 1);
    uint64_t rows[WHISTLAUREL_ROWS] = {[WHISTLAUREL_OTHER] = 5};
    const uint8_t *second = t.journal + WHISTLAUREL_ENTRY_SIZE;
    const uint8_t *third = second + WHISTLAUREL_ENTRY_SIZE;

    approve(&t, WHISTLAUREL_SALE, 100, 0);
    approve(&t, WHISTLAUREL_SALE, 200, 0);
    approve(&t, WHISTLAUREL_REFUND, 300, 0);
    totals_are(&t, (uint64_t[4]){300, 2, 300, 1});
    HOLDS(whistlaurel_settle(LENT(&t)) == WHISTLAUREL_SENDS);
    settlement_carries(&t, "\x00\x00\x00\x00\x03\x00\x00\x20\x00\x00\x00\x00\x30\x00\x01");
    phase_is(&t, WHISTLAUREL_SETTLEMENT_AWAITED, rows);
    HOLDS(whistlaurel_no_answer(LENT(&t)) == WHISTLAUREL_QUIET);
    phase_is(&t, WHISTLAUREL_SETTLING, (uint64_t[WHISTLAUREL_ROWS]){0});
    HOLDS(whistlaurel_settle(LENT(&t)) == WHISTLAUREL_SENDS);
    HOLDS(reply(&t, "00", 2, true) == WHISTLAUREL_QUIET);
    phase_is(&t, WHISTLAUREL_UPLOADING, (uint64_t[WHISTLAUREL_ROWS]){0});
    HOLDS(whistlaurel_send_next_upload(LENT(&t)) == WHISTLAUREL_SENDS);
    HOLDS(reply(&t, "00", 0, true) == WHISTLAUREL_QUIET);
    HOLDS(t.journal[WHISTLAUREL_ENTRY_MARK] == 2 && second[WHISTLAUREL_ENTRY_MARK] == 0);
    HOLDS(whistlaurel_send_next_upload(LENT(&t)) == WHISTLAUREL_SENDS);
    rows[WHISTLAUREL_OTHER] = 1;
    phase_is(&t, WHISTLAUREL_ITEM_AWAITED, rows);
    HOLDS(whistlaurel_no_answer(LENT(&t)) == WHISTLAUREL_QUIET);
    HOLDS(second[WHISTLAUREL_ENTRY_MARK] == 1 && second[WHISTLAUREL_ENTRY_RESENDS] == 0);
    HOLDS(whistlaurel_send_next_upload(LENT(&t)) == WHISTLAUREL_SENDS);
    HOLDS(reply(&t, "12", 0, true) == WHISTLAUREL_QUIET);
    HOLDS(third[WHISTLAUREL_ENTRY_MARK] == 3);
    HOLDS(whistlaurel_send_next_upload(LENT(&t)) == WHISTLAUREL_SENDS);
    HOLDS(second[WHISTLAUREL_ENTRY_RESENDS] == 1);
    HOLDS(whistlaurel_no_answer(LENT(&t)) == WHISTLAUREL_QUIET);
    HOLDS(second[WHISTLAUREL_ENTRY_MARK] == 4);
    HOLDS(whistlaurel_send_next_upload(LENT(&t)) == WHISTLAUREL_SENDS);
    rows[WHISTLAUREL_OTHER] = 7;
    phase_is(&t, WHISTLAUREL_END_AWAITED, rows);
    totals_are(&t, (uint64_t[4]){300, 2, 300, 1});
    HOLDS(reply(&t, "00", 0, true) == WHISTLAUREL_QUIET);
    phase_is(&t, WHISTLAUREL_RESTING, (uint64_t[WHISTLAUREL_ROWS]){0});
    HOLDS(number(&t, WHISTLAUREL_BATCH) == FIRST_BATCH + 1);
    totals_are(&t, (uint64_t[4]){0});
}

/* ---- kinds and entries */

/* A kind leaves as such: its type, its number in field 60, which asks for approval in part for a sale alone, and its side of the totals. */
static void kind_leaves(struct terminal *t, enum whistlaurel_kind kind, uint32_t original, unsigned type, unsigned side)
{
    uint64_t before[4];
    uint64_t after[4];
    uint8_t field_60[7] = {0};
    size_t count;

    HOLDS(whistlaurel_totals(t->image, sizeof t->image, before) == WHISTLAUREL_QUIET);
    HOLDS(start(t, kind, 100, original) == WHISTLAUREL_SENDS);
    HOLDS(word_of(t->message, 2) == type);
    HOLDS(whistlaurel_field(t->message, t->length, 60, field_60, sizeof field_60, &count) == 0);
    HOLDS(count == (kind == WHISTLAUREL_SALE ? 14 : 11) && field_60[6] == (kind == WHISTLAUREL_SALE));
    HOLDS(field_60[0] == kind / 10 * 16 + kind % 10);
    HOLDS(reply(t, "00", 0, true) == WHISTLAUREL_QUIET);
    HOLDS(whistlaurel_totals(t->image, sizeof t->image, after) == WHISTLAUREL_QUIET);
    HOLDS(after[0] - before[0] == (side == 1 ? 100 : 0) && after[1] - before[1] == (side == 1));
    HOLDS(after[2] - before[2] == (side == 2 ? 100 : 0) && after[3] - before[3] == (side == 2));
}

static void kinds(void)
{
    struct terminal t = terminal_of(10, 3);

    kind_leaves(&t, WHISTLAUREL_SALE, 0, 0x0200, 1);
    kind_leaves(&t, WHISTLAUREL_COMPLETION, 0, 0x0200, 1);
    kind_leaves(&t, WHISTLAUREL_SALE_VOID, 2, 0x0200, 2);
    kind_leaves(&t, WHISTLAUREL_COMPLETION_VOID, 3, 0x0200, 2);
    kind_leaves(&t, WHISTLAUREL_REFUND, 0, 0x0220, 2);
    kind_leaves(&t, WHISTLAUREL_AUTHORISATION, 0, 0x0100, 0);
    kind_leaves(&t, WHISTLAUREL_AUTHORISATION_VOID, 0, 0x0100, 0);
}

/* Compares the sums of a batch. */
static void sums_are(const struct terminal *t, const uint64_t sums[10])
{
    uint64_t given[10];

    memset(given, 0xFF, sizeof given);
    HOLDS(take_sums(t, given) == WHISTLAUREL_QUIET);
    HOLDS(memcmp(given, sums, sizeof given) == 0);
}

/* Each kind has its own sum. What is voided stays in its own, a part counts as approved, an authorisation and its void are in none. */
static void settlement_report(void)
{
    static const struct {
        enum whistlaurel_kind kind;
        uint64_t amount;
        uint32_t original;
    } requests[] = {
        {WHISTLAUREL_SALE, 100, 0},            {WHISTLAUREL_SALE, 200, 0},
        {WHISTLAUREL_SALE, 400, 0},            {WHISTLAUREL_SALE, 800, 0},
        {WHISTLAUREL_COMPLETION, 1000, 0},     {WHISTLAUREL_COMPLETION, 2000, 0},
        {WHISTLAUREL_COMPLETION, 4000, 0},     {WHISTLAUREL_COMPLETION, 8000, 0},
        {WHISTLAUREL_REFUND, 77, 0},           {WHISTLAUREL_SALE_VOID, 0, 3},
        {WHISTLAUREL_SALE_VOID, 0, 5},         {WHISTLAUREL_COMPLETION_VOID, 0, 6},
        {WHISTLAUREL_COMPLETION_VOID, 0, 7},   {WHISTLAUREL_COMPLETION_VOID, 0, 9},
        {WHISTLAUREL_AUTHORISATION, 90000, 0}, {WHISTLAUREL_AUTHORISATION_VOID, 90000, 0},
    };
    static const uint64_t sums[10] = {
        [WHISTLAUREL_SALES] = 1540,      5, [WHISTLAUREL_COMPLETIONS] = 15000,      4, [WHISTLAUREL_REFUNDS] = 77, 1,
        [WHISTLAUREL_SALE_VOIDS] = 1000, 2, [WHISTLAUREL_COMPLETION_VOIDS] = 11000, 3,
    };
    struct terminal t = terminal_of(20, 1);

    for (size_t i = 0; i < sizeof requests / sizeof requests[0]; i++) {
        approve(&t, requests[i].kind, requests[i].amount, requests[i].original);
    }
    HOLDS(start(&t, WHISTLAUREL_SALE, 100, 0) == WHISTLAUREL_SENDS);
    HOLDS(reply_part(&t, "\x00\x00\x00\x00\x00\x40", true) == WHISTLAUREL_QUIET);
    HOLDS(number(&t, WHISTLAUREL_ENTRIES) == 17);
    sums_are(&t, sums);
    totals_are(&t, (uint64_t[4]){16540, 9, 12077, 6});
    HOLDS(whistlaurel_settle(LENT(&t)) == WHISTLAUREL_SENDS);
    sums_are(&t, sums);
    HOLDS(reply(&t, "00", 1, true) == WHISTLAUREL_QUIET);
    sums_are(&t, (uint64_t[10]){0});
}

static void entries(void)
{
    struct terminal t = terminal_of(10, 3);
    const uint8_t *e = t.journal;

    approve(&t, WHISTLAUREL_SALE, 12000, 0);
    HOLDS(e[WHISTLAUREL_ENTRY_KIND] == WHISTLAUREL_SALE);
    HOLDS(e[WHISTLAUREL_ENTRY_VOIDED] == 0);
    HOLDS(memcmp(e + WHISTLAUREL_ENTRY_TRACE, "\x00\x00\x02", 3) == 0);
    HOLDS(memcmp(e + WHISTLAUREL_ENTRY_AMOUNT, "\x00\x00\x00\x01\x20\x00", 6) == 0);
    HOLDS(e[WHISTLAUREL_ENTRY_CARD_LENGTH] == CARD_LENGTH);
    HOLDS(memcmp(e + WHISTLAUREL_ENTRY_CARD, "\x62\x22\x02\x12\x34\x56\x12\x34\x00\x00", 10) == 0);
    HOLDS(memcmp(e + WHISTLAUREL_ENTRY_DATE, "\x11\x16", 2) == 0);
    HOLDS(memcmp(e + WHISTLAUREL_ENTRY_AUTHORISATION, "A00012", 6) == 0);
    HOLDS(memcmp(e + WHISTLAUREL_ENTRY_REFERENCE, "000000000012", 12) == 0);
    HOLDS(WHISTLAUREL_ENTRY_REFERENCE + 12 + 4 == WHISTLAUREL_ENTRY_SIZE);
    approve(&t, WHISTLAUREL_SALE_VOID, 0, 2);
    HOLDS(e[WHISTLAUREL_ENTRY_VOIDED] == 1);
}

/* ---- refusals, each once, by number */

static void refusals_of_memory(void)
{
    struct terminal t = terminal_of(10, 3);
    uint64_t totals[4] = {5, 5, 5, 5};
    uint8_t short_out[1];
    size_t count;

    HOLDS(whistlaurel_settle(t.image, sizeof t.image, t.journal, sizeof t.journal, t.message, WHISTLAUREL_MESSAGE_SIZE - 1, &t.length) ==
          WHISTLAUREL_BUFFER_TOO_SHORT);
    HOLDS(whistlaurel_settle(t.image, sizeof t.image, t.journal, 10 * WHISTLAUREL_ENTRY_SIZE - 1, t.message, sizeof t.message, &t.length) ==
          WHISTLAUREL_BUFFER_TOO_SHORT);
    HOLDS(whistlaurel_fresh(t.image, WHISTLAUREL_IMAGE_SIZE - 1, 10, 3, 1, field_41, field_42) == WHISTLAUREL_OUT_OF_FORM);
    HOLDS(whistlaurel_totals(t.image, WHISTLAUREL_IMAGE_SIZE - 1, totals) == WHISTLAUREL_OUT_OF_FORM && totals[3] == 5);
    HOLDS(whistlaurel_settle(LENT(&t)) == WHISTLAUREL_SENDS);
    HOLDS(whistlaurel_field(t.message, t.length, 42, short_out, sizeof short_out, &count) == WHISTLAUREL_BUFFER_TOO_SHORT);
    HOLDS(whistlaurel_field(t.message, t.length, 64, short_out, sizeof short_out, &count) == WHISTLAUREL_ABSENT);
}

/* A message of one field is refused by its number, and so are the same bytes as an answer. */
static void refused_message(struct terminal *t, unsigned field, const char *bytes, size_t size, uint8_t refusal)
{
    struct answer a = {.bytes = {0x02, 0x10}, .size = 10};

    put(&a, field, bytes, size);
    HOLDS(whistlaurel_read(a.bytes, a.size) == refusal);
    HOLDS(whistlaurel_answer(LENT(t), a.bytes, a.size, true) == refusal);
}

static void refusals_of_messages(void)
{
    struct terminal t = terminal_of(10, 3);
    const uint8_t no_type[10] = {0x09, 0x99};

    HOLDS(start(&t, WHISTLAUREL_SALE, 100, 0) == WHISTLAUREL_SENDS);
    refused_message(&t, 3, "\x00\x00", 2, WHISTLAUREL_MESSAGE_ENDS);
    HOLDS(whistlaurel_read(no_type, sizeof no_type) == WHISTLAUREL_TYPE_NOT_LISTED);
    refused_message(&t, 5, "", 0, WHISTLAUREL_FIELD_NOT_LISTED);
    refused_message(&t, 3, "\x0A\x00\x00", 3, WHISTLAUREL_NOT_A_DIGIT);
    refused_message(&t, 2, "\x12", 1, WHISTLAUREL_LENGTH_NOT_ALLOWED);
    refused_message(&t, 39, "0\x1F", 2, WHISTLAUREL_NOT_PRINTABLE);
    refused_message(&t, 39, "000", 3, WHISTLAUREL_BYTES_FOLLOW);
    refused_message(&t, 54, "\x00\x19", 2, WHISTLAUREL_LENGTH_NOT_ALLOWED);
    refused_message(&t, 55, "\x00\x00", 2, WHISTLAUREL_LENGTH_NOT_ALLOWED);
    refused_message(&t, 55, "\x00\x02\x95\x01", 4, WHISTLAUREL_CHIP_OUT_OF_FORM);
    refused_message(&t, 60, "\x00\x12", 2, WHISTLAUREL_LENGTH_NOT_ALLOWED);
    refused_message(&t, 62, "\x00\x00", 2, WHISTLAUREL_KEYS_OUT_OF_FORM);
    refused_message(&t, 62, "\x00\x24", 2, WHISTLAUREL_MESSAGE_ENDS);
}

static void refusals_of_phase(void)
{
    struct terminal t = terminal_of(10, 3);
    struct answer late;
    struct answer reversed;

    HOLDS(whistlaurel_no_answer(LENT(&t)) == WHISTLAUREL_NOTHING_TO_DO);
    HOLDS(start(&t, WHISTLAUREL_SALE, 100, 0) == WHISTLAUREL_SENDS);
    late = answer_to(&t, "00", 0);
    HOLDS(start(&t, WHISTLAUREL_SALE, 100, 0) == WHISTLAUREL_AWAITED);
    HOLDS(whistlaurel_no_answer(LENT(&t)) == WHISTLAUREL_QUIET);
    HOLDS(start(&t, WHISTLAUREL_SALE, 100, 0) == WHISTLAUREL_REVERSAL_PENDING);
    HOLDS(whistlaurel_send_reversal(LENT(&t)) == WHISTLAUREL_SENDS);
    reversed = answer_to(&t, "00", 0);
    HOLDS(whistlaurel_answer(LENT(&t), late.bytes, late.size, true) == WHISTLAUREL_ANSWER_NOT_MATCHING);
    HOLDS(whistlaurel_answer(LENT(&t), reversed.bytes, reversed.size, true) == WHISTLAUREL_QUIET);
    HOLDS(whistlaurel_settle(LENT(&t)) == WHISTLAUREL_SENDS);
    HOLDS(whistlaurel_power_returned(LENT(&t)) == WHISTLAUREL_QUIET);
    HOLDS(start(&t, WHISTLAUREL_SALE, 100, 0) == WHISTLAUREL_SIGNED_OFF);
    sign_on(&t, FIRST_BATCH);
    HOLDS(start(&t, WHISTLAUREL_SALE, 100, 0) == WHISTLAUREL_BATCH_CLOSING);
}

static void refusals_of_requests(void)
{
    struct terminal t = terminal_of(3, 3);
    uint8_t image[WHISTLAUREL_IMAGE_SIZE];

    memcpy(image, t.image, sizeof image);
    HOLDS(start(&t, WHISTLAUREL_SALE, 0, 0) == WHISTLAUREL_AMOUNT);
    HOLDS(start(&t, WHISTLAUREL_SALE, AMOUNT_MOST + 1, 0) == WHISTLAUREL_AMOUNT);
    HOLDS(start(&t, (enum whistlaurel_kind)24, 100, 0) == WHISTLAUREL_DESK_OUT_OF_FORM);
    HOLDS(start(&t, WHISTLAUREL_REFUND, 100001, 0) == WHISTLAUREL_REFUND_TOO_LARGE);
    HOLDS(start(&t, WHISTLAUREL_SALE_VOID, 0, 1) == WHISTLAUREL_NO_ORIGINAL);
    HOLDS(memcmp(image, t.image, sizeof image) == 0 && t.length == 0);
    approve(&t, WHISTLAUREL_SALE, AMOUNT_MOST, 0);
    approve(&t, WHISTLAUREL_SALE_VOID, 0, 2);
    HOLDS(start(&t, WHISTLAUREL_SALE_VOID, 0, 2) == WHISTLAUREL_VOIDED_ALREADY);
    approve(&t, WHISTLAUREL_REFUND, 100000, 0);
    HOLDS(start(&t, WHISTLAUREL_SALE, 100, 0) == WHISTLAUREL_JOURNAL_FULL);
}

static void refusals_of_chips(void)
{
    struct terminal t = terminal_of(10, 3);
    uint8_t chip[WHISTLAUREL_MOST_CHIP_BYTES + 1] = {0x9F, 0x10, 0x81, WHISTLAUREL_MOST_CHIP_BYTES - 4};
    uint8_t image[WHISTLAUREL_IMAGE_SIZE];
    struct answer late;

    memcpy(image, t.image, sizeof image);
    HOLDS(start_chip(&t, WHISTLAUREL_SALE, field_55, 0) == WHISTLAUREL_CHIP_OUT_OF_FORM);
    HOLDS(start_chip(&t, WHISTLAUREL_SALE, field_55, sizeof field_55 - 1) == WHISTLAUREL_CHIP_OUT_OF_FORM);
    chip[3]++;
    HOLDS(start_chip(&t, WHISTLAUREL_SALE, chip, sizeof chip) == WHISTLAUREL_CHIP_OUT_OF_FORM);
    HOLDS(memcmp(image, t.image, sizeof image) == 0 && t.length == 0);
    HOLDS(start_chip(&t, WHISTLAUREL_REFUND, field_55, 0) == WHISTLAUREL_SENDS);
    HOLDS(number(&t, WHISTLAUREL_CHIP_LENGTH) == 0);
    HOLDS(whistlaurel_no_answer(LENT(&t)) == WHISTLAUREL_QUIET);
    chip[3]--;
    HOLDS(start_chip(&t, WHISTLAUREL_SALE, chip, WHISTLAUREL_MOST_CHIP_BYTES) == WHISTLAUREL_SENDS);
    late = answer_to(&t, "00", 0);
    HOLDS(whistlaurel_card_agrees(LENT(&t)) == WHISTLAUREL_NOTHING_TO_DO);
    HOLDS(whistlaurel_answer(LENT(&t), late.bytes, late.size, true) == WHISTLAUREL_QUIET);
    HOLDS(whistlaurel_answer(LENT(&t), late.bytes, late.size, true) == WHISTLAUREL_NOTHING_TO_DO);
    HOLDS(start(&t, WHISTLAUREL_SALE, 100, 0) == WHISTLAUREL_AWAITED);
    HOLDS(whistlaurel_card_agrees(LENT(&t)) == WHISTLAUREL_QUIET);
    HOLDS(whistlaurel_card_declines(LENT(&t)) == WHISTLAUREL_NOTHING_TO_DO);
}

/* A sign-on is refused while something is awaited, its own answer too; an answer to it that is refused leaves it awaited. */
static void refusals_of_sign_ons(void)
{
    struct terminal t = terminal_of(10, 3);
    uint8_t image[WHISTLAUREL_IMAGE_SIZE];
    struct answer declined;
    struct answer unfit[4];

    HOLDS(start(&t, WHISTLAUREL_SALE, 100, 0) == WHISTLAUREL_SENDS);
    declined = answer_to(&t, "51", 0);
    HOLDS(whistlaurel_sign_on(LENT(&t)) == WHISTLAUREL_AWAITED);
    HOLDS(whistlaurel_answer(LENT(&t), declined.bytes, declined.size, true) == WHISTLAUREL_QUIET);
    HOLDS(whistlaurel_sign_on(LENT(&t)) == WHISTLAUREL_SENDS);
    memcpy(image, t.image, sizeof image);
    unfit[0] = sign_on_answer(&t, "00", 0, 24);
    unfit[1] = sign_on_answer(&t, "00", FIRST_BATCH, 0);
    unfit[2] = sign_on_answer(&t, "00", FIRST_BATCH, 23);
    unfit[3] = sign_on_answer(&t, "96", FIRST_BATCH, WHISTLAUREL_MOST_KEY_BYTES + 1);
    for (int i = 0; i < 4; i++) {
        HOLDS(whistlaurel_answer(LENT(&t), unfit[i].bytes, unfit[i].size, true) ==
              (i < 2 ? WHISTLAUREL_ANSWER_NOT_MATCHING : WHISTLAUREL_KEYS_OUT_OF_FORM));
    }
    HOLDS(whistlaurel_sign_on(LENT(&t)) == WHISTLAUREL_AWAITED);
    HOLDS(start(&t, WHISTLAUREL_SALE, 100, 0) == WHISTLAUREL_AWAITED);
    HOLDS(whistlaurel_settle(LENT(&t)) == WHISTLAUREL_AWAITED);
    HOLDS(memcmp(image, t.image, sizeof image) == 0 && number(&t, WHISTLAUREL_SIGN_ON_AWAITED) == 3);
}

static void refusal_of_totals(void)
{
    struct terminal t = terminal_of(WHISTLAUREL_MOST_ENTRIES, 3);

    for (int sale = 0; sale < 100; sale++) {
        approve(&t, WHISTLAUREL_SALE, AMOUNT_MOST, 0);
    }
    HOLDS(start(&t, WHISTLAUREL_SALE, 100, 0) == WHISTLAUREL_TOTAL_TOO_LARGE);
    HOLDS(start(&t, WHISTLAUREL_SALE, 99, 0) == WHISTLAUREL_SENDS);
}

/* Of terminals with one entry each, which differ in its amount or side, no image fits another's journal. */
static void refusals_of_sums(void)
{
    static const struct {
        enum whistlaurel_kind kind;
        uint64_t amount;
    } requests[4] = {{WHISTLAUREL_SALE, 100}, {WHISTLAUREL_SALE, 101}, {WHISTLAUREL_REFUND, 100}, {WHISTLAUREL_REFUND, 101}};
    struct terminal ts[4];

    for (size_t i = 0; i < 4; i++) {
        ts[i] = terminal_of(1, 3);
        approve(&ts[i], requests[i].kind, requests[i].amount, 0);
    }
    for (size_t image = 0; image < 4; image++) {
        for (size_t journal = 0; journal < 4; journal++) {
            struct terminal t = ts[image];

            memcpy(t.journal, ts[journal].journal, sizeof t.journal);
            HOLDS(take_sums(&t, (uint64_t[10]){0}) == (image == journal ? WHISTLAUREL_QUIET : WHISTLAUREL_OUT_OF_FORM));
            HOLDS(whistlaurel_settle(LENT(&t)) == (image == journal ? WHISTLAUREL_SENDS : WHISTLAUREL_OUT_OF_FORM));
        }
    }
}

/* No image comes before a short journal, and that before one that does not fit. No refusal sets a sum; a journal of the limit is enough. */
static void refusals_of_reports(void)
{
    static const uint8_t zeros[10 * WHISTLAUREL_ENTRY_SIZE];
    struct terminal t = terminal_of(10, 3);
    uint64_t sums[10] = {1, 2, 3, 4, 5, 6, 7, 8, 9, 10};

    approve(&t, WHISTLAUREL_SALE, 100, 0);
    HOLDS(whistlaurel_sums(zeros, WHISTLAUREL_IMAGE_SIZE, t.journal, sizeof t.journal, sums) == WHISTLAUREL_OUT_OF_FORM);
    HOLDS(whistlaurel_sums(t.image, WHISTLAUREL_IMAGE_SIZE - 1, t.journal, sizeof t.journal, sums) == WHISTLAUREL_OUT_OF_FORM);
    HOLDS(whistlaurel_sums(t.image, WHISTLAUREL_IMAGE_SIZE - 1, t.journal, 0, sums) == WHISTLAUREL_OUT_OF_FORM);
    HOLDS(whistlaurel_sums(t.image, sizeof t.image, t.journal, sizeof zeros - 1, sums) == WHISTLAUREL_BUFFER_TOO_SHORT);
    HOLDS(whistlaurel_sums(t.image, sizeof t.image, zeros, sizeof zeros - 1, sums) == WHISTLAUREL_BUFFER_TOO_SHORT);
    HOLDS(whistlaurel_sums(t.image, sizeof t.image, zeros, sizeof zeros, sums) == WHISTLAUREL_OUT_OF_FORM);
    for (size_t i = 0; i < 10; i++) {
        HOLDS(sums[i] == i + 1);
    }
    HOLDS(whistlaurel_sums(t.image, sizeof t.image, t.journal, sizeof zeros, sums) == WHISTLAUREL_QUIET);
    HOLDS(sums[WHISTLAUREL_SALES] == 100 && sums[WHISTLAUREL_SALES + 1] == 1 && sums[WHISTLAUREL_COMPLETION_VOIDS + 1] == 0);
}
