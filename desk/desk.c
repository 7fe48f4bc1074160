#define _POSIX_C_SOURCE 200809L

#include "desk.h"

#include <inttypes.h>
#include <stdio.h>
#include <string.h>

#include "input.h"
#include "key_pad.h"
#include "trial.h"
#include "trouble.h"
#include "wipe.h"
#include "wording.h"

/* Sendings of an upload's end in a row, words of a command, a second in milliseconds, and fields of an answer. */
enum { ENDS_MOST = 5, WORDS_MOST = 8, SECOND = 1000, CODE_FIELD = 39, KEY_FIELD = 62 };

/* A card request: its kind, and a letter for each datum that is keyed after its word. */
struct card_command {
    uint8_t kind;
    const char *data;   /* a amount, c card, t trace, u authorisation, r reference, d date */
    bool takes_chip;    /* `chip` and field 55 may follow */
};

static const struct card_command card_commands[] = {
    {WHISTLAUREL_SALE, "ac", true},
    {WHISTLAUREL_SALE_VOID, "t", false},
    {WHISTLAUREL_REFUND, "acrd", false},
    {WHISTLAUREL_AUTHORISATION, "ac", true},
    {WHISTLAUREL_AUTHORISATION_VOID, "acud", false},
    {WHISTLAUREL_COMPLETION, "acud", false},
    {WHISTLAUREL_COMPLETION_VOID, "t", false},
};

/* A command without data. */
struct plain_command {
    const char *word;
    void (*run)(struct desk *desk);
};

static void card_agrees(struct desk *desk);
static void card_declines(struct desk *desk);
static void sign_on_by_hand(struct desk *desk);
static void settle(struct desk *desk);
static void tell_counts(struct desk *desk);
static void tell_totals(struct desk *desk);
static void tell_state(struct desk *desk);
static void tell_journal(struct desk *desk);
static void tell_doubtful(struct desk *desk);
static void tell_help(struct desk *desk);

static const struct plain_command plain_commands[] = {
    {"card-agrees", card_agrees}, {"card-declines", card_declines}, {"sign-on", sign_on_by_hand}, {"settle", settle},
    {"counts", tell_counts},      {"totals", tell_totals},          {"state", tell_state},        {"journal", tell_journal},
    {"doubtful", tell_doubtful},  {"help", tell_help},
};

enum { CARD_COMMANDS = sizeof card_commands / sizeof card_commands[0], PLAIN_COMMANDS = sizeof plain_commands / sizeof plain_commands[0] };

static uint64_t number(const struct desk *desk, enum whistlaurel_row row);
static uint8_t exchange(struct desk *desk, const struct call *call);
static uint8_t exchange_signed_on(struct desk *desk, const struct call *call);
static void await_answer(struct desk *desk, int64_t deadline);
static void note_answer(struct desk *desk, const uint8_t *bytes, size_t size);
static void hand_over_keys(const uint8_t *bytes, size_t size);
static bool receive(struct desk *desk, uint8_t *bytes, size_t *size, int64_t deadline);
static bool card_is_awaited(const struct desk *desk);
static bool is_signed_on(const struct desk *desk);
static bool is_approval(const struct desk *desk);
static void end_by_card(struct desk *desk, enum call_name name);
static void tell_end(struct desk *desk);
static bool next_line(struct desk *desk, struct input *input, char **line, size_t *length);
static int64_t next_second(int64_t now, int64_t deadline);
static void tell_waiting(const char *whom, int64_t deadline);
static bool sign_on(struct desk *desk);
static bool sign_on_and_go_on(struct desk *desk);
static void tell_sign_on(const struct desk *desk);
static void send_reversals(struct desk *desk);
static bool upload(struct desk *desk);
static void tell_settlement(const struct sending *sending);
static void tell_open_batch(const struct desk *desk);
static size_t split(char *line, char *words[WORDS_MOST]);
static void carry_out(struct desk *desk, char *words[WORDS_MOST], size_t count);
static void request(struct desk *desk, const struct card_command *command, char *words[WORDS_MOST], size_t count);
static const char *read_keyed(const struct card_command *command, char *words[WORDS_MOST], size_t count, struct keyed *keyed);
static const char *read_datum(char letter, const char *word, struct keyed *keyed);
static const char *read_card(const char *word, struct keyed *keyed);
static const char *read_date(const char *word, struct keyed *keyed);
static const char *read_text(const char *word, uint8_t *text, size_t size);
static const char *datum_word(char letter);
static void tell_refusal(uint8_t result);

void desk_begin(struct desk *desk)
{
    const struct call power_returned = {.name = POWER_RETURNED};

    if (terminal_make(&desk->terminal, &power_returned) != WHISTLAUREL_QUIET) {
        store_is_damaged(desk->terminal.store, "image and journal do not fit together");
    }
    trial_point("after-power");
    if (!sign_on(desk)) {
        tell_open_batch(desk);
    } else {
        send_reversals(desk);
        if (number(desk, WHISTLAUREL_PHASE) != WHISTLAUREL_RESTING) {
            settle(desk);
        }
    }
    printf("last request: ");
    if (desk->terminal.last.kind == 0) {
        printf("none\n");
    } else {
        tell_request(&desk->terminal.last);
    }
    if (number(desk, WHISTLAUREL_ENTRIES) > 0) {
        tell_totals(desk);
    }
    printf("ready, batch %06" PRIu64 "\n", number(desk, WHISTLAUREL_BATCH));
}

void desk_run(struct desk *desk, int file)
{
    struct input input = {.file = file};
    char *line;
    size_t length;

    while (!ferror(stdout) && next_line(desk, &input, &line, &length)) {
        char *words[WORDS_MOST];
        size_t count;

        if (strlen(line) != length) {
            printf("error: the line holds a zero byte\n");
            continue;
        }
        count = split(line, words);
        if (count == 1 && strcmp(words[0], "quit") == 0) {
            break;
        }
        if (count > 0 && words[0][0] != '#') {
            carry_out(desk, words, count);
        }
    }
    input_close(&input);
    if (!ferror(stdout) && card_is_awaited(desk)) {
        end_by_card(desk, NO_ANSWER);
    }
    if (ferror(stdout)) {
        end_with(STATUS_OUTPUT, "standard output cannot be written");
    }
}

static uint64_t number(const struct desk *desk, enum whistlaurel_row row)
{
    return terminal_number(&desk->terminal, row);
}

/*
 * Makes a call, sends its message and waits until that is decided by an answer or by silence. Gives the call's result back. The answer to a
 * sign-on that could not leave is not waited for; every other message has its time-out, so that a reversal's sendings do not go at once.
 */
static uint8_t exchange(struct desk *desk, const struct call *call)
{
    const struct call no_answer = {.name = NO_ANSWER};
    struct terminal *terminal = &desk->terminal;
    struct sending *sending = &desk->sending;
    int64_t deadline;
    uint8_t result;

    trial_point("before-call");
    result = terminal_make(terminal, call);
    if (result != WHISTLAUREL_SENDS) {
        return result;
    }
    *sending = (struct sending){.phase = number(desk, WHISTLAUREL_PHASE), .batch = number(desk, WHISTLAUREL_BATCH)};
    whistlaurel_totals(terminal->image, sizeof terminal->image, sending->totals);
    whistlaurel_sums(terminal->image, sizeof terminal->image, terminal->journal, sizeof terminal->journal, sending->sums);
    key_pad_write(terminal->message, terminal->length);
    deadline = line_clock() + desk->time_out;
    sending->has_left = line_send(&desk->line, terminal->message, terminal->length, deadline);
    trial_point("after-send");
    if (sending->has_left || call->name != SIGN_ON) {
        await_answer(desk, deadline);
    }
    if (!sending->is_answered) {
        line_break(&desk->line);
        terminal_make(terminal, &no_answer);
    }
    return result;
}

/* An exchange; where the terminal is signed off, it signs on and tries the call once more. */
static uint8_t exchange_signed_on(struct desk *desk, const struct call *call)
{
    uint8_t result = exchange(desk, call);

    if (result == WHISTLAUREL_SIGNED_OFF && sign_on_and_go_on(desk)) {
        result = exchange(desk, call);
    }
    return result;
}

/* Hands answers to the terminal until it takes one or the deadline has passed. An answer may hold keys: its bytes do not stay. */
static void await_answer(struct desk *desk, int64_t deadline)
{
    uint8_t bytes[LINE_MESSAGE_MOST];
    struct call answer = {.name = ANSWER, .bytes = bytes};
    bool signs_on = number(desk, WHISTLAUREL_SIGN_ON_AWAITED) != 0;

    while (!desk->sending.is_answered && receive(desk, bytes, &answer.size, deadline)) {
        trial_point("after-answer");
        answer.mac_is_good = key_pad_judges(bytes, answer.size);
        desk->sending.refusal = terminal_make(&desk->terminal, &answer);
        if (desk->sending.refusal == WHISTLAUREL_QUIET) {
            note_answer(desk, bytes, answer.size);
            if (signs_on && is_approval(desk)) {
                hand_over_keys(bytes, answer.size);
            }
        }
        wipe(bytes, answer.size);
    }
}

static void note_answer(struct desk *desk, const uint8_t *bytes, size_t size)
{
    uint8_t code[2];
    size_t count;

    desk->sending.is_answered = true;
    if (whistlaurel_field(bytes, size, CODE_FIELD, code, sizeof code, &count) == WHISTLAUREL_QUIET) {
        copy_centre_text(desk->sending.code, code, sizeof code);
    }
}

/* Hands the key material of a sign-on's answer to the key pad. No copy of it stays. */
static void hand_over_keys(const uint8_t *bytes, size_t size)
{
    uint8_t keys[WHISTLAUREL_MOST_KEY_BYTES];
    size_t count;

    if (whistlaurel_field(bytes, size, KEY_FIELD, keys, sizeof keys, &count) == WHISTLAUREL_QUIET) {
        key_pad_take_keys(keys, count);
        wipe(keys, sizeof keys);
    }
}

/* Receives until the deadline, and shows each second that it waits. */
static bool receive(struct desk *desk, uint8_t *bytes, size_t *size, int64_t deadline)
{
    int64_t now = line_clock();

    while (now < deadline) {
        if (line_receive(&desk->line, bytes, size, next_second(now, deadline))) {
            return true;
        }
        tell_waiting("the centre", deadline);
        now = line_clock();
    }
    return false;
}

/* The next moment at which whole seconds are left to a deadline. */
static int64_t next_second(int64_t now, int64_t deadline)
{
    return now + (deadline - now - 1) % SECOND + 1;
}

static void tell_waiting(const char *whom, int64_t deadline)
{
    int64_t left = deadline - line_clock();

    if (left > 0) {
        fprintf(stderr, "waiting for %s, at most %" PRId64 " s\n", whom, (left + SECOND - 1) / SECOND);
    }
}

static bool card_is_awaited(const struct desk *desk)
{
    return number(desk, WHISTLAUREL_CARD_AWAITED) == 1;
}

static bool is_signed_on(const struct desk *desk)
{
    return number(desk, WHISTLAUREL_IS_SIGNED_ON) == 1;
}

/* Whether the last message was answered with 00. */
static bool is_approval(const struct desk *desk)
{
    return strcmp(desk->sending.code, "00") == 0;
}

static void card_agrees(struct desk *desk)
{
    end_by_card(desk, CARD_AGREES);
}

static void card_declines(struct desk *desk)
{
    end_by_card(desk, CARD_DECLINES);
}

/* The card's word, or NO_ANSWER for its silence, ends a request, with its reversal where it needs one. */
static void end_by_card(struct desk *desk, enum call_name name)
{
    const struct call word = {.name = name};
    uint8_t result;

    trial_point("before-call");
    result = terminal_make(&desk->terminal, &word);
    if (result != WHISTLAUREL_QUIET) {
        tell_refusal(result);
        return;
    }
    send_reversals(desk);
    tell_end(desk);
    trial_point("after-told");
}

/* Tells how the last request ended and, where it was approved, the totals. */
static void tell_end(struct desk *desk)
{
    tell_request(&desk->terminal.last);
    if (desk->terminal.last.ending == APPROVED) {
        tell_totals(desk);
    }
}

/* Waits for a line; false at the end of input. A card is silent where its time is out before. */
static bool next_line(struct desk *desk, struct input *input, char **line, size_t *length)
{
    enum input_result result = INPUT_SILENT;

    while (result == INPUT_SILENT && card_is_awaited(desk)) {
        int64_t now = line_clock();

        if (now >= desk->card_deadline) {
            end_by_card(desk, NO_ANSWER);
        } else {
            result = input_line(input, line, length, next_second(now, desk->card_deadline));
            if (result == INPUT_SILENT) {
                tell_waiting("the card", desk->card_deadline);
            }
        }
    }
    if (result == INPUT_SILENT) {
        result = input_line(input, line, length, INPUT_ANY_TIME);
    }
    return result == INPUT_LINE;
}

static void sign_on_by_hand(struct desk *desk)
{
    sign_on_and_go_on(desk);
}

/* Signs on and, where a reversal was left pending, brings that to its end and tells it. Whether the terminal is signed on then. */
static bool sign_on_and_go_on(struct desk *desk)
{
    if (!sign_on(desk)) {
        return false;
    }
    if (number(desk, WHISTLAUREL_PHASE) == WHISTLAUREL_PENDING) {
        send_reversals(desk);
        tell_end(desk);
    }
    return true;
}

/* Signs on, and tells how that ended. Whether the terminal is signed on then. */
static bool sign_on(struct desk *desk)
{
    const struct call sign_on_call = {.name = SIGN_ON};
    uint8_t result;

    fprintf(stderr, "signing on\n");
    result = exchange(desk, &sign_on_call);
    if (result == WHISTLAUREL_SENDS) {
        tell_sign_on(desk);
    } else {
        tell_refusal(result);
    }
    return result == WHISTLAUREL_SENDS && is_signed_on(desk);
}

static void tell_sign_on(const struct desk *desk)
{
    const struct sending *sending = &desk->sending;

    if (is_approval(desk)) {
        printf("signed on, batch %06" PRIu64 "\n", number(desk, WHISTLAUREL_BATCH));
        return;
    }
    printf("%s: ", is_signed_on(desk) ? "still signed on" : "not signed on");
    if (sending->is_answered) {
        printf("the centre has declined (%s)", sending->code);
    } else if (sending->refusal != WHISTLAUREL_QUIET) {
        printf("the centre's answer was refused (%u): %s", (unsigned)sending->refusal, refusal_words(sending->refusal));
    } else {
        printf("the centre %s", sending->has_left ? "has not answered" : "cannot be reached");
    }
    printf("%s\n", is_signed_on(desk) ? "" : "; the next request tries again");
}

static void send_reversals(struct desk *desk)
{
    const struct call send_reversal = {.name = SEND_REVERSAL};

    while (number(desk, WHISTLAUREL_PHASE) == WHISTLAUREL_PENDING) {
        uint8_t result;

        fprintf(stderr, "reversal, sending %" PRIu64 " of %" PRIu64 "\n", number(desk, WHISTLAUREL_REVERSAL_SENDINGS) + 1,
                number(desk, WHISTLAUREL_SENDINGS));
        result = exchange(desk, &send_reversal);
        if (result != WHISTLAUREL_SENDS) {
            tell_refusal(result);
            return;
        }
    }
}

/* Settles, or goes on with the upload, as far as the line allows. A closed batch is signed off: the next call that needs it signs on. */
static void settle(struct desk *desk)
{
    const struct call settle_call = {.name = SETTLE};
    const struct sending *sending = &desk->sending;

    if (number(desk, WHISTLAUREL_PHASE) != WHISTLAUREL_UPLOADING) {
        uint8_t result = exchange_signed_on(desk, &settle_call);

        if (result != WHISTLAUREL_SENDS) {
            tell_refusal(result);
            return;
        }
    }
    if (!upload(desk)) {
        return;
    }
    if (number(desk, WHISTLAUREL_PHASE) == WHISTLAUREL_RESTING) {
        tell_settlement(sending);
    }
    tell_open_batch(desk);
    trial_point("after-told");
}

/* The settlement report: the five sums in the order of Q/CUP 009.1, 4.3.2, then debit, which is the first two, and credit, the others. */
static void tell_settlement(const struct sending *sending)
{
    static const struct {
        enum whistlaurel_sum place;
        const char *words;
    } sums[] = {
        {WHISTLAUREL_SALES, "sales"},           {WHISTLAUREL_COMPLETIONS, "completions"},
        {WHISTLAUREL_REFUNDS, "refunds"},       {WHISTLAUREL_SALE_VOIDS, "sale voids"},
        {WHISTLAUREL_COMPLETION_VOIDS, "completion voids"},
    };

    for (size_t i = 0; i < sizeof sums / sizeof sums[0]; i++) {
        const uint64_t *sum = sending->sums + sums[i].place;

        printf("batch %06" PRIu64 ": %s ", sending->batch, sums[i].words);
        tell_amount(sum[0]);
        printf(" in %" PRIu64 "\n", sum[1]);
    }
    printf("settled batch %06" PRIu64 ": debit ", sending->batch);
    tell_amount(sending->totals[0]);
    printf(" in %" PRIu64 ", credit ", sending->totals[1]);
    tell_amount(sending->totals[2]);
    printf(" in %" PRIu64 "\n", sending->totals[3]);
}

/* Tells that a batch is not closed yet, where its settlement has left. */
static void tell_open_batch(const struct desk *desk)
{
    uint64_t phase = number(desk, WHISTLAUREL_PHASE);

    if (phase == WHISTLAUREL_SETTLING || phase == WHISTLAUREL_UPLOADING) {
        printf("%s not answered; settle again\n", phase == WHISTLAUREL_SETTLING ? "settlement" : "upload");
    }
}

/* Sends entries and end of an upload until the batch is closed or the end has left ENDS_MOST times in a row. False where one is refused. */
static bool upload(struct desk *desk)
{
    const struct call send_next_upload = {.name = SEND_NEXT_UPLOAD};
    unsigned ends = 0;

    while (number(desk, WHISTLAUREL_PHASE) == WHISTLAUREL_UPLOADING && ends < ENDS_MOST) {
        uint8_t result;

        fprintf(stderr, "uploading the batch\n");
        result = exchange_signed_on(desk, &send_next_upload);
        if (result != WHISTLAUREL_SENDS) {
            tell_refusal(result);
            return false;
        }
        ends += desk->sending.phase == WHISTLAUREL_END_AWAITED;
    }
    return true;
}

/* Splits a line into words parted by spaces. Words past the most count, and are left out. */
static size_t split(char *line, char *words[WORDS_MOST])
{
    char *rest = line;
    char *word;
    size_t count = 0;

    while ((word = strtok_r(rest, " \t\r\n", &rest)) != NULL) {
        if (count < WORDS_MOST) {
            words[count] = word;
        }
        count++;
    }
    return count;
}

static void carry_out(struct desk *desk, char *words[WORDS_MOST], size_t count)
{
    for (size_t i = 0; i < CARD_COMMANDS; i++) {
        if (strcmp(words[0], kind_word(card_commands[i].kind)) == 0) {
            request(desk, &card_commands[i], words, count);
            return;
        }
    }
    for (size_t i = 0; i < PLAIN_COMMANDS; i++) {
        if (count == 1 && strcmp(words[0], plain_commands[i].word) == 0) {
            plain_commands[i].run(desk);
            return;
        }
    }
    printf("error: no such command; help lists them\n");
}

/* A card request, with its reversal where it needs one; with a chip that the centre approves, up to the wait for the card. */
static void request(struct desk *desk, const struct card_command *command, char *words[WORDS_MOST], size_t count)
{
    struct call start = {.name = START};
    const char *error = read_keyed(command, words, count, &start.keyed);
    uint8_t result;

    if (error != NULL) {
        printf("error: %s\n", error);
        return;
    }
    result = exchange_signed_on(desk, &start);
    if (result != WHISTLAUREL_SENDS) {
        tell_refusal(result);
        return;
    }
    if (card_is_awaited(desk)) {
        desk->card_deadline = line_clock() + desk->card_time_out;
        tell_card_awaited(&desk->terminal.last, number(desk, WHISTLAUREL_APPROVED_AMOUNT));
    } else {
        send_reversals(desk);
        tell_end(desk);
    }
    trial_point("after-told");
}

/* Reads what is keyed after a command's word; gives back what is wrong, or NULL. */
static const char *read_keyed(const struct card_command *command, char *words[WORDS_MOST], size_t count, struct keyed *keyed)
{
    size_t data = strlen(command->data);
    const char *error = NULL;

    keyed->kind = command->kind;
    keyed->has_chip = command->takes_chip && count == 3 + data && strcmp(words[1 + data], "chip") == 0;
    if (count != 1 + data && !keyed->has_chip) {
        return "wrong number of words; help lists them";
    }
    for (size_t i = 0; error == NULL && i < data; i++) {
        error = read_datum(command->data[i], words[1 + i], keyed);
    }
    if (error == NULL && keyed->has_chip && !read_bytes(words[2 + data], keyed->chip, sizeof keyed->chip, &keyed->chip_size)) {
        error = "the chip's data are hexadecimal, at most 300 bytes";
    }
    return error;
}

static const char *read_datum(char letter, const char *word, struct keyed *keyed)
{
    uint64_t trace = 0;

    switch (letter) {
    case 'a':
        return read_number(word, &keyed->amount) ? NULL : "the amount is a number of fen";
    case 'c':
        return read_card(word, keyed);
    case 't':
        if (!read_number(word, &trace) || trace > UINT32_MAX) {
            return "the trace is a number of six digits";
        }
        keyed->original = (uint32_t)trace;
        return NULL;
    case 'u':
        return read_text(word, keyed->authorisation, sizeof keyed->authorisation);
    case 'r':
        return read_text(word, keyed->reference, sizeof keyed->reference);
    default:
        return read_date(word, keyed);
    }
}

static const char *read_card(const char *word, struct keyed *keyed)
{
    keyed->card_length = (uint8_t)strlen(word);
    return read_number(word, &keyed->card_number) ? NULL : "the card is its number, 13 to 19 digits";
}

static const char *read_date(const char *word, struct keyed *keyed)
{
    uint64_t date;

    if (strlen(word) != 4 || !read_number(word, &date)) {
        return "the date is month and day, four digits";
    }
    keyed->month = (uint8_t)(date / 100);
    keyed->day = (uint8_t)(date % 100);
    return NULL;
}

/* An underscore stands for a space. */
static const char *read_text(const char *word, uint8_t *text, size_t size)
{
    if (strlen(word) != size) {
        return "an authorisation has 6 characters, a reference 12";
    }
    for (size_t i = 0; i < size; i++) {
        text[i] = word[i] == '_' ? ' ' : (uint8_t)word[i];
    }
    return NULL;
}

static void tell_counts(struct desk *desk)
{
    printf("counts sent %" PRIu64 " approved %" PRIu64 " declined %" PRIu64 " reversed %" PRIu64 " given-up %" PRIu64
           " unanswered %" PRIu64 "\n",
           number(desk, WHISTLAUREL_SENT), number(desk, WHISTLAUREL_APPROVED), number(desk, WHISTLAUREL_DECLINED),
           number(desk, WHISTLAUREL_REVERSED), number(desk, WHISTLAUREL_GIVEN_UP), number(desk, WHISTLAUREL_UNANSWERED));
}

static void tell_totals(struct desk *desk)
{
    uint64_t totals[4];

    whistlaurel_totals(desk->terminal.image, sizeof desk->terminal.image, totals);
    printf("totals debit ");
    tell_amount(totals[0]);
    printf(" in %" PRIu64 " credit ", totals[1]);
    tell_amount(totals[2]);
    printf(" in %" PRIu64 "\n", totals[3]);
}

static void tell_state(struct desk *desk)
{
    printf("state batch %06" PRIu64 " next-trace %06" PRIu64 " %s entries %" PRIu64 " %s\n", number(desk, WHISTLAUREL_BATCH),
           number(desk, WHISTLAUREL_NEXT_TRACE), is_signed_on(desk) ? "signed-on" : "signed-off",
           number(desk, WHISTLAUREL_ENTRIES), phase_word(number(desk, WHISTLAUREL_PHASE), card_is_awaited(desk)));
}

static void tell_journal(struct desk *desk)
{
    uint64_t entries = number(desk, WHISTLAUREL_ENTRIES);

    for (uint64_t place = 0; place < entries; place++) {
        tell_entry(desk->terminal.journal + place * WHISTLAUREL_ENTRY_SIZE);
    }
    printf("journal %" PRIu64 " entries\n", entries);
}

static void tell_doubtful(struct desk *desk)
{
    printf("doubtful: %" PRIu64 "\n", store_doubtful(desk->terminal.store));
    store_each_doubtful(desk->terminal.store, tell_request);
}

static void tell_help(struct desk *desk)
{
    (void)desk;
    for (size_t i = 0; i < CARD_COMMANDS; i++) {
        printf("%s", kind_word(card_commands[i].kind));
        for (const char *letter = card_commands[i].data; *letter != '\0'; letter++) {
            printf(" %s", datum_word(*letter));
        }
        printf("%s\n", card_commands[i].takes_chip ? " [chip HEX]" : "");
    }
    for (size_t i = 0; i < PLAIN_COMMANDS; i++) {
        printf("%s\n", plain_commands[i].word);
    }
    printf("quit\n");
    printf("# amounts are in fen; in an authorisation or a reference _ stands for a space; HEX is the chip's field 55\n");
}

static const char *datum_word(char letter)
{
    switch (letter) {
    case 'a':
        return "AMOUNT";
    case 'c':
        return "CARD";
    case 't':
        return "TRACE";
    case 'u':
        return "AUTHORISATION";
    case 'r':
        return "REFERENCE";
    default:
        return "MMDD";
    }
}

static void tell_refusal(uint8_t result)
{
    printf("refused (%u): %s\n", (unsigned)result, refusal_words(result));
}
