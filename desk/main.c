/* The desk program: options, the store, and the desk over them. */
#define _POSIX_C_SOURCE 200809L

#include <inttypes.h>
#include <math.h>
#include <signal.h>
#include <stdio.h>
#include <stdlib.h>
#include <string.h>
#include <unistd.h>

#include "desk.h"
#include "trouble.h"
#include "wording.h"

enum option { STORE, CENTRE, LIMIT, SENDINGS, REFUND, TERMINAL, MERCHANT, TIME_OUT, CARD_TIME_OUT, OPTIONS };

static const char *const option_names[OPTIONS] = {
    "--store", "--centre", "--limit", "--sendings", "--refund", "--terminal", "--merchant", "--timeout", "--card-timeout",
};

static const char usage[] =
    "usage: desk --store FILE --centre HOST:PORT [--limit N] [--sendings N] [--refund FEN] [--terminal TEXT8] "
    "[--merchant TEXT15] [--timeout SECONDS] [--card-timeout SECONDS]";

enum { TERMINAL_SIZE = 8, MERCHANT_SIZE = 15, TIME_OUT_MOST = 3600 };

/* The settings of a store that is made now, and the time-outs. */
static const char *const defaults[OPTIONS] = {
    [LIMIT] = "300",
    [SENDINGS] = "3",
    [REFUND] = "100000",
    [TERMINAL] = "LIB00001",
    [MERCHANT] = "WHISTLAUREL0001",
    [TIME_OUT] = "15",
    [CARD_TIME_OUT] = "60",
};

static void read_options(int count, char *arguments[], const char *options[OPTIONS]);
static uint64_t number_option(const char *const options[OPTIONS], enum option option, uint64_t most);
static const char *text_option(const char *const options[OPTIONS], enum option option, size_t size);
static int64_t time_option(const char *const options[OPTIONS], enum option option);
static void check_settings(const char *const options[OPTIONS]);
static void prepare_line(struct line *line, const char *centre);
static void fresh_image(const char *const options[OPTIONS], uint8_t image[WHISTLAUREL_IMAGE_SIZE]);
static void compare_settings(const char *const options[OPTIONS], const struct terminal *terminal);

int main(int count, char *arguments[])
{
    static struct store store;
    static struct desk desk;
    const char *options[OPTIONS] = {NULL};

    signal(SIGPIPE, SIG_IGN);
    signal(SIGXFSZ, SIG_IGN);
    setvbuf(stdout, NULL, _IOLBF, BUFSIZ);
    read_options(count, arguments, options);
    check_settings(options);
    desk.time_out = time_option(options, TIME_OUT);
    desk.card_time_out = time_option(options, CARD_TIME_OUT);
    prepare_line(&desk.line, options[CENTRE]);
    store_open(&store, options[STORE]);
    desk.terminal.store = &store;
    if (store_is_empty(&store)) {
        uint8_t image[WHISTLAUREL_IMAGE_SIZE];

        fresh_image(options, image);
        store_make(&store, image);
    }
    store_load(&store, desk.terminal.image, desk.terminal.journal, &desk.terminal.last);
    compare_settings(options, &desk.terminal);
    desk_begin(&desk);
    desk_run(&desk, STDIN_FILENO);
    store_close(&store);
    return EXIT_SUCCESS;
}

/* Options and their values, each option at most once. */
static void read_options(int count, char *arguments[], const char *options[OPTIONS])
{
    for (int i = 1; i < count; i += 2) {
        int option = 0;

        while (option < OPTIONS && strcmp(arguments[i], option_names[option]) != 0) {
            option++;
        }
        if (option == OPTIONS || i + 1 == count || options[option] != NULL) {
            end_with(STATUS_USAGE, "%s", usage);
        }
        options[option] = arguments[i + 1];
    }
    if (options[STORE] == NULL || options[CENTRE] == NULL) {
        end_with(STATUS_USAGE, "%s", usage);
    }
    if (options[STORE][0] == '\0' || options[STORE][0] == ':') {
        end_with(STATUS_USAGE, "--store is the name of a file");
    }
}

/* A number from 1 on; the default's where the option is absent. */
static uint64_t number_option(const char *const options[OPTIONS], enum option option, uint64_t most)
{
    const char *text = options[option] == NULL ? defaults[option] : options[option];
    uint64_t number;

    if (!read_number(text, &number) || number < 1 || number > most) {
        end_with(STATUS_USAGE, "%s is a number from 1 to %" PRIu64, option_names[option], most);
    }
    return number;
}

/* A text of printable characters; the default's where the option is absent. */
static const char *text_option(const char *const options[OPTIONS], enum option option, size_t size)
{
    const char *text = options[option] == NULL ? defaults[option] : options[option];
    size_t length = 0;

    while (text[length] >= ' ' && text[length] <= '~') {
        length++;
    }
    if (text[length] != '\0' || length != size) {
        end_with(STATUS_USAGE, "%s is a text of %zu printable characters", option_names[option], size);
    }
    return text;
}

/* Seconds with decimals as milliseconds. */
static int64_t time_option(const char *const options[OPTIONS], enum option option)
{
    const char *text = options[option] == NULL ? defaults[option] : options[option];
    char *end = NULL;
    double seconds = strtod(text, &end);

    if (end == text || *end != '\0' || !isfinite(seconds) || seconds < 0.001 || seconds > TIME_OUT_MOST) {
        end_with(STATUS_USAGE, "%s is a number of seconds from 0.001 to %d", option_names[option], TIME_OUT_MOST);
    }
    return (int64_t)(seconds * 1000);
}

static void check_settings(const char *const options[OPTIONS])
{
    number_option(options, LIMIT, WHISTLAUREL_MOST_ENTRIES);
    number_option(options, SENDINGS, WHISTLAUREL_MOST_SENDINGS);
    number_option(options, REFUND, WHISTLAUREL_LARGEST_REFUND);
    text_option(options, TERMINAL, TERMINAL_SIZE);
    text_option(options, MERCHANT, MERCHANT_SIZE);
}

static void prepare_line(struct line *line, const char *centre)
{
    const char *colon = strrchr(centre, ':');
    char host[256];
    uint64_t port;

    if (colon == NULL || colon == centre || (size_t)(colon - centre) >= sizeof host || !read_number(colon + 1, &port) || port < 1 ||
        port > UINT16_MAX) {
        end_with(STATUS_USAGE, "--centre is HOST:PORT");
    }
    memcpy(host, centre, (size_t)(colon - centre));
    host[colon - centre] = '\0';
    if (!line_prepare(line, host, colon + 1)) {
        end_with(STATUS_USAGE, "--centre: the address is not known");
    }
}

static void fresh_image(const char *const options[OPTIONS], uint8_t image[WHISTLAUREL_IMAGE_SIZE])
{
    whistlaurel_fresh(image, WHISTLAUREL_IMAGE_SIZE, (uint32_t)number_option(options, LIMIT, WHISTLAUREL_MOST_ENTRIES),
                      (uint8_t)number_option(options, SENDINGS, WHISTLAUREL_MOST_SENDINGS),
                      number_option(options, REFUND, WHISTLAUREL_LARGEST_REFUND),
                      (const uint8_t *)text_option(options, TERMINAL, TERMINAL_SIZE),
                      (const uint8_t *)text_option(options, MERCHANT, MERCHANT_SIZE));
}

/* Settings that are given have to be those of the store. */
static void compare_settings(const char *const options[OPTIONS], const struct terminal *terminal)
{
    static const enum whistlaurel_row rows[OPTIONS] = {
        [LIMIT] = WHISTLAUREL_ENTRY_LIMIT,   [SENDINGS] = WHISTLAUREL_SENDINGS,       [REFUND] = WHISTLAUREL_REFUND_LIMIT,
        [TERMINAL] = WHISTLAUREL_FIELD_41, [MERCHANT] = WHISTLAUREL_FIELD_42_FRONT,
    };
    uint8_t given[WHISTLAUREL_IMAGE_SIZE];

    fresh_image(options, given);
    for (int option = LIMIT; option <= MERCHANT; option++) {
        for (int row = (int)rows[option]; row <= (int)rows[option] + (option == MERCHANT); row++) {
            uint64_t wanted;

            whistlaurel_number(given, sizeof given, (size_t)row, &wanted);
            if (options[option] != NULL && wanted != terminal_number(terminal, (enum whistlaurel_row)row)) {
                end_with(STATUS_USAGE, "%s is not the setting with which the store was made", option_names[option]);
            }
        }
    }
}
