/* Links the library with nothing but memcpy and memset, signs on and makes a sale with a chip leave. Ends with status 0 where it does. */
#include "whistlaurel.h"

void *memcpy(void *restrict to, const void *restrict from, size_t size);
void *memset(void *to, int byte, size_t size);
_Noreturn void _start(void);

void *memcpy(void *restrict to, const void *restrict from, size_t size)
{
    volatile uint8_t *out = to;
    const uint8_t *in = from;

    for (size_t i = 0; i < size; i++) {
        out[i] = in[i];
    }
    return to;
}

void *memset(void *to, int byte, size_t size)
{
    volatile uint8_t *out = to;

    for (size_t i = 0; i < size; i++) {
        out[i] = (uint8_t)byte;
    }
    return to;
}

/* Ends the process by Linux's own call. */
static _Noreturn void end(long status)
{
    for (;;) {
        __asm__ volatile("syscall" : : "a"(60L), "D"(status) : "rcx", "r11", "memory");
    }
}

/* The answer to a sign-on: 11, 39, 41, 42 and 60 as it left, with its batch number, and 24 bytes of keys. */
static size_t answer_sign_on(const uint8_t *message, uint8_t *answer)
{
    static const uint8_t front[10] = {0x08, 0x10, 0x00, 0x20, 0x00, 0x00, 0x02, 0xC0, 0x00, 0x14}, keys[2 + 24] = {0x00, 0x24};

    memcpy(answer, front, 10);
    memcpy(answer + 10, message + 10, 3);
    memcpy(answer + 13, "00", 2);
    memcpy(answer + 15, message + 13, 8 + 15 + 2 + 6);
    memcpy(answer + 46, keys, sizeof keys);
    return 46 + sizeof keys;
}

__attribute__((force_align_arg_pointer)) _Noreturn void _start(void)
{
    static const uint8_t terminal[8] = "LIB00001", merchant[15] = "WHISTLAUREL0001", none[12], chip[2] = {0x95, 0x00};
    static uint8_t image[WHISTLAUREL_IMAGE_SIZE], journal[WHISTLAUREL_ENTRY_SIZE], message[WHISTLAUREL_MESSAGE_SIZE], answer[72];
    size_t length = 0;
    uint8_t result;

    whistlaurel_fresh(image, sizeof image, 1, 3, 100000, terminal, merchant);
    whistlaurel_sign_on(image, sizeof image, journal, sizeof journal, message, sizeof message, &length);
    whistlaurel_answer(image, sizeof image, journal, sizeof journal, message, sizeof message, &length, answer,
                       answer_sign_on(message, answer), false);
    result = whistlaurel_start(image, sizeof image, journal, sizeof journal, message, sizeof message, &length, WHISTLAUREL_SALE, 12000,
                               6222021234567894, 16, 0, 0, 0, none, none, true, chip, sizeof chip);
    end(result == WHISTLAUREL_SENDS && length == 81 ? 0 : 1);
}
