#include "key_pad.h"

#include <string.h>

#include "trial.h"
#include "whistlaurel.h"

enum { MAC_SIZE = 8, MAC_FIELD = 64, MAC_MASK = 0xA5 };

static bool has_mac(const uint8_t *message, size_t length);
static void make_mac(const uint8_t *message, size_t length, uint8_t mac[MAC_SIZE]);

void key_pad_write(uint8_t *message, size_t length)
{
    if (has_mac(message, length)) {
        make_mac(message, length - MAC_SIZE, message + length - MAC_SIZE);
    }
}

bool key_pad_judges(const uint8_t *message, size_t length)
{
    uint8_t mac[MAC_SIZE];

    if (!has_mac(message, length)) {
        return false;
    }
    make_mac(message, length - MAC_SIZE, mac);
    return memcmp(mac, message + length - MAC_SIZE, MAC_SIZE) == 0;
}

/* A real key pad puts them into its own memory. */
void key_pad_take_keys(const uint8_t *keys, size_t size)
{
    trial_keys(keys, size);
}

static bool has_mac(const uint8_t *message, size_t length)
{
    uint8_t field[MAC_SIZE];
    size_t count;

    return whistlaurel_field(message, length, MAC_FIELD, field, sizeof field, &count) == 0;
}

/* The bytes folded by exclusive or in blocks of eight, each byte changed by its mask, all rotated left by one byte. */
static void make_mac(const uint8_t *message, size_t length, uint8_t mac[MAC_SIZE])
{
    uint8_t folded[MAC_SIZE] = {0};

    for (size_t i = 0; i < length; i++) {
        folded[i % MAC_SIZE] ^= message[i];
    }
    for (size_t i = 0; i < MAC_SIZE; i++) {
        size_t from = (i + 1) % MAC_SIZE;

        mac[i] = (uint8_t)(folded[from] ^ (MAC_MASK + from));
    }
}
