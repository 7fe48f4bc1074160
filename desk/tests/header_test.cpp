// The header as C++17: it compiles, and its functions link.
#include "whistlaurel.h"

#include <array>
#include <cstdio>
#include <vector>

int main()
{
    static const std::array<uint8_t, 8> terminal{'L', 'I', 'B', '0', '0', '0', '0', '1'};
    static const std::array<uint8_t, 15> merchant{'W', 'H', 'I', 'S', 'T', 'L', 'A', 'U', 'R', 'E', 'L', '0', '0', '0', '1'};
    std::array<uint8_t, WHISTLAUREL_IMAGE_SIZE> image{};
    std::array<uint8_t, WHISTLAUREL_MESSAGE_SIZE> message{};
    std::vector<uint8_t> journal(WHISTLAUREL_ENTRY_SIZE * WHISTLAUREL_MOST_ENTRIES);
    std::array<uint64_t, 10> sums{};
    size_t length = 0;
    uint64_t phase = WHISTLAUREL_PENDING;
    uint64_t trace = 0;

    bool good = whistlaurel_fresh(image.data(), image.size(), WHISTLAUREL_MOST_ENTRIES, WHISTLAUREL_MOST_SENDINGS,
                                  WHISTLAUREL_LARGEST_REFUND, terminal.data(), merchant.data()) == WHISTLAUREL_QUIET;
    good = good && whistlaurel_card_agrees(image.data(), image.size(), journal.data(), journal.size(), message.data(), message.size(),
                                           &length) == WHISTLAUREL_NOTHING_TO_DO;
    good = good && whistlaurel_settle(image.data(), image.size(), journal.data(), journal.size(), message.data(), message.size(),
                                      &length) == WHISTLAUREL_SIGNED_OFF;
    good = good && whistlaurel_sign_on(image.data(), image.size(), journal.data(), journal.size(), message.data(), message.size(),
                                       &length) == WHISTLAUREL_SENDS;
    good = good && whistlaurel_read(message.data(), length) == WHISTLAUREL_QUIET;
    good = good && whistlaurel_number(image.data(), image.size(), WHISTLAUREL_PHASE, &phase) == WHISTLAUREL_QUIET;
    good = good && phase == WHISTLAUREL_RESTING;
    good = good && whistlaurel_number(image.data(), image.size(), WHISTLAUREL_SIGN_ON_AWAITED, &trace) == WHISTLAUREL_QUIET;
    good = good && trace == 1;
    sums[WHISTLAUREL_COMPLETION_VOIDS] = 1;
    good = good && whistlaurel_sums(image.data(), image.size(), journal.data(), journal.size(), sums.data()) == WHISTLAUREL_QUIET;
    good = good && sums == std::array<uint64_t, 10>{};
    std::printf("header_test_cpp: %s\n", good ? "compiles and links" : "failed");
    return good ? 0 : 1;
}
