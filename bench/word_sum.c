/* The sum of bytes as words of 64 bits, and of those after the last word one by one. */
#include "word_sum.h"

#include <string.h>

uint64_t COMPILED(word_sum)(const uint8_t *bytes, size_t len) {
    uint64_t sum = 0, word;
    size_t at = 0;
    for (; len - at >= sizeof word; at += sizeof word) {
        memcpy(&word, bytes + at, sizeof word);
        sum += word;
    }
    for (; at < len; at++)
        sum += bytes[at];
    return sum;
}
