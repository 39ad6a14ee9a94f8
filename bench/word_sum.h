/* Bytes added up as words of 64 bits, for comparison: the least that a reader of all of them can do. */
#include <stddef.h>
#include <stdint.h>

#include "compilers.h"

typedef uint64_t word_sum_in_c(const uint8_t *bytes, size_t len);
word_sum_in_c word_sum_by_gcc, word_sum_by_clang;
