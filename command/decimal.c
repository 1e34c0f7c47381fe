/* Words as decimals, and decimals as words. */
#include <string.h>
#include "decimal.h"
#include "typed.h"

enum { BINARY_PLACES = 24, MOST_WORD = 2147483647, ONE = 1 << BINARY_PLACES };

/* The whole part. One above every word stays above every word, and no more is said of it. */
static uint64_t whole_part(const typed *number) {
    uint64_t whole = 0;
    for (size_t i = 0; i < number->whole_count && whole <= MOST_WORD; i++) whole = 10 * whole + (uint64_t)(number->whole[i] - '0');
    return whole;
}

/* The nearest whole number of steps, without the sign; so a tie goes up. */
static uint64_t steps(typed *number, int *exact) {
    uint64_t halves = multiples(whole_part(number), number->places, BINARY_PLACES + 1);
    *exact = halves % 2 == 0 && no_places(number);
    return (halves + 1) / 2;
}

static int32_t word_of(uint64_t count, int negative) {
    if (count > MOST_WORD) return NO_WORD;
    return negative ? -(int32_t)count : (int32_t)count;
}

int word_from(const char *text, int32_t *word, int *exact) {
    typed number;
    const char *end = typed_from(text, &number);
    if (!end) return 0;
    int in_steps = !number.has_point && strcmp(end, "w") == 0;
    if (*end && !in_steps) return 0;
    *exact = 1;
    *word = word_of(in_steps ? whole_part(&number) : steps(&number, exact), number.negative);
    return 1;
}

void decimal_from(int32_t word, char text[DECIMAL_ROOM]) {
    uint32_t steps = word < 0 ? 0 - (uint32_t)word : (uint32_t)word;
    uint32_t whole = steps / ONE, rest = steps % ONE;
    if (word < 0) *text++ = '-';
    if (whole >= 100) *text++ = (char)('0' + whole / 100);
    if (whole >= 10) *text++ = (char)('0' + whole / 10 % 10);
    *text++ = (char)('0' + whole % 10);
    if (rest) *text++ = '.';
    for (; rest; rest = 10 * rest % ONE) *text++ = (char)('0' + 10 * rest / ONE);
    *text = 0;
}
