/* Numbers as they are typed, by whole numbers alone. */
#include <string.h>
#include "typed.h"

static size_t digits(const char *text) { return strspn(text, "0123456789"); }

const char *typed_from(const char *text, typed *number) {
    memset(number, 0, sizeof *number);
    number->negative = *text == '-';
    if (*text == '-' || *text == '+') text++;
    number->whole = text;
    number->whole_count = digits(text);
    text += number->whole_count;
    number->has_point = *text == '.';
    if (number->has_point) text++;
    size_t count = number->has_point ? digits(text) : 0;
    for (size_t i = 0; i < count && i < DECIMAL_PLACES; i++) number->places[i] = (unsigned char)(text[i] - '0');
    for (size_t i = DECIMAL_PLACES; i < count; i++) number->has_more |= text[i] != '0';
    return number->whole_count + count > 0 ? text + count : NULL;
}

/* Doubles the number below one that has these decimal places, and gives the one that passes the point, or 0. */
static uint64_t doubled(unsigned char places[DECIMAL_PLACES]) {
    unsigned carry = 0;
    for (int i = DECIMAL_PLACES; i-- > 0;) {
        unsigned twice = 2 * places[i] + carry;
        carry = twice >= 10;
        places[i] = (unsigned char)(twice % 10);
    }
    return carry;
}

uint64_t multiples(uint64_t whole, unsigned char places[DECIMAL_PLACES], int n) {
    for (int i = 0; i < n; i++) whole = 2 * whole + doubled(places);
    return whole;
}

int no_places(const typed *number) {
    int some = number->has_more;
    for (int i = 0; i < DECIMAL_PLACES; i++) some |= number->places[i];
    return !some;
}
