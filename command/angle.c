/* Angles as they are typed, by whole numbers alone. */
#include <stdlib.h>
#include <string.h>
#include "angle.h"
#include "typed.h"

enum { DEGREES = 360, TURNS = 1 };     /* how many are a turn */

/* The parts of so many degrees or turns. Whole turns are left out first. Then half parts, of which a turn has 2^33, are counted
   and rounded down, and the nearest part follows from these, a tie going up in size. The division by `turn` may come after the
   multiples are rounded down, since rounding down twice is rounding down once. It is exact where nothing is left over, and the half
   parts are two for each part. */
static uint32_t parts(typed *number, uint64_t turn, int *exact) {
    uint64_t whole = 0;
    for (size_t i = 0; i < number->whole_count; i++) whole = (10 * whole + (uint64_t)(number->whole[i] - '0')) % turn;
    uint64_t all = multiples(whole, number->places, 33), half_parts = all / turn;
    *exact = all % (2 * turn) == 0 && no_places(number);
    uint32_t size = (uint32_t)((half_parts + 1) / 2);
    return number->negative ? 0 - size : size;
}

static int whole_parts(const char *text, uint32_t *angle) {
    int hexadecimal = strncmp(text, "0x", 2) == 0;
    if (hexadecimal) text += 2;
    size_t count = strspn(text, hexadecimal ? "0123456789abcdefABCDEF" : "0123456789");
    if (count == 0 || text[count]) return 0;
    unsigned long value = strtoul(text, NULL, hexadecimal ? 16 : 10);      /* too large a number is the largest that it gives */
    *angle = (uint32_t)value;
    return value <= UINT32_MAX;
}

int angle_from(const char *text, uint32_t *angle, int *exact) {
    *exact = 1;
    if (whole_parts(text, angle)) return 1;
    typed number;
    const char *unit = typed_from(text, &number);
    if (!unit) return 0;
    uint64_t turn = strcmp(unit, "deg") == 0 ? DEGREES : strcmp(unit, "t") == 0 ? TURNS : 0;
    if (turn) *angle = parts(&number, turn, exact);
    return turn != 0;
}
