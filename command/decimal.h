/* Words as decimals, and decimals as words, by whole numbers alone. */
#ifndef DECIMAL_H
#define DECIMAL_H
#include <stdint.h>

/* The pattern that is no word, and lies outside every interval. */
#define NO_WORD INT32_MIN

/* The word that a text stands for: a whole number of steps with a `w` behind it, or a decimal. A decimal's exact value is rounded
   to steps as the door rounds a double's: to the nearest, a tie away from zero; `exact` says whether it need not be. A value that
   is no word gives NO_WORD. False, and no word, where the text is neither. */
int word_from(const char *text, int32_t *word, int *exact);

/* The exact decimal of a word: sign, up to 3 digits, a point and up to 24 more, and the closing nought byte. */
enum { DECIMAL_ROOM = 1 + 3 + 1 + 24 + 1 };
void decimal_from(int32_t word, char text[DECIMAL_ROOM]);
#endif
