/* A number as it is typed: a sign or none, digits, and a point with digits behind it or none. */
#ifndef TYPED_H
#define TYPED_H
#include <stddef.h>
#include <stdint.h>

/* How many decimal places are kept. A multiple of 2^-n has at most n of them, so that for every n up to 33 these settle how often
   2^-n goes into a number, whatever is typed behind them. */
enum { DECIMAL_PLACES = 33 };

typedef struct {
    int negative, has_point;
    const char *whole;                 /* the digits before the point, and how many they are */
    size_t whole_count;
    unsigned char places[DECIMAL_PLACES];
    int has_more;                      /* whether a digit other than 0 stands behind these */
} typed;

/* Takes a number from the start of a text, and gives the text behind it; NULL where there is no digit. */
const char *typed_from(const char *text, typed *number);

/* How often 2^-n goes into a whole number with these decimal places, in which what is left over then stands, times 2^n; n is at
   most DECIMAL_PLACES. */
uint64_t multiples(uint64_t whole, unsigned char places[DECIMAL_PLACES], int n);

/* Whether all decimal places of a number are 0; after `multiples` of its places, whether nothing was left over. */
int no_places(const typed *number);
#endif
