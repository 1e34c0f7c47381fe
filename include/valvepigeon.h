/* Valvepigeon: formula sheets, and the fixed-point arithmetic behind them. For x86-64 Linux; C99 or later, and C++.

   Numbers. A word is a whole number from -2147483647 to 2147483647, and stands for itself divided by 2^24; 16777216 is one.
   The pattern -2147483648 is no word.

   Angles. An angle is an unsigned number of 32 bits, a part of a turn: a turn has 2^32 parts, so 0x40000000 is a quarter, and
   sums of angles wrap as C's unsigned sums do.

   Sheets. A sheet is a run of bytes: one start record, 1 to 64 formula records with strictly rising numbers, and one end
   record. Every function takes any bytes, of any length, any numbers and any arguments: it ends with an answer or with a
   numbered refusal, and nothing has to be checked before the call. No function keeps anything, allocates, or reads or writes
   outside what it is lent, so calls may run at the same time.

   Pointers. A pointer and a length lend the bytes from that pointer on for the length of the call. A pointer may not be null,
   even where the length is 0. What a writer is lent as `out` may not overlap what it is lent to read.

   Answers. Each result begins with `refused`, 0 or the number of the refusal, and `place`. When refused, every field after
   these two is 0 (a double is plus zero) and no byte of a lent buffer has changed; when not, `refused` and `place` are 0.
   Refusals 1 to 8 and 14 give the first byte of their record as the place, and 9 the first byte too many. These are the sheet's own,
   and come before any other; among them 14 comes directly after 6. The others give place 0, and so does the record writer always. In
   the sheet writer places count from the new sheet's first byte, so the run begins at 8. */
#ifndef VALVEPIGEON_H
#define VALVEPIGEON_H

#include <stddef.h>
#include <stdint.h>

#ifdef __cplusplus
extern "C" {
#endif

/* The version: 10000 times the first number, 100 times the second, and the third. The first moves when programs have to be
   compiled anew (a struct's size, the place of a field or a function is not as it was), and the shared library's name moves with it;
   the second when something is added, as a kind, a refusal or a field in padding, or an answer changes; the third when nothing of
   this is so.

   With 2.0.0 vp_worked and vp_shown have `steps`. vp_worked keeps its 24 bytes, and a program compiled with an older header still
   reads its word. But vp_shown grows from 24 bytes to 32, and is returned in memory that the caller lends: vp_evaluate_double
   would write beyond the struct of such a program. So the shared library is libvalvepigeon.so.2 now, which the loader never gives
   to a program that was linked with libvalvepigeon.so.1; an archive has no such name, and what is linked with it has to be compiled
   with a header of 2.0.0 or later.

   With 2.1.0 both have `exact`, in bytes behind `steps` that were padding. So their sizes and the places of the other fields stay,
   and a program compiled with a header of 2.0.0 or later works as before, with the archive and with the shared library. The other
   way round nothing is known of those bytes: a program that reads `exact` needs a library of 2.1.0 or later.

   With 2.2.0 a blank formula is refused, by 14: a sheet that has one was accepted before. */
#define VP_VERSION 20200
#define VP_VERSION_STRING "2.2.0"

/* Sizes: the most bytes of a record, the bytes that a sheet adds to its run of records, and the most formulas of a sheet. */
#define VP_LONGEST_RECORD 120
#define VP_SHEET_ADDS 16
#define VP_MOST_FORMULAS 64

/* The refusals, as `refused` has them, each with when it is given. */
#define VP_CUT_SHORT 1            /* the bytes stop before a record does */
#define VP_WRONG_LENGTH 2         /* a length is below 8, above 120, or not that of its kind and counts, or a count of
                                     coefficients or a depth is outside its range */
#define VP_WRONG_KIND 3           /* the kind is unknown, a start or formula record is out of place, or a writer is given what
                                     is no formula */
#define VP_WRONG_COUNT 4          /* the start's count is not 1 to 64, there is a formula too many, the end comes after too few
                                     or has another count, or a run is empty */
#define VP_NUMBER_NOT_ABOVE 5     /* a formula's number is not above the one before */
#define VP_WRONG_VALUE 6          /* a stored value is no word, lo is above hi, the mode is above 2, or a root's lo is below 0 */
#define VP_RANGE_LEFT 7           /* the word range may be left on the way to an answer */
#define VP_DIVISOR_ZERO 8         /* the divisor may reach 0 */
#define VP_BYTES_AFTER_END 9      /* there are bytes after the end record */
#define VP_ARGUMENT_OUTSIDE 10    /* the argument lies outside the interval lo..hi, to which both ends belong */
#define VP_NO_SUCH_FORMULA 11     /* no formula has that number */
#define VP_BUFFER_TOO_SHORT 12    /* the output buffer is too short */
#define VP_NOT_FINITE 13          /* the double is infinite or not a number */
#define VP_BLANK_FORMULA 14       /* the formula is blank and could only answer 0: its coefficients, a rational's numerator, or a
                                     fraction's b0 and a1 are all 0 */
#define VP_NO_SINE 15             /* the formula is not of the kind odd, or its interval does not hold 0 to one */

/* The kinds of formula records, as `kind` has them. */
#define VP_POLYNOMIAL 0x0010
#define VP_RATIONAL 0x0011
#define VP_FRACTION 0x0012
#define VP_ROOT 0x0013
#define VP_ODD 0x0014             /* a polynomial of odd powers alone */
#define VP_EVEN 0x0015            /* a polynomial of even powers alone */

/* A formula's fields. `lo` and `hi` are words, the ends of its interval. A field that the kind has not is 0 in an answer, and so
   is each word past the last; the record writer ignores them.

   kind          p                            q                     mode    words, in stored order
   polynomial    coefficients, 1 to 16        -                     -       c0, c1, ..., lowest power first
   rational      numerator's, 1 to 12         divisor's, 1 to 12    -       the numerator's p, then the divisor's q
   fraction      depth, 1 to 12               -                     0..2    b0, a1, b1, a2, b2, ...: 2 p + 1 of them
   root          -                            -                     -       none
   odd           coefficients, 1 to 16        -                     -       c0, c1, c2, ..., of x, x^3, x^5, ...
   even          coefficients, 1 to 16        -                     -       c0, c1, c2, ..., of 1, x^2, x^4, ...

   With s the product of the argument x with itself, an even formula's answer is that of the polynomial c0, c1, ... at s, and an
   odd one's the product of that word and x. Where -x lies in the interval too, an even formula gives the same word there, and an
   odd one exactly the negated word. */
typedef struct {
    uint16_t kind, number;
    int32_t lo, hi;
    uint16_t p, q, mode;
    int32_t words[32];
} vp_fields;

/* A sheet's formula count. */
typedef struct {
    uint32_t refused;
    uint64_t place;
    uint16_t count;
} vp_counted;

/* The formula of a number. */
typedef struct {
    uint32_t refused;
    uint64_t place;
    vp_fields fields;
} vp_found;

/* A formula's answer, a word; how many steps Heron's rule took to it, where it is a root; and 1 where it is exact, 0 where it was
   rounded on the way, as vp_evaluate says. In a refusal all three are 0, and say nothing. */
typedef struct {
    uint32_t refused;
    uint64_t place;
    int32_t word;
    uint16_t steps;
    uint16_t exact;
} vp_worked;

/* A formula's answer as a double: exactly the answer word divided by 2^24; zero is plus zero. `steps` and `exact` are as in
   vp_worked. */
typedef struct {
    uint32_t refused;
    uint64_t place;
    double value;
    uint16_t steps;
    uint16_t exact;
} vp_shown;

/* A formula's interval as two doubles, low end and high end, each exactly its word divided by 2^24. */
typedef struct {
    uint32_t refused;
    uint64_t place;
    double low, high;
} vp_ends;

/* How many bytes a writer has written. */
typedef struct {
    uint32_t refused;
    uint64_t place;
    uint64_t length;
} vp_written;

/* How many formulas the sheet has. The sheet's own refusals. */
vp_counted vp_count(const uint8_t *sheet, size_t length);

/* The sheet's formula of that number. The sheet's own refusals, then 11. */
vp_found vp_formula(const uint8_t *sheet, size_t length, uint16_t number);

/* What the sheet's formula of that number answers at `argument`, a word: the word that the rule on paper gives, each product and
   quotient rounded to the nearest whole number, a tie going away from zero. The sheet's own refusals, then 11, 10.

   A root is worked by Heron's rule. With v the argument times 2^24 and b the number of v's binary digits, it begins with 2 to the
   power of b/2, that exponent rounded up; each step replaces the number w by the whole part of half of (w plus the whole part of
   v/w), until the new number is not below the old, which is then the root. `steps` is the number of these steps, the last one
   included, and is at most 7. It is 0 for the argument 0, and for a formula of every other kind.

   `exact` is 1 where no product and no quotient on the way was rounded, so that the word is exactly the formula's value; else it is
   0, even where roundings cancel. Sums are never rounded. With s the product of the argument with itself, there count
   - in a polynomial each product with the argument; with one coefficient there is none, and it is always exact;
   - in a rational the products of both polynomials, and the quotient;
   - in a fraction each product and each quotient, and s in mode 1, and in mode 2 from depth 2 on;
   - in an even formula each product with s, and s itself from two coefficients on; in an odd one the last product, with the
     argument, too.
   There s counts whatever it is multiplied by, also by 0. A root is exact where its square is v. */
vp_worked vp_evaluate(const uint8_t *sheet, size_t length, uint16_t number, int32_t argument);

/* The same for a double. The argument's exact value times 2^24 is rounded as a product is, and `steps` are those at that word; where
   the rounded value is no word or lies outside the interval, 10. `exact` is 1 where the answer at that word is exact and the
   argument's value times 2^24 was a whole number, as for -0.0; else 0, also where the answer does not use the argument. The sheet's
   own refusals, then 11, 13, 10. */
vp_shown vp_evaluate_double(const uint8_t *sheet, size_t length, uint16_t number, double argument);

/* The sine of an angle, by the sheet's formula of that number, which has to be of the kind odd and to hold 0 to one in its
   interval: one for sin(pi x/2), as the repository's sheets/sine-quarter.sheet has; what function it is for is not checked. In the
   first quarter of a turn it answers at the angle divided by 2^6, rounded as a product is, so that a quarter is one; in the second
   as at half a turn minus the angle; in the third and the fourth the answer is that at half a turn less, negated. So for every
   angle, exactly: half a turn more negates the sine, half a turn minus the angle keeps it, and the negated angle negates it.
   `steps` is 0. `exact` is 1 where the formula's answer is exact and the angle is a multiple of 64, so that its division was not
   rounded; else 0. The sheet's own refusals, then 11, 15; no angle is refused. */
vp_worked vp_sine(const uint8_t *sheet, size_t length, uint16_t number, uint32_t angle);

/* The cosine of an angle: the sine of the angle and a quarter more. So, exactly, the negated angle keeps it, and half a turn more
   negates it. `steps`, `exact` and refusals as above. */
vp_worked vp_cosine(const uint8_t *sheet, size_t length, uint16_t number, uint32_t angle);

/* The interval of the sheet's formula of that number. The sheet's own refusals, then 11. */
vp_ends vp_interval(const uint8_t *sheet, size_t length, uint16_t number);

/* Writes a formula record to the start of `out`, which has `room` bytes; 120 are enough for any. Bytes beyond the written ones
   stay. Refusals 3; 2; 6; 14; 7 or 8; then 12, all at place 0. */
vp_written vp_write_record(vp_fields fields, uint8_t *out, size_t room);

/* Writes a sheet to the start of `out`, which has `room` bytes: a start record, the run of formula records, and an end record,
   run_length + 16 bytes in all. Bytes beyond these stay. An empty run is refused by 4 at place 0. Otherwise the run is checked
   record after record, in the reader's order: a record that breaks off gives 1, a start or end record 3, a 65th record 4 at its
   own place. Then comes 12. */
vp_written vp_write_sheet(const uint8_t *run, size_t run_length, uint8_t *out, size_t room);

/* What a refusal means and what to do about it, in English, for people to read: the words may change with any version. The
   string is the library's and stays; for 0, and for a number that is no refusal, it says so. */
const char *vp_message(uint32_t refused);

#ifdef __cplusplus
}
#endif

#endif
