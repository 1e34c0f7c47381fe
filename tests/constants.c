/* The header's constants are what the library does: each refusal is met by its name, each kind answers by its rule, and each size
   is met by a sheet that has it.
   A line for each that is not so; the last line says how many are. */
#include <stddef.h>
#include <stdio.h>
#include <string.h>
#include "valvepigeon.h"

#define SHORT(n) (n) & 255, (n) >> 8
#define START(count) 8, 0, 0, 0, 1, 0, SHORT(count)
#define END(count) 8, 0, 0, 0, 255, 255, SHORT(count)
#define ROOT(number, lo) 16, 0, 0, 0, 0x13, 0, SHORT(number), lo, lo, lo, lo, 0, 0, 0, 1
/* c0 = c1 on the whole of 0..M */
#define STEEP 24, 0, 0, 0, 0x10, 0, 1, 0, 0, 0, 0, 0, 255, 255, 255, 127, 255, 255, 255, 127, 255, 255, 255, 127
/* so many steps over 0, at 0 */
#define BY_ZERO(steps) 28, 0, 0, 0, 0x11, 0, 1, 0, 0, 0, 0, 0, 0, 0, 0, 0, 1, 0, 1, 0, steps, 0, 0, 0, 0, 0, 0, 0

static int right, wrong;

static void hold(const char *what, unsigned long got, unsigned long expected) {
    if (got == expected) {
        right++;
    } else {
        wrong++;
        printf("%s: %lu, not %lu\n", what, got, expected);
    }
}

#define COUNT(name, ...) \
    do { \
        static const uint8_t sheet[] = {__VA_ARGS__}; \
        hold(#name, vp_count(sheet, sizeof sheet).refused, name); \
    } while (0)

static void sheets(void) {
    COUNT(VP_CUT_SHORT, START(1), ROOT(1, 0));
    COUNT(VP_WRONG_LENGTH, START(1), 0, 0, 0, 0);
    COUNT(VP_WRONG_KIND, START(1), START(1), END(1));
    COUNT(VP_WRONG_COUNT, START(2), ROOT(1, 0), END(2));
    COUNT(VP_NUMBER_NOT_ABOVE, START(2), ROOT(1, 0), ROOT(1, 0), END(2));
    COUNT(VP_WRONG_VALUE, START(1), ROOT(1, 255), END(1));
    COUNT(VP_RANGE_LEFT, START(1), STEEP, END(1));
    COUNT(VP_DIVISOR_ZERO, START(1), BY_ZERO(1), END(1));
    COUNT(VP_BLANK_FORMULA, START(1), BY_ZERO(0), END(1));
    COUNT(VP_BYTES_AFTER_END, START(1), ROOT(1, 0), END(1), 0);
}

static void questions(void) {
    static const uint8_t sheet[] = {START(1), ROOT(1, 0), END(1)};
    uint8_t out[sizeof sheet - 1];
    hold("VP_ARGUMENT_OUTSIDE", vp_evaluate(sheet, sizeof sheet, 1, -1).refused, VP_ARGUMENT_OUTSIDE);
    hold("VP_NO_SUCH_FORMULA", vp_formula(sheet, sizeof sheet, 2).refused, VP_NO_SUCH_FORMULA);
    hold("VP_BUFFER_TOO_SHORT", vp_write_sheet(sheet + 8, 16, out, sizeof out).refused, VP_BUFFER_TOO_SHORT);
    hold("VP_NOT_FINITE", vp_evaluate_double(sheet, sizeof sheet, 1, __builtin_inf()).refused, VP_NOT_FINITE);
    hold("VP_NO_SINE", vp_sine(sheet, sizeof sheet, 1, 0).refused, VP_NO_SINE);
    hold("VP_NO_SINE", vp_cosine(sheet, sizeof sheet, 1, 0).refused, VP_NO_SINE);
}

/* What a formula with the words 1, 1 and 2 answers at one half, on 0 to one half. */
static int32_t half(uint16_t kind, uint16_t p, uint16_t q) {
    const int32_t one = 16777216;
    vp_fields fields = {kind, 1, 0, one / 2, p, q, 0, {one, one, 2 * one}};
    uint8_t record[VP_LONGEST_RECORD], sheet[VP_LONGEST_RECORD + VP_SHEET_ADDS];
    size_t length = vp_write_record(fields, record, sizeof record).length;
    length = vp_write_sheet(record, length, sheet, sizeof sheet).length;
    return vp_evaluate(sheet, length, 1, one / 2).word;
}

static void kinds(void) {
    hold("VP_POLYNOMIAL", half(VP_POLYNOMIAL, 2, 0), 25165824);       /* 1 + 1/2 */
    hold("VP_RATIONAL", half(VP_RATIONAL, 2, 1), 12582912);           /* (1 + 1/2) / 2 */
    hold("VP_FRACTION", half(VP_FRACTION, 1, 0), 20971520);           /* 1 + 1/2 / 2 */
    hold("VP_ROOT", half(VP_ROOT, 0, 0), 11863283);                   /* 2^23.5 is 11863283.2 */
    hold("VP_ODD", half(VP_ODD, 2, 0), 10485760);                     /* (1 + 1/4) / 2 */
    hold("VP_EVEN", half(VP_EVEN, 3, 0), 23068672);                   /* 1 + 1/4 + 2/16 */
}

/* The fullest sheet: the longest records, as many as go in, and one more. */
static void sizes(void) {
    static uint8_t run[(VP_MOST_FORMULAS + 1) * VP_LONGEST_RECORD], out[sizeof run + VP_SHEET_ADDS];
    vp_fields deepest = {VP_FRACTION, 0, 0, 0, 12, 0, 0, {0}};
    for (int i = 0; i <= 24; i++) deepest.words[i] = 1;
    for (unsigned i = 0; i <= VP_MOST_FORMULAS; i++) {
        deepest.number = (uint16_t)i;
        uint8_t *record = run + i * VP_LONGEST_RECORD;
        hold("VP_LONGEST_RECORD", vp_write_record(deepest, record, VP_LONGEST_RECORD).length, VP_LONGEST_RECORD);
    }
    size_t most = VP_MOST_FORMULAS * VP_LONGEST_RECORD;
    hold("VP_SHEET_ADDS", vp_write_sheet(run, most, out, most + VP_SHEET_ADDS).length, most + VP_SHEET_ADDS);
    hold("VP_MOST_FORMULAS", vp_count(out, most + VP_SHEET_ADDS).count, VP_MOST_FORMULAS);
    hold("one more", vp_write_sheet(run, sizeof run, out, sizeof out).refused, VP_WRONG_COUNT);
}

/* The structs as programs have them that were compiled with a header of 2.0.0. */
typedef struct {
    uint32_t refused;
    uint64_t place;
    int32_t word;
    uint16_t steps;
} older_worked;
typedef struct {
    uint32_t refused;
    uint64_t place;
    double value;
    uint16_t steps;
} older_shown;

/* The bytes that the header tells of, beside its version: sizes and places that stay, and what stands where padding was. */
static void structs(void) {
    hold("vp_worked", sizeof(vp_worked), 24);
    hold("vp_shown", sizeof(vp_shown), 32);
    hold("vp_worked, older", sizeof(older_worked), 24);
    hold("vp_shown, older", sizeof(older_shown), 32);
    hold("word", offsetof(vp_worked, word), offsetof(older_worked, word));
    hold("steps behind a word", offsetof(vp_worked, steps), offsetof(older_worked, steps));
    hold("exact behind a word", offsetof(vp_worked, exact), 22);
    hold("value", offsetof(vp_shown, value), offsetof(older_shown, value));
    hold("steps behind a double", offsetof(vp_shown, steps), offsetof(older_shown, steps));
    hold("exact behind a double", offsetof(vp_shown, exact), 26);
}

static void version(void) {
    int first = VP_VERSION / 10000, second = VP_VERSION / 100 % 100, third = VP_VERSION % 100;
    char text[32];
    snprintf(text, sizeof text, "%d.%d.%d", first, second, third);
    hold("VP_VERSION_STRING", strcmp(text, VP_VERSION_STRING) == 0, 1);
}

int main(void) {
    sheets();
    questions();
    kinds();
    sizes();
    structs();
    version();
    printf("%d right, %d wrong\n", right, wrong);
    return wrong != 0;
}
