/* Prints how far the library's sine lies from the true one at most, for each formula of a sheet, in steps of 2^-24 rounded up to
   1/100: at the argument that an angle is rounded to, and at the angle itself.

   Every angle of the first quarter counts, that of a whole quarter among them, 2^30 + 1 in all. Each argument k is had from
   the angles 64k - 32 to 64k + 31; the answer is the same for all of them, and the true sine rises through the quarter, so that it
   is furthest from the answer at the first or at the last of them. The other quarters, and the cosine, have the same answers and
   the same true values but for the sign, by symmetries of which the library's are proved, and so the same errors. */
#include <math.h>
#include <stdio.h>
#include <stdlib.h>
#include "valvepigeon.h"

enum { ONE = 1 << 24, QUARTER = 1 << 30, MOST_BYTES = 8192 };

typedef struct {
    long double error;
    uint32_t angle;
} worst;

/* A formula, and a sheet of it alone. */
typedef struct {
    vp_fields fields;
    uint8_t sheet[VP_LONGEST_RECORD + VP_SHEET_ADDS];
    size_t length;
    worst at_argument, at_angle;
} formula;

static formula formulas[VP_MOST_FORMULAS];
static int count;

static void stop(const char *why) {
    fprintf(stderr, "turn_errors: %s\n", why);
    exit(1);
}

static void add(vp_fields fields) {
    uint8_t record[VP_LONGEST_RECORD];
    formula *f = &formulas[count++];
    f->fields = fields;
    vp_written written = vp_write_record(fields, record, sizeof record);
    f->length = vp_write_sheet(record, written.length, f->sheet, sizeof f->sheet).length;
}

static void read_formulas(const char *name) {
    static uint8_t sheet[MOST_BYTES];
    FILE *file = fopen(name, "rb");
    size_t length = file ? fread(sheet, 1, sizeof sheet, file) : 0;
    for (uint32_t number = 0; number <= UINT16_MAX; number++) {
        vp_found found = vp_formula(sheet, length, (uint16_t)number);
        if (!found.refused) add(found.fields);
    }
    if (count == 0) stop("no sheet that can be read");
}

/* In steps; the angle is one of the first quarter. */
static long double true_sine(uint32_t angle) {
    return sinl(1.57079632679489661923132169163975144L * angle / QUARTER) * ONE;
}

static void look(worst *w, int32_t word, uint32_t angle, long double true_value) {
    long double error = fabsl(word - true_value);
    if (error <= w->error) return;
    w->error = error;
    w->angle = angle;
}

/* All angles that are rounded to one argument. */
static void look_around(uint32_t argument) {
    uint32_t middle = 64 * argument, first = argument ? middle - 32 : 0, last = argument < ONE ? middle + 31 : middle;
    long double at_first = true_sine(first), at_middle = true_sine(middle), at_last = true_sine(last);
    for (formula *f = formulas; f < formulas + count; f++) {
        vp_worked answer = vp_sine(f->sheet, f->length, f->fields.number, middle);
        if (answer.refused) stop(vp_message(answer.refused));
        look(&f->at_argument, answer.word, middle, at_middle);
        look(&f->at_angle, answer.word, first, at_first);
        look(&f->at_angle, answer.word, last, at_last);
    }
}

static void tell(const char *where, worst w, const char *end) {
    printf("%s %.2Lf, of 0x%08x%s", where, ceill(100 * w.error) / 100, w.angle, end);
}

int main(int words, char **word) {
    if (words != 2) stop("usage: turn_errors SHEET");
    read_formulas(word[1]);
    for (uint32_t argument = 0; argument <= ONE; argument++) look_around(argument);
    for (const formula *f = formulas; f < formulas + count; f++) {
        printf("formula %u, %u terms: ", f->fields.number, f->fields.p);
        tell("at the argument", f->at_argument, "; ");
        tell("at the angle", f->at_angle, "\n");
    }
    return 0;
}
