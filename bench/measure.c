/* Makes every call of the benchmark twice, of plain C (plain.c) and of the library, and compares the answers, all of each.
   `measure SHEET` makes each call between marks, for insn.c, plain C and the library by turns; for each row it prints the name and how
   many calls each side had. `measure SHEET times` prints for each row the name and the ns a call took, of plain C and of the library.
   Where an answer is not as it should be, it says so and ends with status 1. */
#include <stdio.h>
#include <string.h>
#include "mark.h"
#include "plain.h"

/* Of the C library, beside what scripts/c/ declares. */
struct moment { long seconds, nanoseconds; };
int clock_gettime(int, struct moment *);
void exit(int);

enum { COUNTED = 200 };                                    /* calls of a row that are counted */
enum { SLICE = 1000, TIMED = 50000000, PASSES = 10 };      /* calls of a slice, ns for a row in a pass, passes over all rows */
enum { POLYNOMIAL, RATIONAL, FRACTION, ROOT, ODD, EVEN, KINDS };
enum { ROWS = 32, ROOM = VP_MOST_FORMULAS * VP_LONGEST_RECORD + VP_SHEET_ADDS };

typedef struct { uint8_t bytes[ROOM]; size_t length; } sheet;

/* A formula of the whole sheet, by its kind and number, or the odd one padded: its fields, a sheet of it alone, and arguments of
   its interval. */
typedef struct {
    const char *name;
    uint16_t kind, number;
    vp_fields fields;
    sheet alone;
    int32_t arguments[SLICE];
    double doubles[SLICE];
} formula;

static sheet whole;
static formula formulas[KINDS] = {
    [POLYNOMIAL] = {"polynomial", VP_POLYNOMIAL, 93}, [RATIONAL] = {"rational", VP_RATIONAL, 53},
    [FRACTION] = {"fraction", VP_FRACTION, 54}, [ROOT] = {"root", VP_ROOT, 161},
    [ODD] = {"odd", VP_ODD, 14}, [EVEN] = {"even", VP_EVEN, 33},
};
static formula longest = {"polynomial of 16", VP_POLYNOMIAL, 133};         /* the most coefficients; the other polynomial has 8 */
static formula padded = {"polynomial, odd padded", VP_POLYNOMIAL, 14};     /* the odd one, with a nought before each coefficient */
static uint32_t angles[SLICE];             /* of all four quarters */
static uint8_t out[ROOM], kept[ROOM];      /* what a call writes to; what it was after plain C's */

static void stop(const char *name, const char *why) {
    fprintf(stderr, "%s: %s\n", name, why);
    exit(1);
}

/* Whether two answers are the same in every field, doubles in every bit. */
#define SAME(field) (memcmp(&a->field, &b->field, sizeof a->field) == 0)
#define SAME_ANSWER(shape, rest) \
    static int same_##shape(const vp_##shape *a, const vp_##shape *b) { return SAME(refused) && SAME(place) && rest; }
SAME_ANSWER(counted, SAME(count))
SAME_ANSWER(worked, SAME(word) && SAME(steps) && SAME(exact))
SAME_ANSWER(shown, SAME(value) && SAME(steps) && SAME(exact))
SAME_ANSWER(ends, SAME(low) && SAME(high))
SAME_ANSWER(written, SAME(length))
SAME_ANSWER(found, SAME(fields.kind) && SAME(fields.number) && SAME(fields.lo) && SAME(fields.hi) && SAME(fields.p) && SAME(fields.q) &&
                       SAME(fields.mode) && SAME(fields.words))

/* Judges the answers of both sides, and what they have written; the library is the last to have been called. */
static void judge(const char *name, int same, uint32_t refused, uint32_t expected) {
    if (!same || memcmp(out, kept, ROOM) != 0) stop(name, "plain C and the library differ");
    if (refused != expected) stop(name, "the refusal is not the expected one");
}

/* The two sides of a function. Both are called from one place, so that what a caller does for a call is the same for both. */
#define SIDES(function) __typeof__(&vp_##function) const sides[2] = {plain_##function, vp_##function}

#define COUNT(name, shape, function, ...)                                                         \
    do {                                                                                          \
        SIDES(function);                                                                          \
        vp_##shape answers[2];                                                                    \
        for (int call = 0; call < 2 * COUNTED; call++) {                                          \
            int i = call / 2, side = call % 2;                                                    \
            (void)i;                                                                              \
            memset(out, 0, ROOM);                                                                 \
            MARK();                                                                               \
            const vp_##shape answer = sides[side](__VA_ARGS__);                                   \
            MARK();                                                                               \
            answers[side] = answer;                                                               \
            if (side == 0) memcpy(kept, out, ROOM);                                               \
            else judge(name, same_##shape(&answers[0], &answers[1]), answer.refused, 0);          \
        }                                                                                         \
        printf("%s\t%d\n", name, COUNTED);                                                        \
    } while (0)

static double now(void) {
    struct moment t;
    clock_gettime(1, &t);
    return t.seconds * 1e9 + t.nanoseconds;
}

static double bests[ROWS][2];              /* ns of each row's best slice; 0 where it had none yet */
static int row, pass;

/* Slices by turns, and the best of each side: whatever else the machine does only adds to a slice. */
#define TIME(name, shape, function, ...)                                                          \
    do {                                                                                          \
        SIDES(function);                                                                          \
        static vp_##shape answers[2][SLICE];                                                      \
        double *best = bests[row++], begun = now();                                               \
        do {                                                                                      \
            for (int side = 0; side < 2; side++) {                                                \
                memset(out, 0, ROOM);                                                             \
                double start = now();                                                             \
                for (int i = 0; i < SLICE; i++) answers[side][i] = sides[side](__VA_ARGS__);      \
                double taken = now() - start;                                                     \
                if (best[side] == 0 || taken < best[side]) best[side] = taken;                    \
                if (side == 0) memcpy(kept, out, ROOM);                                           \
            }                                                                                     \
            for (int i = 0; i < SLICE; i++)                                                       \
                judge(name, same_##shape(&answers[0][i], &answers[1][i]), answers[0][i].refused, 0); \
        } while (now() - begun < TIMED);                                                          \
        if (pass == PASSES) printf("%s\t%.2f\t%.2f\n", name, best[0] / SLICE, best[1] / SLICE);   \
    } while (0)

/* A row: a name, the answer's struct, the function, and its arguments, where i is the number of the call. */
#define ROW(name, ...) do { if (timing) TIME(name, __VA_ARGS__); else COUNT(name, __VA_ARGS__); } while (0)

static const char *joined(const char *first, const char *second) {
    static char name[64];
    snprintf(name, sizeof name, "%s%s", first, second);
    return name;
}

#define WHOLE whole.bytes, whole.length
#define RUN whole.bytes + 8, whole.length - VP_SHEET_ADDS
#define ALONE(f) f->alone.bytes, f->alone.length, f->number

static void rows(int timing) {
    const formula *polynomial = &formulas[POLYNOMIAL], *fraction = &formulas[FRACTION], *root = &formulas[ROOT], *odd = &formulas[ODD];
    const formula *f, *end = formulas + KINDS;
    ROW("reading 64 formulas", counted, count, WHOLE);
    ROW("writing 64 formulas", written, write_sheet, RUN, out, ROOM);
    for (f = formulas; f < end; f++) ROW(joined(f->name, ", sheet of 1"), worked, evaluate, ALONE(f), f->arguments[i]);
    f = &longest;
    ROW(f->name, worked, evaluate, ALONE(f), f->arguments[i]);
    f = &padded;
    ROW(f->name, worked, evaluate, ALONE(f), f->arguments[i]);
    for (f = formulas; f < end; f++) ROW(joined(f->name, ", sheet of 64"), worked, evaluate, WHOLE, f->number, f->arguments[i]);
    ROW("double, polynomial", shown, evaluate_double, ALONE(polynomial), polynomial->doubles[i]);
    ROW("double, root", shown, evaluate_double, ALONE(root), root->doubles[i]);
    ROW("sine, sheet of 1", worked, sine, ALONE(odd), angles[i]);
    ROW("cosine, sheet of 1", worked, cosine, ALONE(odd), angles[i]);
    ROW("interval, polynomial", ends, interval, ALONE(polynomial));
    ROW("formula, polynomial", found, formula, ALONE(polynomial));
    ROW("formula, fraction", found, formula, ALONE(fraction));
    for (f = formulas; f < end; f++) ROW(joined("record, ", f->name), written, write_record, f->fields, out, ROOM);
}

#define REFUSED(expected, shape, function, ...)                                                   \
    do {                                                                                          \
        SIDES(function);                                                                          \
        vp_##shape answers[2];                                                                    \
        for (int side = 0; side < 2; side++) {                                                    \
            memset(out, 0, ROOM);                                                                 \
            answers[side] = sides[side](__VA_ARGS__);                                             \
            if (side == 0) memcpy(kept, out, ROOM);                                               \
        }                                                                                         \
        judge("refused " #function, same_##shape(&answers[0], &answers[1]), answers[0].refused, expected); \
    } while (0)

static void refusals(void) {
    const formula *f = formulas;
    for (size_t cut = 0; cut < whole.length; cut += 7) REFUSED(VP_CUT_SHORT, counted, count, whole.bytes, cut);
    REFUSED(VP_BYTES_AFTER_END, counted, count, WHOLE + 1);
    REFUSED(VP_CUT_SHORT, worked, evaluate, WHOLE - 1, f->number, 0);
    REFUSED(VP_NO_SUCH_FORMULA, worked, evaluate, WHOLE, 0, 0);
    REFUSED(VP_NO_SUCH_FORMULA, shown, evaluate_double, WHOLE, 0, 0);
    REFUSED(VP_NO_SUCH_FORMULA, ends, interval, WHOLE, 0);
    REFUSED(VP_NO_SUCH_FORMULA, found, formula, WHOLE, 0);
    REFUSED(VP_ARGUMENT_OUTSIDE, worked, evaluate, WHOLE, f->number, f->fields.hi + 1);
    REFUSED(VP_ARGUMENT_OUTSIDE, shown, evaluate_double, WHOLE, f->number, 1e300);
    REFUSED(VP_NOT_FINITE, shown, evaluate_double, WHOLE, f->number, __builtin_inf());
    REFUSED(VP_CUT_SHORT, worked, sine, WHOLE - 1, f->number, 0);
    REFUSED(VP_NO_SUCH_FORMULA, worked, sine, WHOLE, 0, 0);
    for (; f < formulas + KINDS; f++) if (f->kind != VP_ODD) REFUSED(VP_NO_SINE, worked, sine, WHOLE, f->number, 0);
    f = formulas;
    REFUSED(VP_WRONG_KIND, written, write_record, ((vp_fields){0}), out, ROOM);
    REFUSED(VP_RANGE_LEFT, written, write_record, ((vp_fields){VP_EVEN, 1, 0, 2147483647, 1, 0, 0, {1}}), out, ROOM);
    REFUSED(VP_RANGE_LEFT, written, write_record, ((vp_fields){VP_ODD, 1, 0, 16777217, 1, 0, 0, {2147483647}}), out, ROOM);
    REFUSED(VP_BUFFER_TOO_SHORT, written, write_record, f->fields, out, f->alone.length - VP_SHEET_ADDS - 1);
    REFUSED(VP_WRONG_COUNT, written, write_sheet, whole.bytes, 0, out, ROOM);
    REFUSED(VP_CUT_SHORT, written, write_sheet, RUN - 1, out, ROOM);
    REFUSED(VP_WRONG_KIND, written, write_sheet, RUN + 8, out, ROOM);
    REFUSED(VP_BUFFER_TOO_SHORT, written, write_sheet, RUN, out, whole.length - 1);
}

static uint64_t drawn(void) {
    static uint64_t seed = 88172645463325252;
    seed ^= seed << 13;
    seed ^= seed >> 7;
    return seed ^= seed << 17;
}

static void look_up(formula *f) {
    f->fields = plain_formula(whole.bytes, whole.length, f->number).fields;
    if (f->fields.kind != f->kind) stop(f->name, "the sheet's formula of its number is of another kind");
}

static void pad(const vp_fields *odd) {
    vp_fields *f = &padded.fields;
    if (odd->p != 6) stop(padded.name, "the odd formula has not six terms");
    *f = *odd;
    f->kind = padded.kind;
    f->p = 2 * odd->p;
    for (int k = 0; k < odd->p; k++) f->words[2 * k] = 0, f->words[2 * k + 1] = odd->words[k];
}

static void prepare(formula *f) {
    uint8_t record[VP_LONGEST_RECORD];
    size_t length = plain_write_record(f->fields, record, sizeof record).length;
    f->alone.length = plain_write_sheet(record, length, f->alone.bytes, ROOM).length;
    for (int i = 0; i < SLICE; i++) {
        f->arguments[i] = (int32_t)(f->fields.lo + (long)(drawn() % ((uint64_t)f->fields.hi - f->fields.lo + 1)));
        f->doubles[i] = (f->arguments[i] + drawn() % 1024 / 2048.0) / 16777216.0;
    }
}

/* Formulas of each kind, with more and more zeros before their other words: blank from as many on as make them so. */
static void blanks(void) {
    for (const formula *f = formulas; f < formulas + KINDS; f++) {
        vp_fields fields = f->fields;
        int enough = f->kind == VP_ROOT ? 33 : f->kind == VP_FRACTION ? 2 : fields.p;
        for (int n = 1; n <= 32; n++) {
            fields.words[n - 1] = 0;
            REFUSED(n < enough ? 0 : VP_BLANK_FORMULA, written, write_record, fields, out, ROOM);
        }
    }
}

/* Ties, of which the rows have hardly one, for each pair of signs: of the double, of its product with a step, of that step by two. */
static void ties(void) {
    static formula tie = {"ties", VP_RATIONAL, 1, {VP_RATIONAL, 1, -16777216, 16777216, 2, 1, 0, {0, 1}}};
    const formula *f = &tie;
    for (int divisor = -33554432; divisor <= 33554432; divisor += 2 * 33554432) {
        tie.fields.words[2] = divisor;
        prepare(&tie);
        for (double steps = -8388607.5; steps <= 8388607.5; steps += 2 * 8388607.5) {
            vp_shown plain = plain_evaluate_double(ALONE(f), steps / 16777216), ours = vp_evaluate_double(ALONE(f), steps / 16777216);
            judge(f->name, same_shown(&plain, &ours), ours.refused, 0);
        }
    }
}

/* Roots beside each power of two: those that take no step and 2 to 7, the most, are among them, of which the rows have few. */
static void roots(void) {
    static formula root = {"roots", VP_ROOT, 1, {VP_ROOT, 1, 0, 2147483647, 0, 0, 0, {0}}};
    const formula *f = &root;
    prepare(&root);
    for (int power = 3; power < 31; power++) {
        for (int32_t x = (1 << power) - 8; x <= (1 << power) + 8; x++) {
            vp_worked plain = plain_evaluate(ALONE(f), x), ours = vp_evaluate(ALONE(f), x);
            judge(f->name, same_worked(&plain, &ours), ours.refused, 0);
            vp_shown plain_shown = plain_evaluate_double(ALONE(f), x / 16777216.0), shown = vp_evaluate_double(ALONE(f), x / 16777216.0);
            judge(f->name, same_shown(&plain_shown, &shown), shown.refused, 0);
        }
    }
}

/* Angles beside each eighth of a turn, the ties there among them, of an odd formula whose interval holds 0 to one, or just does not. */
static void turns(void) {
    static formula turn = {"angles", VP_ODD, 1, {VP_ODD, 1, 0, 0, 2, 0, 0, {26353589, -10837489}}};
    const formula *f = &turn;
    for (int narrower = 0; narrower < 4; narrower++) {
        turn.fields.lo = narrower % 2, turn.fields.hi = 16777216 - narrower / 2;
        prepare(&turn);
        for (uint32_t i = 0; i < 8 * 64; i++) {
            uint32_t angle = (i / 64 << 29) + i % 64 - 32;
            vp_worked plain[2] = {plain_sine(ALONE(f), angle), plain_cosine(ALONE(f), angle)};
            vp_worked ours[2] = {vp_sine(ALONE(f), angle), vp_cosine(ALONE(f), angle)};
            for (int k = 0; k < 2; k++) judge(f->name, same_worked(&plain[k], &ours[k]), ours[k].refused, narrower ? VP_NO_SINE : 0);
        }
    }
}

int main(int count, char **words) {
    FILE *file = count > 1 ? fopen(words[1], "rb") : NULL;
    if (!file) stop("measure", "no sheet that can be read");
    whole.length = fread(whole.bytes, 1, ROOM, file);
    fclose(file);
    for (int k = 0; k < KINDS; k++) look_up(&formulas[k]), prepare(&formulas[k]);
    look_up(&longest), prepare(&longest);
    pad(&formulas[ODD].fields);
    prepare(&padded);
    refusals();
    blanks();
    ties();
    for (int i = 0; i < SLICE; i++) angles[i] = (uint32_t)drawn();
    turns();
    roots();
    if (count == 2) rows(0);
    else while (pass++ < PASSES) row = 0, rows(1);
    return 0;
}
