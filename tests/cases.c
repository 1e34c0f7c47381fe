/* Puts the paper's hand-checked rows that are not proved, rows of a root's steps, of marks, of angles and of blank formulas, and
   every vector of a file (oracle/README.md has its layout) to the library through its C interface, and compares the answers. For each
   group it prints how many agree; a disagreement is printed with its vector. The exit status is 0 only if all agree and no group is
   empty. */
#include <stdint.h>
#include <stdio.h>
#include <stdlib.h>
#include <string.h>
#include "valvepigeon.h"

enum { BY_HAND, COUNT, FORMULA, EVALUATE, DOUBLE, INTERVAL, RECORD, SHEET, SINE, COSINE, GROUPS };
enum { FIELDS = 146, WORDS = 32, GUARD = 64, MOST_ROOM = 65535 };

static const char *const names[GROUPS] = {"by hand",  "count",  "formula", "evaluate", "double",
                                          "interval", "record", "sheet",   "sine",     "cosine"};
static const unsigned least[GROUPS] = {0, 0, 2, 6, 10, 2, FIELDS + 2, 2, 6, 6};     /* bytes of a question */
static unsigned long asked[GROUPS], agreed[GROUPS];

static uint64_t get(const uint8_t *at, int size) {
    uint64_t value = 0;
    for (int i = size; i-- > 0;) value = value << 8 | at[i];
    return value;
}

static double get_double(const uint8_t *at) {
    uint64_t pattern = get(at, 8);
    double x;
    memcpy(&x, &pattern, 8);
    return x;
}

static vp_fields get_fields(const uint8_t *at) {
    vp_fields f;
    f.kind = (uint16_t)get(at, 2);
    f.number = (uint16_t)get(at + 2, 2);
    f.lo = (int32_t)get(at + 4, 4);
    f.hi = (int32_t)get(at + 8, 4);
    f.p = (uint16_t)get(at + 12, 2);
    f.q = (uint16_t)get(at + 14, 2);
    f.mode = (uint16_t)get(at + 16, 2);
    for (int i = 0; i < WORDS; i++) f.words[i] = (int32_t)get(at + 18 + 4 * i, 4);
    return f;
}

/* ---- the answer, laid out as the vectors have it */
static uint8_t got[1 + 4 + 4 + MOST_ROOM];
static size_t got_length;

/* A number that does not fit becomes the largest that does, and so disagrees. */
static void put(uint64_t value, int size) {
    uint64_t most = size == 8 ? UINT64_MAX : ((uint64_t)1 << 8 * size) - 1;
    if (value > most) value = most;
    for (int i = 0; i < size; i++) got[got_length++] = (uint8_t)(value >> 8 * i);
}

static void put_head(uint32_t refused, uint64_t place) {
    put(refused, 1);
    put(place, 4);
}

static void put_double(double x) {
    uint64_t pattern;
    memcpy(&pattern, &x, 8);
    put(pattern, 8);
}

static void put_fields(const vp_fields *f) {
    put(f->kind, 2);
    put(f->number, 2);
    put((uint32_t)f->lo, 4);
    put((uint32_t)f->hi, 4);
    put(f->p, 2);
    put(f->q, 2);
    put(f->mode, 2);
    for (int i = 0; i < WORDS; i++) put((uint32_t)f->words[i], 4);
}

/* ---- the buffer that is lent to a writer, between two guards that it may not touch */
static uint8_t lent[GUARD + MOST_ROOM + GUARD];
static uint8_t *const out = lent + GUARD;
static int strayed;

/* Byte i of the buffer, from -GUARD on, beforehand. */
static uint8_t beforehand(long i) { return (uint8_t)(7 * (i + 256) + 13); }

static void fill(void) {
    for (long i = -GUARD; i < MOST_ROOM + GUARD; i++) out[i] = beforehand(i);
}

static void put_written(vp_written r, size_t room) {
    put_head(r.refused, r.place);
    put(r.length, 4);
    memcpy(got + got_length, out, room);
    got_length += room;
    for (long i = -GUARD; i < 0; i++) strayed |= out[i] != beforehand(i);
    for (long i = (long)room; i < MOST_ROOM + GUARD; i++) strayed |= out[i] != beforehand(i);
}

/* ---- the nine questions */
static void answer_reader(int group, const uint8_t *q, size_t n) {
    if (group == COUNT) {
        vp_counted r = vp_count(q, n);
        put_head(r.refused, r.place);
        put(r.count, 2);
    } else if (group == FORMULA) {
        vp_found r = vp_formula(q + 2, n - 2, (uint16_t)get(q, 2));
        put_head(r.refused, r.place);
        put_fields(&r.fields);
    } else {
        vp_ends r = vp_interval(q + 2, n - 2, (uint16_t)get(q, 2));
        put_head(r.refused, r.place);
        put_double(r.low);
        put_double(r.high);
    }
}

static void answer_board(int group, const uint8_t *q, size_t n) {
    if (group == EVALUATE) {
        vp_worked r = vp_evaluate(q + 6, n - 6, (uint16_t)get(q, 2), (int32_t)get(q + 2, 4));
        put_head(r.refused, r.place);
        put((uint32_t)r.word, 4);
        put(r.steps, 2);
        put(r.exact, 2);
    } else {
        vp_shown r = vp_evaluate_double(q + 10, n - 10, (uint16_t)get(q, 2), get_double(q + 2));
        put_head(r.refused, r.place);
        put_double(r.value);
        put(r.steps, 2);
        put(r.exact, 2);
    }
}

static void answer_angle(int group, const uint8_t *q, size_t n) {
    vp_worked (*function)(const uint8_t *, size_t, uint16_t, uint32_t) = group == SINE ? vp_sine : vp_cosine;
    vp_worked r = function(q + 6, n - 6, (uint16_t)get(q, 2), (uint32_t)get(q + 2, 4));
    put_head(r.refused, r.place);
    put((uint32_t)r.word, 4);
    put(r.steps, 2);
    put(r.exact, 2);
}

static void answer_writer(int group, const uint8_t *q, size_t n) {
    fill();
    if (group == RECORD) {
        size_t room = get(q + FIELDS, 2);
        put_written(vp_write_record(get_fields(q), out, room), room);
    } else {
        size_t room = get(q, 2);
        put_written(vp_write_sheet(q + 2, n - 2, out, room), room);
    }
}

static void answer(int question, const uint8_t *q, size_t n) {
    got_length = 0;
    strayed = 0;
    if (question == COUNT || question == FORMULA || question == INTERVAL) answer_reader(question, q, n);
    else if (question == EVALUATE || question == DOUBLE) answer_board(question, q, n);
    else if (question == SINE || question == COSINE) answer_angle(question, q, n);
    else answer_writer(question, q, n);
}

/* ---- comparing */
static void hex(const char *what, const uint8_t *at, size_t length) {
    printf("  %s ", what);
    for (size_t i = 0; i < length; i++) printf("%02x", at[i]);
    putchar('\n');
}

/* Puts a question and compares the answer's bytes; `number` is its place among the group's. */
static void compare(int group, unsigned long number, int question, const uint8_t *q, size_t n, const uint8_t *expected, size_t length) {
    asked[group]++;
    answer(question, q, n);
    if (!strayed && got_length == length && memcmp(got, expected, length) == 0) {
        agreed[group]++;
        return;
    }
    printf("%s %lu disagrees, question %d (%s)%s\n", group == BY_HAND ? "row" : "vector", number, question, names[question],
           strayed ? ": it wrote outside its buffer" : "");
    hex("asked   ", q, n);
    hex("expected", expected, length);
    hex("got     ", got, got_length);
}

/* ---- the rows, as vectors in hexadecimal: the paper's, then those of a root's steps, of marks, of angles and of blank formulas */
static uint8_t row_question[256], row_answer[256];

static size_t from_hex(uint8_t *to, const char *text) {
    size_t n = 0;
    for (; *text; text++) {
        if (*text == ' ') continue;
        int digit = *text <= '9' ? *text - '0' : *text - 'a' + 10;
        if (n % 2 == 0) to[n / 2] = (uint8_t)(digit << 4);
        else to[n / 2] |= (uint8_t)digit;
        n++;
    }
    return n / 2;
}

#define START "08000000 0100 0100 "
#define END "08000000 ffff 0100"
#define ROOT_TO(hi) "10000000 1300 0100 00000000 " hi
#define ROOT ROOT_TO("00000002 ")
#define EVERY_ROOT START ROOT_TO("ffffff7f ") END
/* 120 + 60x + 12x^2 + x^3 over its mirror on [-1, 1] */
#define CUBIC_WORDS "00000078 0000003c 0000000c 00000001 00000078 000000c4 0000000c 000000ff "
#define CUBIC "34000000 1100 0100 000000ff 00000001 0400 0400 " CUBIC_WORDS
/* x - x^3/6 from 0 to 1, and what it gives at one, 16777216 - 2796203 = 13981013, and at one half, where 8039082.5 is a tie; below
   2897 steps the square is 0, and it gives its argument */
#define ODD_FROM(lo, hi) START "18000000 1400 0100 " lo hi "00000001 5555d5ff " END
#define ODD ODD_FROM("00000000 ", "00000001 ")
#define AT_ONE "5555d500"
#define AT_ONE_NEGATED "abaa2aff"
#define AT_HALF "abaa7a00"
#define AT_HALF_NEGATED "555585ff"
#define EVEN START "18000000 1500 0100 00000000 00000001 00000001 5555d5ff " END
/* formulas on [-1, 1] for marks, by their lengths, kinds and what stands behind the interval */
#define ALONE(length, kind, rest) START length "000000 " kind "00 0100 000000ff 00000001 " rest END
#define STEP_BY_X ALONE("18", "10", "00000000 01000000 ")
#define X_ITSELF ALONE("18", "10", "00000000 00000001 ")
#define NINE_STEPS ALONE("14", "10", "09000000 ")
#define X_BY_TWO ALONE("20", "11", "0200 0100 00000000 00000001 00000002 ")
#define OVER_ITSELF ALONE("24", "11", "0200 0200 00000001 01000000 00000001 01000000 ")     /* one and x steps over the same */
#define FRACTION(mode) ALONE("20", "12", mode "00 0100 00000000 00000001 00000001 ")        /* v over 1 */
#define X_BY_TWO_AGAIN ALONE("20", "12", "0000 0100 00000000 00000001 00000002 ")
#define DEEPER ALONE("28", "12", "0200 0200 00000000 00000001 00000001 00000000 00000001 ")  /* x over (1 + 0 s / 1) */
#define ODD_ONE ALONE("14", "14", "00000001 ")
#define ODD_TWO ALONE("18", "14", "00000001 00000000 ")                                     /* x (1 + 0 s) */
#define ODD_STEP ALONE("14", "14", "01000000 ")
#define EVEN_ONE ALONE("14", "15", "09000000 ")
#define EVEN_TWO ALONE("18", "15", "09000000 00000000 ")                                    /* nine steps + 0 s */
#define ACCEPTED "00 00000000 "
/* what stands behind a word or a double: the steps and the mark; in a refusal neither */
#define EXACT(n) " 0" #n "00 0100"
#define ROUNDED(n) " 0" #n "00 0000"
#define NEITHER " 0000 0000"
#define NO_SINE "0f 00000000 00000000" NEITHER
#define FOUR_ZEROS "00000000 00000000 00000000 00000000 "
#define ZEROS_24 FOUR_ZEROS FOUR_ZEROS FOUR_ZEROS FOUR_ZEROS FOUR_ZEROS FOUR_ZEROS
#define ZEROS_32 ZEROS_24 FOUR_ZEROS FOUR_ZEROS
#define NO_FIELDS "0000 0000 00000000 00000000 0000 0000 0000 " ZEROS_32
/* formulas of which some are blank, by their words: a polynomial, odd or even one of two coefficients, a rational of two over one, a
   fraction of depth 1 */
#define SERIES(kind, words) ALONE("18", kind, words)
#define RATIONAL(words) ALONE("20", "11", "0200 0100 " words)
#define DEPTH_1(mode, words) ALONE("20", "12", mode "00 0100 " words)
#define BLANK SERIES("10", "00000000 00000000 ")
#define BLANK_ODD SERIES("14", "00000000 00000000 ")
#define FIFTEEN_ZEROS FOUR_ZEROS FOUR_ZEROS FOUR_ZEROS "00000000 00000000 00000000 "
/* from 0 to 12, where S is no word */
#define WIDE(length, kind, rest) START length "000000 " kind "00 0100 00000000 0000000c " rest END
/* a run of a root, number 1, and a blank polynomial of the number given; and a sheet of a run, with a count */
#define RUN(number) "10000000 1300 0100 00000000 00000001 14000000 1000 " number "00 000000ff 00000001 00000000 "
#define SHEET_OF(count, run) "08000000 0100 " count "00 " run "08000000 ffff " count "00"
/* the record writer's fields on [-1, 1], with no room: counts and mode, two words, thirty zeros */
#define UNROOMED(kind, counts, words) kind "00 0100 000000ff 00000001 " counts words "00000000 00000000 " FOUR_ZEROS ZEROS_24 "0000"
#define IS_BLANK "0e 08000000 "
#define NONE " 00000000 00000000"

static const struct { int question; const char *asked, *answered; } rows[] = {
    {COUNT, START CUBIC END, "07 08000000 0000"},
    {EVALUATE, "0100 00000000 " START CUBIC END, "07 08000000 00000000" NEITHER},
    {RECORD, "1100 0100 000000ff 00000001 0400 0400 0000 " CUBIC_WORDS ZEROS_24 "0000", "07 00000000 00000000"},
    {SHEET, "0000 " CUBIC, "07 08000000 00000000"},
    {COUNT, "", "01 00000000 0000"},
    {FORMULA, "0100", "01 00000000 " NO_FIELDS},
    {EVALUATE, "0100 00000000", "01 00000000 00000000" NEITHER},
    {DOUBLE, "0100 0000000000000000", "01 00000000 0000000000000000" NEITHER},
    {INTERVAL, "0100", "01 00000000 0000000000000000 0000000000000000"},
    {COUNT, START ROOT END, ACCEPTED "0100"},
    {FORMULA, "0100 " START ROOT END, ACCEPTED "1300 0100 00000000 00000002 0000 0000 0000 " ZEROS_32},
    {EVALUATE, "0100 00000002 " START ROOT END, ACCEPTED "e6096a01" ROUNDED(5)},
    {INTERVAL, "0100 " START ROOT END, ACCEPTED "0000000000000000 0000000000000040"},
    {SHEET, "2000 " ROOT, ACCEPTED "20000000 " START ROOT END},
    {COUNT, START ROOT, "01 18000000 0000"},
    {COUNT, START ROOT "08000000 ffff 01", "01 18000000 0000"},
    {COUNT, START ROOT "00000000 0000 0000", "02 18000000 0000"},
    /* roots with the numbers of Heron's rule, one for each step, of which the last is the root; 4096 squared is 2^24 */
    {EVALUATE, "0100 00000000 " EVERY_ROOT, ACCEPTED "00000000" EXACT(0)},
    {EVALUATE, "0100 ffffff00 " EVERY_ROOT, ACCEPTED "ffffff00" ROUNDED(2)},      /* 16777216, 16777215 */
    {EVALUATE, "0100 03000000 " EVERY_ROOT, ACCEPTED "b61b0000" ROUNDED(3)},      /* 8192, 7168, 7094 */
    {EVALUATE, "0100 02000000 " EVERY_ROOT, ACCEPTED "a0160000" ROUNDED(4)},      /* 8192, 6144, 5802, 5792 */
    {EVALUATE, "0100 01000000 " EVERY_ROOT, ACCEPTED "00100000" EXACT(5)},      /* 8192, 5120, 4198, 4097, 4096 */
    {EVALUATE, "0100 01100000 " EVERY_ROOT, ACCEPTED "1f000400" ROUNDED(6)},      /* 524288, 327696, 268726, 262255, 262176, 262175 */
    /* the most: v is 33554433 squared less one, and they are 67108864, 41943040, 34393293, 33564662, 33554434, 33554433, 33554432 */
    {EVALUATE, "0100 04000004 " EVERY_ROOT, ACCEPTED "00000002" ROUNDED(7)},
    {DOUBLE, "0100 0000001000001040 " EVERY_ROOT, ACCEPTED "0000000000000040" ROUNDED(7)},
    {DOUBLE, "0100 0000000000000040 " EVERY_ROOT, ACCEPTED "000000609ea0f63f" ROUNDED(5)},
    {DOUBLE, "0100 0000000000000080 " EVERY_ROOT, ACCEPTED "0000000000000000" EXACT(0)},    /* -0.0 */
    /* refused by 10, 13 and 11; and a formula of another kind */
    {EVALUATE, "0100 ffffffff " EVERY_ROOT, "0a 00000000 00000000" NEITHER},
    {DOUBLE, "0100 000000000000f0bf " EVERY_ROOT, "0a 00000000 0000000000000000" NEITHER},
    {DOUBLE, "0100 000000000000f87f " EVERY_ROOT, "0d 00000000 0000000000000000" NEITHER},
    {EVALUATE, "0200 01000000 " EVERY_ROOT, "0b 00000000 00000000" NEITHER},
    {EVALUATE, "0100 00008000 " ODD, ACCEPTED AT_HALF ROUNDED(0)},
    {DOUBLE, "0100 000000000000e03f " ODD, ACCEPTED "000000c0aaaade3f" ROUNDED(0)},
    /* marks. A step by 1, by 1/2 and by 0; nothing is multiplied; of two products only the first is rounded, 1/2, so 1 */
    {EVALUATE, "0100 00000001 " STEP_BY_X, ACCEPTED "01000000" EXACT(0)},
    {EVALUATE, "0100 00008000 " STEP_BY_X, ACCEPTED "01000000" ROUNDED(0)},
    {EVALUATE, "0100 000080ff " STEP_BY_X, ACCEPTED "ffffffff" ROUNDED(0)},
    {EVALUATE, "0100 00000000 " STEP_BY_X, ACCEPTED "00000000" EXACT(0)},
    {EVALUATE, "0100 01000000 " NINE_STEPS, ACCEPTED "09000000" EXACT(0)},
    {EVALUATE, "0100 00008000 " ALONE("1c", "10", "05000000 01000000 01000000 "), ACCEPTED "06000000" ROUNDED(0)},
    /* 2 and 3 steps over 2; one and half a step over the same, two roundings that cancel */
    {EVALUATE, "0100 02000000 " X_BY_TWO, ACCEPTED "01000000" EXACT(0)},
    {EVALUATE, "0100 03000000 " X_BY_TWO, ACCEPTED "02000000" ROUNDED(0)},
    {EVALUATE, "0100 fdffffff " X_BY_TWO, ACCEPTED "feffffff" ROUNDED(0)},
    {EVALUATE, "0100 00000001 " OVER_ITSELF, ACCEPTED "00000001" EXACT(0)},
    {EVALUATE, "0100 00008000 " OVER_ITSELF, ACCEPTED "00000001" ROUNDED(0)},
    {EVALUATE, "0100 02000000 " X_BY_TWO_AGAIN, ACCEPTED "01000000" EXACT(0)},
    {EVALUATE, "0100 03000000 " X_BY_TWO_AGAIN, ACCEPTED "02000000" ROUNDED(0)},
    /* 4096 steps squared are 2^24, so s is a step; at 4097 it is 8193/2^24 more, and is rounded to a step. Mode 1 uses it, and so does
       mode 2 from depth 2 on, if only by 0; at depth 1 it does not */
    {EVALUATE, "0100 00100000 " FRACTION("01"), ACCEPTED "01000000" EXACT(0)},
    {EVALUATE, "0100 01100000 " FRACTION("01"), ACCEPTED "01000000" ROUNDED(0)},
    {EVALUATE, "0100 01100000 " FRACTION("00"), ACCEPTED "01100000" EXACT(0)},
    {EVALUATE, "0100 01100000 " FRACTION("02"), ACCEPTED "01100000" EXACT(0)},
    {EVALUATE, "0100 00100000 " DEEPER, ACCEPTED "00100000" EXACT(0)},
    {EVALUATE, "0100 01100000 " DEEPER, ACCEPTED "01100000" ROUNDED(0)},
    /* odd and even formulas use s from two coefficients on, if only by 0; the last product of an odd one, 1/2 */
    {EVALUATE, "0100 01100000 " ODD_ONE, ACCEPTED "01100000" EXACT(0)},
    {EVALUATE, "0100 00100000 " ODD_TWO, ACCEPTED "00100000" EXACT(0)},
    {EVALUATE, "0100 01100000 " ODD_TWO, ACCEPTED "01100000" ROUNDED(0)},
    {EVALUATE, "0100 00008000 " ODD_STEP, ACCEPTED "01000000" ROUNDED(0)},
    {EVALUATE, "0100 01100000 " EVEN_ONE, ACCEPTED "09000000" EXACT(0)},
    {EVALUATE, "0100 00100000 " EVEN_TWO, ACCEPTED "09000000" EXACT(0)},
    {EVALUATE, "0100 01100000 " EVEN_TWO, ACCEPTED "09000000" ROUNDED(0)},
    /* roots of n squared are n times 4096, exactly: of 2, of 4096 and of 46340, which has the largest square that is a word, with
       what is beside that; the numbers to each of these three are 268435456, 201323840, 190137959, 189808925 and the root */
    {EVALUATE, "0100 04000000 " EVERY_ROOT, ACCEPTED "00200000" EXACT(5)},      /* 16384, 10240, 8396, 8194, 8192 */
    {EVALUATE, "0100 00000001 " EVERY_ROOT, ACCEPTED "00000001" EXACT(5)},      /* 33554432, 20971520, 17196646, 16782330, 16777216 */
    {EVALUATE, "0100 0fa8fe7f " EVERY_ROOT, ACCEPTED "ff3f500b" ROUNDED(5)},
    {EVALUATE, "0100 10a8fe7f " EVERY_ROOT, ACCEPTED "0040500b" EXACT(5)},
    {EVALUATE, "0100 11a8fe7f " EVERY_ROOT, ACCEPTED "0040500b" ROUNDED(5)},
    /* the door: 1, a bit more and a bit less; a step and half of one; the smallest double, and minus 0; what does not use it, too */
    {DOUBLE, "0100 000000000000f03f " X_ITSELF, ACCEPTED "000000000000f03f" EXACT(0)},
    {DOUBLE, "0100 ffffffffffffef3f " X_ITSELF, ACCEPTED "000000000000f03f" ROUNDED(0)},
    {DOUBLE, "0100 000000000000f0bf " X_ITSELF, ACCEPTED "000000000000f0bf" EXACT(0)},
    {DOUBLE, "0100 010000000000f0bf " X_ITSELF, ACCEPTED "000000000000f0bf" ROUNDED(0)},
    {DOUBLE, "0100 000000000000703e " X_ITSELF, ACCEPTED "000000000000703e" EXACT(0)},
    {DOUBLE, "0100 000000000000603e " X_ITSELF, ACCEPTED "000000000000703e" ROUNDED(0)},
    {DOUBLE, "0100 0100000000000000 " X_ITSELF, ACCEPTED "0000000000000000" ROUNDED(0)},
    {DOUBLE, "0100 0000000000000080 " X_ITSELF, ACCEPTED "0000000000000000" EXACT(0)},
    {DOUBLE, "0100 000000000000f03f " NINE_STEPS, ACCEPTED "000000000000a23e" EXACT(0)},
    {DOUBLE, "0100 ffffffffffffef3f " NINE_STEPS, ACCEPTED "000000000000a23e" ROUNDED(0)},
    {DOUBLE, "0100 000000000000e03f " STEP_BY_X, ACCEPTED "000000000000703e" ROUNDED(0)},
    {DOUBLE, "0100 000000000000d03f " EVERY_ROOT, ACCEPTED "000000000000e03f" EXACT(5)},    /* a quarter; half of those of one */
    {DOUBLE, "0100 010000000000d03f " EVERY_ROOT, ACCEPTED "000000000000e03f" ROUNDED(5)},
    /* x itself at angles, of which a step has 64: in each quarter, and 4097 steps; where s is used that is rounded */
    {SINE, "0100 40000000 " ODD_ONE, ACCEPTED "01000000" EXACT(0)},
    {SINE, "0100 3f000000 " ODD_ONE, ACCEPTED "01000000" ROUNDED(0)},
    {SINE, "0100 41000000 " ODD_ONE, ACCEPTED "01000000" ROUNDED(0)},
    {SINE, "0100 40000040 " ODD_ONE, ACCEPTED "ffffff00" EXACT(0)},
    {SINE, "0100 41000040 " ODD_ONE, ACCEPTED "ffffff00" ROUNDED(0)},
    {SINE, "0100 40000080 " ODD_ONE, ACCEPTED "ffffffff" EXACT(0)},
    {SINE, "0100 41000080 " ODD_ONE, ACCEPTED "ffffffff" ROUNDED(0)},
    {SINE, "0100 c0ffffff " ODD_ONE, ACCEPTED "ffffffff" EXACT(0)},
    {SINE, "0100 ffffffff " ODD_ONE, ACCEPTED "00000000" ROUNDED(0)},
    {SINE, "0100 40000400 " ODD_ONE, ACCEPTED "01100000" EXACT(0)},
    {SINE, "0100 40000400 " ODD_TWO, ACCEPTED "01100000" ROUNDED(0)},
    {COSINE, "0100 40000000 " ODD_ONE, ACCEPTED "ffffff00" EXACT(0)},
    {COSINE, "0100 41000000 " ODD_ONE, ACCEPTED "ffffff00" ROUNDED(0)},
    {COSINE, "0100 400004c0 " ODD_ONE, ACCEPTED "01100000" EXACT(0)},
    {COSINE, "0100 400004c0 " ODD_TWO, ACCEPTED "01100000" ROUNDED(0)},
    /* x - x^3/6 at angles */
    {SINE, "0100 00000000 " ODD, ACCEPTED "00000000" EXACT(0)},
    {SINE, "0100 00000040 " ODD, ACCEPTED AT_ONE EXACT(0)},                     /* a quarter: f becomes 2^30 */
    {SINE, "0100 00000080 " ODD, ACCEPTED "00000000" EXACT(0)},
    {SINE, "0100 000000c0 " ODD, ACCEPTED AT_ONE_NEGATED EXACT(0)},
    {SINE, "0100 00000020 " ODD, ACCEPTED AT_HALF ROUNDED(0)},                    /* the middle of each quarter */
    {SINE, "0100 00000060 " ODD, ACCEPTED AT_HALF ROUNDED(0)},
    {SINE, "0100 000000a0 " ODD, ACCEPTED AT_HALF_NEGATED ROUNDED(0)},
    {SINE, "0100 000000e0 " ODD, ACCEPTED AT_HALF_NEGATED ROUNDED(0)},
    {SINE, "0100 1f000000 " ODD, ACCEPTED "00000000" ROUNDED(0)},                 /* 31/64, and the tie 32/64 */
    {SINE, "0100 20000000 " ODD, ACCEPTED "01000000" ROUNDED(0)},
    {SINE, "0100 60000000 " ODD, ACCEPTED "02000000" ROUNDED(0)},                 /* 96/64 */
    {SINE, "0100 e0ffff7f " ODD, ACCEPTED "01000000" ROUNDED(0)},                 /* 32 before each half turn, and behind the first */
    {SINE, "0100 e0ffffff " ODD, ACCEPTED "ffffffff" ROUNDED(0)},
    {SINE, "0100 20000080 " ODD, ACCEPTED "ffffffff" ROUNDED(0)},
    {SINE, "0100 e0ffff3f " ODD, ACCEPTED AT_ONE ROUNDED(0)},                     /* 32 before and behind a quarter: one less half a step */
    {SINE, "0100 20000040 " ODD, ACCEPTED AT_ONE ROUNDED(0)},
    {COSINE, "0100 00000000 " ODD, ACCEPTED AT_ONE EXACT(0)},
    {COSINE, "0100 00000040 " ODD, ACCEPTED "00000000" EXACT(0)},
    {COSINE, "0100 00000080 " ODD, ACCEPTED AT_ONE_NEGATED EXACT(0)},
    {COSINE, "0100 000000c0 " ODD, ACCEPTED "00000000" EXACT(0)},               /* the sum wraps */
    {COSINE, "0100 200000c0 " ODD, ACCEPTED "01000000" ROUNDED(0)},
    {COSINE, "0100 000000e0 " ODD, ACCEPTED AT_HALF ROUNDED(0)},
    {SINE, "0100 00000000 " ODD_FROM("01000000 ", "00000001 "), NO_SINE},
    {SINE, "0100 00000000 " ODD_FROM("00000000 ", "ffffff00 "), NO_SINE},
    {SINE, "0100 00000080 " ODD_FROM("00000080 ", "00000001 "), "06 08000000 00000000" NEITHER},
    {SINE, "0100 00000000 " EVEN, NO_SINE},
    {COSINE, "0100 00000000 " START ROOT END, NO_SINE},
    {SINE, "0200 00000000 " EVEN, "0b 00000000 00000000" NEITHER},
    {COSINE, "0100 00000000 " EVEN "00", "09 28000000 00000000" NEITHER},
    /* a blank formula: every function gives 14 at its record, before 9, 11, 13, 10 and 15 */
    {COUNT, BLANK, IS_BLANK "0000"},
    {COUNT, BLANK "00", IS_BLANK "0000"},
    {FORMULA, "0100 " BLANK, IS_BLANK NO_FIELDS},
    {EVALUATE, "0100 00000000 " BLANK, IS_BLANK "00000000" NEITHER},
    {EVALUATE, "0200 01000001 " BLANK, IS_BLANK "00000000" NEITHER},
    {DOUBLE, "0100 0000000000000000 " BLANK, IS_BLANK "0000000000000000" NEITHER},
    {DOUBLE, "0200 000000000000f87f " BLANK, IS_BLANK "0000000000000000" NEITHER},
    {INTERVAL, "0100 " BLANK, IS_BLANK "0000000000000000 0000000000000000"},
    {SINE, "0100 00000000 " BLANK_ODD, IS_BLANK "00000000" NEITHER},
    {COSINE, "0200 00000000 " BLANK_ODD, IS_BLANK "00000000" NEITHER},
    {SINE, "0100 00000000 " BLANK, IS_BLANK "00000000" NEITHER},
    /* of each kind, and with a step, of either sign, in one place, so that it is not; a root never is */
    {COUNT, ALONE("14", "10", "00000000 "), IS_BLANK "0000"},
    {COUNT, ALONE("14", "10", "ffffffff "), ACCEPTED "0100"},
    {COUNT, ALONE("50", "10", FIFTEEN_ZEROS "00000000 "), IS_BLANK "0000"},
    {COUNT, ALONE("50", "10", FIFTEEN_ZEROS "01000000 "), ACCEPTED "0100"},
    {COUNT, SERIES("10", "01000000 00000000 "), ACCEPTED "0100"},
    {COUNT, BLANK_ODD, IS_BLANK "0000"},
    {COUNT, SERIES("14", "00000000 ffffffff "), ACCEPTED "0100"},
    {COUNT, SERIES("15", "00000000 00000000 "), IS_BLANK "0000"},
    {COUNT, SERIES("15", "00000000 01000000 "), ACCEPTED "0100"},
    {COUNT, RATIONAL("00000000 00000000 00000001 "), IS_BLANK "0000"},
    {COUNT, RATIONAL("00000000 01000000 00000001 "), ACCEPTED "0100"},
    {COUNT, RATIONAL("ffffffff 00000000 00000001 "), ACCEPTED "0100"},
    {COUNT, DEPTH_1("00", "00000000 00000000 00000001 "), IS_BLANK "0000"},
    {COUNT, DEPTH_1("01", "00000000 00000000 00000001 "), IS_BLANK "0000"},
    {COUNT, DEPTH_1("02", "00000000 00000000 00000001 "), IS_BLANK "0000"},
    {COUNT, DEPTH_1("00", "00000000 ffffffff 00000001 "), ACCEPTED "0100"},
    {COUNT, DEPTH_1("00", "01000000 00000000 00000001 "), ACCEPTED "0100"},
    {COUNT, ALONE("28", "12", "0200 0200 00000000 00000000 00000001 000000ff 00000003 "), IS_BLANK "0000"},
    {COUNT, START ROOT_TO("00000000 ") END, ACCEPTED "0100"},
    /* what is nearly blank answers: a step by x^15, a step + 0 x, and minus a step by x, at one */
    {EVALUATE, "0100 00000001 " ALONE("50", "10", FIFTEEN_ZEROS "01000000 "), ACCEPTED "01000000" EXACT(0)},
    {EVALUATE, "0100 00000001 " DEPTH_1("00", "01000000 00000000 00000001 "), ACCEPTED "01000000" EXACT(0)},
    {EVALUATE, "0100 00000001 " DEPTH_1("00", "00000000 ffffffff 00000001 "), ACCEPTED "ffffffff" EXACT(0)},
    /* 14 before 8, of a divisor and of b1 that are 0; not blank, they give 8 */
    {COUNT, RATIONAL("00000000 00000000 00000000 "), IS_BLANK "0000"},
    {COUNT, RATIONAL("00000000 01000000 00000000 "), "08 08000000 0000"},
    {COUNT, DEPTH_1("00", "00000000 00000000 00000000 "), IS_BLANK "0000"},
    {COUNT, DEPTH_1("00", "01000000 00000000 00000000 "), "08 08000000 0000"},
    /* 14 before 7, of a divisor M + M x and where S is no word; not blank, they give 7 */
    {COUNT, ALONE("20", "11", "0100 0200 00000000 ffffff7f ffffff7f "), IS_BLANK "0000"},
    {COUNT, ALONE("20", "11", "0100 0200 01000000 ffffff7f ffffff7f "), "07 08000000 0000"},
    {COUNT, WIDE("14", "14", "00000000 "), IS_BLANK "0000"},
    {COUNT, WIDE("14", "15", "00000000 "), IS_BLANK "0000"},
    {COUNT, WIDE("14", "15", "01000000 "), "07 08000000 0000"},
    {COUNT, WIDE("20", "12", "0100 0100 00000000 00000000 00000001 "), IS_BLANK "0000"},
    {COUNT, WIDE("20", "12", "0100 0100 00000000 01000000 00000001 "), "07 08000000 0000"},
    /* 6 before 14: lo above hi, mode 3, and what is no word, also where only other words make the formula blank */
    {COUNT, START "14000000 1000 0100 01000000 00000000 00000000 " END, "06 08000000 0000"},
    {COUNT, DEPTH_1("03", "00000000 00000000 00000001 "), "06 08000000 0000"},
    {COUNT, SERIES("10", "00000000 00000080 "), "06 08000000 0000"},
    {COUNT, RATIONAL("00000000 00000000 00000080 "), "06 08000000 0000"},
    {COUNT, DEPTH_1("00", "00000000 00000000 00000080 "), "06 08000000 0000"},
    /* 5, 4, 2 and 1 before 14 */
    {COUNT, SHEET_OF("02", RUN("02")), "0e 18000000 0000"},
    {COUNT, SHEET_OF("02", RUN("01")), "05 18000000 0000"},
    {COUNT, SHEET_OF("01", RUN("02")), "04 18000000 0000"},
    {COUNT, ALONE("19", "10", "00000000 00000000 00"), "02 08000000 0000"},
    {COUNT, START "18000000 1000 0100 000000ff 00000001 00000000 000000", "01 08000000 0000"},
    /* the record writer: 14, whatever stands past the last word, after 3 and 2, before 8 and 12 */
    {RECORD, UNROOMED("10", "0100 0000 0000 ", "00000000 01000000 "), "0e" NONE},
    {RECORD, UNROOMED("10", "0200 0000 0000 ", "00000000 01000000 "), "0c" NONE},
    {RECORD, UNROOMED("14", "1000 0000 0000 ", "00000000 00000000 "), "0e" NONE},
    {RECORD, UNROOMED("15", "1000 0000 0000 ", "00000000 00000000 "), "0e" NONE},
    {RECORD, UNROOMED("11", "0100 0100 0000 ", "00000000 00000001 "), "0e" NONE},
    {RECORD, UNROOMED("11", "0100 0100 0000 ", "00000000 00000000 "), "0e" NONE},
    {RECORD, UNROOMED("11", "0100 0100 0000 ", "01000000 00000000 "), "08" NONE},
    {RECORD, UNROOMED("12", "0c00 0000 0200 ", "00000000 00000000 "), "0e" NONE},
    {RECORD, UNROOMED("12", "0c00 0000 0200 ", "00000000 01000000 "), "08" NONE},
    {RECORD, UNROOMED("12", "0c00 0000 0300 ", "00000000 00000000 "), "06" NONE},
    {RECORD, UNROOMED("10", "0000 0000 0000 ", "00000000 00000000 "), "02" NONE},
    {RECORD, UNROOMED("01", "0100 0000 0000 ", "00000000 00000000 "), "03" NONE},
    {RECORD, UNROOMED("13", "0000 0000 0000 ", "00000000 00000000 "), "06" NONE},             /* a root from -1 */
    /* the sheet writer: 14 at the record's place in the new sheet, after 5, before 12; and the three bytes that are lent stay */
    {SHEET, "0000 " RUN("02"), "0e 18000000 00000000"},
    {SHEET, "0000 " RUN("01"), "05 18000000 00000000"},
    {SHEET, "0300 14000000 1500 0100 000000ff 00000001 00000000", "0e 08000000 00000000 0d141b"},
};

static void by_hand(void) {
    unsigned long count = sizeof rows / sizeof rows[0];
    for (unsigned long i = 0; i < count; i++) {
        size_t n = from_hex(row_question, rows[i].asked), length = from_hex(row_answer, rows[i].answered);
        compare(BY_HAND, i, rows[i].question, row_question, n, row_answer, length);
    }
}

/* ---- the vectors */
static uint8_t *whole_file(const char *name, size_t *length) {
    FILE *file = fopen(name, "rb");
    uint8_t *all = NULL;
    size_t room = 0, n;
    *length = 0;
    if (!file) return NULL;
    do {
        if (*length == room) all = realloc(all, room += 1 << 22);
        n = fread(all + *length, 1, room - *length, file);
        *length += n;
    } while (n > 0);
    fclose(file);
    return all;
}

/* One vector: its length, or 0 if it is broken off or no vector. */
static size_t one_vector(unsigned long number, const uint8_t *v, size_t left) {
    if (left < 3) return 0;
    int question = v[0];
    size_t n = get(v + 1, 2);
    if (question < COUNT || question >= GROUPS || n < least[question] || left < 3 + n + 2) return 0;
    size_t length = get(v + 3 + n, 2);
    if (left < 3 + n + 2 + length) return 0;
    compare(question, number, question, v + 3, n, v + 3 + n + 2, length);
    return 3 + n + 2 + length;
}

static int all_vectors(const uint8_t *all, size_t length) {
    unsigned long number = 0;
    for (size_t at = 0; at < length; number++) {
        size_t n = one_vector(number, all + at, length - at);
        if (n == 0) {
            printf("vector %lu is broken\n", number);
            return 0;
        }
        at += n;
    }
    return 1;
}

int main(int count, char **words) {
    size_t length = 0;
    uint8_t *all = count == 2 ? whole_file(words[1], &length) : NULL;
    if (!all) {
        printf("usage: cases FILE-OF-VECTORS\n");
        return 2;
    }
    by_hand();
    int good = all_vectors(all, length);
    for (int group = 0; group < GROUPS; group++) {
        printf("%s: %lu of %lu agree\n", names[group], agreed[group], asked[group]);
        good &= asked[group] > 0 && agreed[group] == asked[group];
    }
    return !good;
}
