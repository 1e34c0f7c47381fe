/* The library's functions in plain C, in one file, with the same signatures and structs, as an expert writes them for speed who may
   multiply 16 by 16 bits only: what the library is measured against. Nothing here is proved. It is for x86-64: words lie in the sheet's
   bytes as in memory. */
#include <string.h>
#include "plain.h"

#define MOST 2147483647u               /* the largest word */
#define QUARTER 0x40000000u            /* of a turn */
enum { PLACES = 24, ONE = 1 << PLACES, START = 1, END = 0xFFFF };
typedef long long wide;

static inline uint32_t u16(const uint8_t *p) { uint16_t v; memcpy(&v, p, 2); return v; }
static inline uint32_t u32(const uint8_t *p) { uint32_t v; memcpy(&v, p, 4); return v; }
static inline int32_t i32(const uint8_t *p) { return (int32_t)u32(p); }
static inline void put16(uint8_t *p, uint16_t v) { memcpy(p, &v, 2); }
static inline void put32(uint8_t *p, uint32_t v) { memcpy(p, &v, 4); }

/* The only multiplication but by constants: of 16 by 16 bits, as the library's. */
static inline uint32_t times(uint16_t a, uint16_t b) { return (uint32_t)a * b; }

/* a * b from halves, in the form that is the shortest with each compiler: clang recognises the two words of a product in sums of 32 bits,
   and makes a multiplication of each. */
static inline uint64_t long_times(uint32_t a, uint32_t b) {
    uint16_t a1 = a >> 16, a0 = a, b1 = b >> 16, b0 = b;
    uint32_t high = times(a1, b1), first = times(a1, b0), second = times(a0, b1), low = times(a0, b0);
#ifdef __clang__
    uint32_t carry = first + (low >> 16), last = second + (carry & 0xFFFF);
    uint32_t upper = high + (carry >> 16) + (last >> 16), lower = ((first + second) << 16) + low;
    return (uint64_t)upper << 32 | lower;
#else
    return ((uint64_t)high << 32) + (((uint64_t)first + second) << 16) + low;
#endif
}

/* Enough of a product to see its last PLACES bits: clang has the lower word apart. */
#ifdef __clang__
#define LAST_BITS(product) ((uint32_t)(product))
#else
#define LAST_BITS(product) (product)
#endif

static inline uint32_t size(int32_t x) { return x < 0 ? 0u - (uint32_t)x : (uint32_t)x; }

/* Arithmetic: of words, rounded to the nearest, a tie away from zero, and so by their sizes; of bounds, rounded upward. What is rounded off
   is joined to *loose: the last PLACES bits of that are 0 where nothing was. */
static inline wide product(int32_t a, int32_t b, uint64_t *loose) {
    uint64_t whole = long_times(size(a), size(b));
    wide n = (wide)((whole + ONE / 2) >> PLACES);
    *loose |= LAST_BITS(whole);
    return (a ^ b) < 0 ? -n : n;
}

/* The division rounds towards zero, so half of the divisor is added first, away from zero; all is doubled, for the half to be whole. Where
   nothing is rounded off, that half is left over. */
static inline wide quotient(int32_t a, int32_t d, uint64_t *loose) {
    wide e = d, half = (a ^ d) < 0 ? -e : e, n = (wide)a * (2 * ONE) + half;
    *loose |= n % (2 * e) != half;
    return n / (2 * e);
}

static inline uint64_t bound_product(uint32_t a, uint32_t b) { return (long_times(a, b) + (ONE - 1)) >> PLACES; }
static inline uint64_t bound_quotient(uint64_t g, uint64_t l) { return ((g << PLACES) + (l - 1)) / l; }

/* Admission: 0, or the refusal. `a` bounds the argument's size, `c` is where the coefficients stand. */

/* The bound of a polynomial with m coefficients, or a number above MOST; *second is the bound one step before (0 where m is 1). */
static inline uint64_t polynomial_bound(const uint8_t *c, uint32_t m, uint64_t a, uint64_t *second) {
    uint64_t b = size(i32(c + 4 * (m - 1)));
    *second = 0;
    for (uint32_t i = m - 1; i-- > 0;) {
        *second = b;
        b = size(i32(c + 4 * i)) + bound_product(b, a);
        if (b > MOST) return b;
    }
    return b;
}

/* An odd or even polynomial, which is one in the square of its argument. */
static inline uint32_t admit_square(const uint8_t *c, uint32_t m, uint64_t a, int odd) {
    uint64_t second, s = bound_product(a, a);
    if (s > MOST) return VP_RANGE_LEFT;
    uint64_t b = polynomial_bound(c, m, s, &second);
    return b > MOST || (odd && bound_product(b, a) > MOST) ? VP_RANGE_LEFT : 0;
}

static inline uint32_t admit_rational(const uint8_t *c, uint32_t p, uint32_t q, uint64_t a) {
    uint64_t second, top = polynomial_bound(c, p, a, &second);
    if (top > MOST) return VP_RANGE_LEFT;
    const uint8_t *d = c + 4 * p;
    if (polynomial_bound(d, q, a, &second) > MOST) return VP_RANGE_LEFT;
    uint64_t d0 = size(i32(d)), lost = q > 1 ? bound_product(second, a) : 0;
    if (d0 <= lost) return VP_DIVISOR_ZERO;
    return bound_quotient(top, d0 - lost) > MOST ? VP_RANGE_LEFT : 0;
}

static inline uint32_t admit_fraction(const uint8_t *c, uint32_t mode, uint32_t depth, uint64_t a) {
    uint64_t s = a;
    if (mode) {
        s = bound_product(a, a);
        if (s > MOST) return VP_RANGE_LEFT;
    }
    uint64_t least = size(i32(c + 8 * depth));
    if (least < 1) return VP_DIVISOR_ZERO;
    for (uint32_t j = depth; j > 0; j--) {
        uint64_t g = bound_product(size(i32(c + 8 * j - 4)), mode == 2 && j == 1 ? a : s);
        if (g > MOST) return VP_RANGE_LEFT;
        uint64_t q = bound_quotient(g, least), b = size(i32(c + 8 * j - 8));
        if (b + q > MOST) return VP_RANGE_LEFT;
        if (j > 1) {
            if (b <= q) return VP_DIVISOR_ZERO;
            least = b - q;
        }
    }
    return 0;
}

/* Whether n values are all words; without an early exit, so that the compiler may look at several at a time. */
static inline int words(const uint8_t *p, uint32_t n) {
    uint32_t bad = 0;
    for (uint32_t i = 0; i < n; i++) bad |= u32(p + 4 * i) == 0x80000000u;
    return !bad;
}

/* Whether the first n coefficients, one or more, are all 0. Mostly the first is not. */
static inline int zeros(const uint8_t *c, uint32_t n) {
    if (u32(c)) return 0;
    while (--n) if (u32(c += 4)) return 0;
    return 1;
}

/* A formula's values: lo, hi, and n coefficients; m and q count them, or m is the depth. With six kinds clang has to be told to
   inline it. */
__attribute__((always_inline))
static inline uint32_t check_values(uint32_t kind, int32_t lo, int32_t hi, const uint8_t *c, uint32_t m, uint32_t q, uint32_t mode, uint32_t n) {
    if (lo == INT32_MIN || hi == INT32_MIN || !words(c, n) || lo > hi || mode > 2 || (kind == VP_ROOT && lo < 0)) return VP_WRONG_VALUE;
    uint64_t a = size(lo) > size(hi) ? size(lo) : size(hi), second;
    switch (kind) {
    case VP_POLYNOMIAL: return zeros(c, m) ? VP_BLANK_FORMULA : polynomial_bound(c, m, a, &second) > MOST ? VP_RANGE_LEFT : 0;
    case VP_RATIONAL: return zeros(c, m) ? VP_BLANK_FORMULA : admit_rational(c, m, q, a);
    case VP_FRACTION: return zeros(c, 2) ? VP_BLANK_FORMULA : admit_fraction(c, mode, m, a);
    default: return kind == VP_ROOT ? 0 : zeros(c, m) ? VP_BLANK_FORMULA : admit_square(c, m, a, kind == VP_ODD);
    }
}

/* A formula record, after `seen` others, the last of which has the number `last`. */
static inline uint32_t check_record(const uint8_t *r, uint32_t length, uint32_t kind, uint32_t seen, uint32_t count, uint32_t last) {
    uint32_t m = 0, q = 0, n = 0, mode = 0;
    const uint8_t *c = r + 16;
    switch (kind) {
    case VP_POLYNOMIAL: case VP_ODD: case VP_EVEN:
        if (length < 20 || length > 80 || length % 4) return VP_WRONG_LENGTH;
        n = m = (length - 16) / 4;
        break;
    case VP_RATIONAL:
        if (length < 20) return VP_WRONG_LENGTH;
        m = u16(r + 16), q = u16(r + 18);
        if (m - 1 > 11 || q - 1 > 11 || length != 20 + 4 * (m + q)) return VP_WRONG_LENGTH;
        n = m + q, c = r + 20;
        break;
    case VP_FRACTION:
        if (length < 24) return VP_WRONG_LENGTH;
        mode = u16(r + 16), m = u16(r + 18);
        if (m - 1 > 11 || length != 24 + 8 * m) return VP_WRONG_LENGTH;
        n = 2 * m + 1, c = r + 20;
        break;
    default:
        if (length != 16) return VP_WRONG_LENGTH;
    }
    if (seen >= count) return VP_WRONG_COUNT;
    if (seen && u16(r + 6) <= last) return VP_NUMBER_NOT_ABOVE;
    return check_values(kind, i32(r + 8), i32(r + 12), c, m, q, mode, n);
}

typedef struct { uint32_t refused, count; size_t place; } verdict;

/* A whole sheet; *found becomes the record with the number asked for, where there is one. */
static inline verdict check_sheet(const uint8_t *sheet, size_t n, uint32_t asked, const uint8_t **found) {
    size_t at = 0;
    uint32_t seen = 0, count = 0, last = 0;
#define REFUSE(number) return (verdict){number, 0, at}
    for (;;) {
        const uint8_t *r = sheet + at;
        if (n - at < 4) REFUSE(VP_CUT_SHORT);
        uint32_t length = u32(r);
        if (length < 8 || length > 120) REFUSE(VP_WRONG_LENGTH);
        if (n - at < length) REFUSE(VP_CUT_SHORT);
        uint32_t kind = u16(r + 4);
        if (at == 0) {
            if (kind != START) REFUSE(VP_WRONG_KIND);
            if (length != 8) REFUSE(VP_WRONG_LENGTH);
            count = u16(r + 6);
            if (count < 1 || count > 64) REFUSE(VP_WRONG_COUNT);
        } else if (kind >= VP_POLYNOMIAL && kind <= VP_EVEN) {
            uint32_t refused = check_record(r, length, kind, seen, count, last);
            if (refused) REFUSE(refused);
            last = u16(r + 6);
            if (last == asked) *found = r;
            seen++;
        } else if (kind == END) {
            if (length != 8) REFUSE(VP_WRONG_LENGTH);
            if (seen != count || u16(r + 6) != count) REFUSE(VP_WRONG_COUNT);
            at += length;
            return at == n ? (verdict){0, count, 0} : (verdict){VP_BYTES_AFTER_END, 0, at};
        } else REFUSE(VP_WRONG_KIND);
        at += length;
    }
#undef REFUSE
}

/* Evaluation, of an admitted record at an argument of its interval. A square that is not used rounds nothing off. */
static inline int32_t horner(const uint8_t *c, uint32_t n, int32_t x, uint64_t *loose) {
    int32_t t = i32(c + 4 * (n - 1));
    for (uint32_t i = n - 1; i-- > 0;) t = (int32_t)(i32(c + 4 * i) + product(t, x, loose));
    return t;
}

static inline uint32_t coefficients(const uint8_t *r) { return (u32(r) - 16) / 4; }
static inline int32_t polynomial(const uint8_t *r, int32_t x, uint64_t *loose) { return horner(r + 16, coefficients(r), x, loose); }

static inline int32_t even(const uint8_t *r, int32_t x, uint64_t *loose) {
    uint64_t square = 0;
    int32_t s = (int32_t)product(x, x, &square);
    if (coefficients(r) > 1) *loose |= square;
    return polynomial(r, s, loose);
}

static inline int32_t odd(const uint8_t *r, int32_t x, uint64_t *loose) { return (int32_t)product(even(r, x, loose), x, loose); }

static inline int32_t rational(const uint8_t *r, int32_t x, uint64_t *loose) {
    uint32_t p = u16(r + 16), q = u16(r + 18);
    int32_t n = horner(r + 20, p, x, loose), d = horner(r + 20 + 4 * p, q, x, loose);
    return (int32_t)quotient(n, d, loose);
}

static inline int32_t fraction(const uint8_t *r, int32_t x, uint64_t *loose) {
    uint32_t mode = u16(r + 16), depth = u16(r + 18);
    const uint8_t *c = r + 20;
    uint64_t square = 0;
    int32_t rest = mode ? (int32_t)product(x, x, &square) : x, first = mode == 1 ? rest : x, t = i32(c + 8 * depth);
    if (mode == 1 || depth > 1) *loose |= square;
    for (uint32_t j = depth; j > 0; j--) {
        int32_t g = (int32_t)product(i32(c + 8 * j - 4), j == 1 ? first : rest, loose);
        t = (int32_t)(i32(c + 8 * j - 8) + quotient(g, t, loose));
    }
    return t;
}

/* By Heron's rule, whose steps are added to *steps. The last division tells whether the root's square is v. */
static inline int32_t heron(int32_t x, uint16_t *steps, uint64_t *loose) {
    if (x == 0) return 0;
    uint64_t v = (uint64_t)x << PLACES, w = 1ULL << ((65 - __builtin_clzll(v)) / 2);
    for (;;) {
        uint64_t q = v / w, next = (w + q) / 2;
        ++*steps;
        if (w <= next) {
            *loose |= q != w || v % w;
            return (int32_t)w;
        }
        w = next;
    }
}

static inline int32_t answer(const uint8_t *r, int32_t x, uint16_t *steps, uint64_t *loose) {
    switch (u16(r + 4)) {
    case VP_POLYNOMIAL: return polynomial(r, x, loose);
    case VP_RATIONAL: return rational(r, x, loose);
    case VP_FRACTION: return fraction(r, x, loose);
    case VP_ODD: return odd(r, x, loose);
    case VP_EVEN: return even(r, x, loose);
    default: return heron(x, steps, loose);
    }
}

static inline uint16_t exact(uint64_t loose) { return !(loose & (ONE - 1)); }

/* The functions of valvepigeon.h. */
vp_counted plain_count(const uint8_t *sheet, size_t length) {
    const uint8_t *r = 0;
    verdict v = check_sheet(sheet, length, 65536, &r);
    return (vp_counted){v.refused, v.place, v.count};
}

vp_worked plain_evaluate(const uint8_t *sheet, size_t length, uint16_t number, int32_t argument) {
    const uint8_t *r = 0;
    verdict v = check_sheet(sheet, length, number, &r);
    if (v.refused) return (vp_worked){v.refused, v.place, 0, 0};
    if (!r) return (vp_worked){VP_NO_SUCH_FORMULA, 0, 0, 0};
    if (argument < i32(r + 8) || argument > i32(r + 12)) return (vp_worked){VP_ARGUMENT_OUTSIDE, 0, 0, 0};
    uint16_t steps = 0;
    uint64_t loose = 0;
    int32_t word = answer(r, argument, &steps, &loose);
    return (vp_worked){0, 0, word, steps, exact(loose)};
}

vp_shown plain_evaluate_double(const uint8_t *sheet, size_t length, uint16_t number, double argument) {
    const uint8_t *r = 0;
    verdict v = check_sheet(sheet, length, number, &r);
    if (v.refused) return (vp_shown){v.refused, v.place, 0, 0};
    if (!r) return (vp_shown){VP_NO_SUCH_FORMULA, 0, 0, 0};
    uint64_t b;
    memcpy(&b, &argument, 8);
    uint32_t e = b >> 52 & 0x7ff;
    if (e == 0x7ff) return (vp_shown){VP_NOT_FINITE, 0, 0, 0};
    if (e >= 1075 - PLACES) return (vp_shown){VP_ARGUMENT_OUTSIDE, 0, 0, 0};
    wide z = 0;
    uint64_t loose = b << 1 != 0;
    if (e >= 1022 - PLACES) {
        wide m = (wide)((b & 0xfffffffffffffULL) | 1ULL << 52);
        unsigned cut = 1075 - PLACES - e;
        loose = (m & ((1LL << cut) - 1)) != 0;
        z = (m + (1LL << (cut - 1))) >> cut;
        if (z > MOST) return (vp_shown){VP_ARGUMENT_OUTSIDE, 0, 0, 0};
        if (b >> 63) z = -z;
    }
    int32_t x = (int32_t)z;
    if (x < i32(r + 8) || x > i32(r + 12)) return (vp_shown){VP_ARGUMENT_OUTSIDE, 0, 0, 0};
    uint16_t steps = 0;
    int32_t word = answer(r, x, &steps, &loose);
    return (vp_shown){0, 0, word / (double)ONE, steps, exact(loose)};
}

/* Of the angle's bits the highest is the sign, the next says whether the quarter is run through backwards. */
static vp_worked sine(const uint8_t *sheet, size_t length, uint16_t number, uint32_t angle) {
    const uint8_t *r = 0;
    verdict v = check_sheet(sheet, length, number, &r);
    if (v.refused) return (vp_worked){v.refused, v.place, 0, 0};
    if (!r) return (vp_worked){VP_NO_SUCH_FORMULA, 0, 0, 0};
    if (u16(r + 4) != VP_ODD || i32(r + 8) > 0 || i32(r + 12) < ONE) return (vp_worked){VP_NO_SINE, 0, 0, 0};
    uint32_t f = angle & (QUARTER - 1);
    if (angle & QUARTER) f = QUARTER - f;
    uint64_t loose = (f & 63) != 0;
    int32_t y = odd(r, (int32_t)((f + 32) >> 6), &loose);
    return (vp_worked){0, 0, angle >> 31 ? -y : y, 0, exact(loose)};
}

vp_worked plain_sine(const uint8_t *sheet, size_t length, uint16_t number, uint32_t angle) {
    return sine(sheet, length, number, angle);
}

vp_worked plain_cosine(const uint8_t *sheet, size_t length, uint16_t number, uint32_t angle) {
    return sine(sheet, length, number, angle + QUARTER);
}

vp_ends plain_interval(const uint8_t *sheet, size_t length, uint16_t number) {
    const uint8_t *r = 0;
    verdict v = check_sheet(sheet, length, number, &r);
    if (v.refused) return (vp_ends){v.refused, v.place, 0, 0};
    if (!r) return (vp_ends){VP_NO_SUCH_FORMULA, 0, 0, 0};
    return (vp_ends){0, 0, i32(r + 8) / (double)ONE, i32(r + 12) / (double)ONE};
}

vp_found plain_formula(const uint8_t *sheet, size_t length, uint16_t number) {
    const uint8_t *r = 0;
    verdict v = check_sheet(sheet, length, number, &r);
    vp_found f;
    memset(&f, 0, sizeof f);
    if (v.refused) { f.refused = v.refused; f.place = v.place; return f; }
    if (!r) { f.refused = VP_NO_SUCH_FORMULA; return f; }
    vp_fields *g = &f.fields;
    g->kind = u16(r + 4), g->number = u16(r + 6), g->lo = i32(r + 8), g->hi = i32(r + 12);
    uint32_t bytes = u32(r), head = 16;
    if (g->kind == VP_RATIONAL) g->p = u16(r + 16), g->q = u16(r + 18), head = 20;
    else if (g->kind == VP_FRACTION) g->mode = u16(r + 16), g->p = u16(r + 18), head = 20;
    else g->p = (bytes - 16) / 4;
    memcpy(g->words, r + head, bytes - head);
    return f;
}

vp_written plain_write_record(vp_fields f, uint8_t *out, size_t room) {
    uint32_t n = 0, m = 0, q = 0, mode = 0, head = 16;
    switch (f.kind) {
    case VP_POLYNOMIAL: case VP_ODD: case VP_EVEN:
        if (f.p < 1 || f.p > 16) return (vp_written){VP_WRONG_LENGTH, 0, 0};
        n = m = f.p;
        break;
    case VP_RATIONAL:
        if (f.p < 1 || f.p > 12 || f.q < 1 || f.q > 12) return (vp_written){VP_WRONG_LENGTH, 0, 0};
        m = f.p, q = f.q, n = m + q, head = 20;
        break;
    case VP_FRACTION:
        if (f.p < 1 || f.p > 12) return (vp_written){VP_WRONG_LENGTH, 0, 0};
        m = f.p, mode = f.mode, n = 2 * m + 1, head = 20;
        break;
    case VP_ROOT:
        break;
    default:
        return (vp_written){VP_WRONG_KIND, 0, 0};
    }
    uint32_t refused = check_values(f.kind, f.lo, f.hi, (const uint8_t *)f.words, m, q, mode, n);
    if (refused) return (vp_written){refused, 0, 0};
    size_t length = head + 4 * n;
    if (room < length) return (vp_written){VP_BUFFER_TOO_SHORT, 0, 0};
    put32(out, (uint32_t)length), put16(out + 4, f.kind), put16(out + 6, f.number);
    put32(out + 8, (uint32_t)f.lo), put32(out + 12, (uint32_t)f.hi);
    if (f.kind == VP_RATIONAL) put16(out + 16, f.p), put16(out + 18, f.q);
    if (f.kind == VP_FRACTION) put16(out + 16, f.mode), put16(out + 18, f.p);
    memcpy(out + head, f.words, 4 * n);
    return (vp_written){0, 0, length};
}

static inline void put_end(uint8_t *p, uint16_t kind, uint16_t count) { put32(p, 8), put16(p + 4, kind), put16(p + 6, count); }

vp_written plain_write_sheet(const uint8_t *run, size_t n, uint8_t *out, size_t room) {
    size_t at = 0;
    uint32_t seen = 0, last = 0;
#define REFUSE(number) return (vp_written){number, at + 8, 0}
    if (n == 0) return (vp_written){VP_WRONG_COUNT, 0, 0};
    while (at < n) {
        const uint8_t *r = run + at;
        if (n - at < 4) REFUSE(VP_CUT_SHORT);
        uint32_t length = u32(r);
        if (length < 8 || length > 120) REFUSE(VP_WRONG_LENGTH);
        if (n - at < length) REFUSE(VP_CUT_SHORT);
        uint32_t kind = u16(r + 4);
        if (kind < VP_POLYNOMIAL || kind > VP_EVEN) REFUSE(VP_WRONG_KIND);
        uint32_t refused = check_record(r, length, kind, seen, 64, last);
        if (refused) REFUSE(refused);
        last = u16(r + 6), seen++, at += length;
    }
#undef REFUSE
    if (room < n + 16) return (vp_written){VP_BUFFER_TOO_SHORT, 0, 0};
    put_end(out, START, seen);
    memcpy(out + 8, run, n);
    put_end(out + 8 + n, END, seen);
    return (vp_written){0, 0, n + 16};
}
