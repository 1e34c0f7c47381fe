/* `ask`: what a formula of a sheet answers, a line for each argument; without an argument, the formula's fields. */
#include "decimal.h"
#include "question.h"
#include "verbs.h"

static int arguments_understood(const question *q) {
    int32_t word;
    int exact;
    if (q->count == FIRST_ARGUMENT && q->options & STEPS) return missing(q, "an ARGUMENT for --steps");
    if (q->count == FIRST_ARGUMENT && q->options & EXACT) return missing(q, "an ARGUMENT for --exact");
    for (int i = FIRST_ARGUMENT; i < q->count; i++)
        if (!word_from(q->words[i], &word, &exact))
            return wrong(q, q->words[i], "is no argument: write a decimal as 0.5 or a word as 8388608w");
    return 1;
}

static void show_named(const question *q, const char *name, int index, int32_t word) {
    printf("%s%d ", name, index);
    show(q, word);
    putchar('\n');
}

static void show_words(const question *q, const vp_fields *f) {
    const int32_t *word = f->words;
    if (f->kind == VP_POLYNOMIAL || f->kind == VP_ODD || f->kind == VP_EVEN) {
        printf("coefficients %u\n", f->p);
        for (int i = 0; i < f->p; i++) show_named(q, "c", i, *word++);
    } else if (f->kind == VP_RATIONAL) {
        printf("coefficients %u over %u\n", f->p, f->q);
        for (int i = 0; i < f->p; i++) show_named(q, "n", i, *word++);
        for (int i = 0; i < f->q; i++) show_named(q, "d", i, *word++);
    } else if (f->kind == VP_FRACTION) {
        printf("mode %u\ndepth %u\n", f->mode, f->p);
        show_named(q, "b", 0, *word++);
        for (int i = 1; i <= f->p; i++) {
            show_named(q, "a", i, *word++);
            show_named(q, "b", i, *word++);
        }
    }
}

static const char *kind_name(uint16_t kind) {
    switch (kind) {
    case VP_POLYNOMIAL: return "polynomial";
    case VP_RATIONAL: return "rational";
    case VP_FRACTION: return "fraction";
    case VP_ODD: return "odd";
    case VP_EVEN: return "even";
    default: return "root";
    }
}

static void show_fields(const question *q, const vp_fields *f) {
    printf("number %u\nkind %s\ninterval ", f->number, kind_name(f->kind));
    show(q, f->lo);
    putchar(' ');
    show(q, f->hi);
    putchar('\n');
    show_words(q, f);
}

static int answer_all(const question *q, const sheet_file *sheet) {
    int status = 0, exact;
    for (int i = FIRST_ARGUMENT; i < q->count; i++) {
        int32_t argument;
        word_from(q->words[i], &argument, &exact);
        status |= answered(q, q->words[i], exact, vp_evaluate(sheet->bytes, sheet->length, q->number, argument));
    }
    return status;
}

int ask(int count, char **words) {
    static sheet_file sheet;
    question q;
    if (!understood(&q, "ask", WORDS | STEPS | EXACT, count, words) || !arguments_understood(&q)) return 2;
    read_sheet(&sheet, q.words[0]);
    if (sheet.reading != READ) return unread(&q, &sheet);
    vp_found found = vp_formula(sheet.bytes, sheet.length, q.number);
    if (found.refused) return refused(&q, NULL, found.refused, found.place);
    if (q.count > FIRST_ARGUMENT) return answer_all(&q, &sheet);
    show_fields(&q, &found.fields);
    return 0;
}
