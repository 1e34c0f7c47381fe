/* A question to a formula of a sheet: its words, and how its answers are told. */
#include <stdlib.h>
#include <string.h>
#include "decimal.h"
#include "question.h"

int wrong(const question *q, const char *text, const char *why) {
    fprintf(stderr, "valvepigeon: %s: '%s' %s\n", q->verb, text, why);
    return 0;
}

int missing(const question *q, const char *what) {
    fprintf(stderr, "valvepigeon: %s: %s is missing; see 'valvepigeon %s --help'\n", q->verb, what, q->verb);
    return 0;
}

static int number_from(const char *text, uint16_t *number) {
    size_t length = strlen(text);
    if (length == 0 || length > 5 || strspn(text, "0123456789") != length) return 0;
    unsigned long value = strtoul(text, NULL, 10);
    *number = (uint16_t)value;
    return value <= UINT16_MAX;
}

/* The option of that name, or 0. */
static int option_from(const char *text) {
    if (strcmp(text, "--words") == 0) return WORDS;
    if (strcmp(text, "--steps") == 0) return STEPS;
    return strcmp(text, "--exact") == 0 ? EXACT : 0;
}

static int no_option(const question *q, const char *text, int has) {
    return wrong(q, text, has & STEPS ? "is no option of it; there are --words, --steps and --exact"
                                      : "is no option of it; there are --words and --exact");
}

int understood(question *q, const char *verb, int has, int count, char **words) {
    *q = (question){.verb = verb, .words = words};
    for (int i = 0; i < count; i++) {
        int option = option_from(words[i]) & has;
        if (option) q->options |= option;
        else if (strncmp(words[i], "--", 2) == 0) return no_option(q, words[i], has);
        else words[q->count++] = words[i];
    }
    if (q->count < FIRST_ARGUMENT) return missing(q, "FILE NUMBER");
    return number_from(words[1], &q->number) || wrong(q, words[1], "is no formula's number: these are 0 to 65535");
}

void show(const question *q, int32_t word) {
    char text[DECIMAL_ROOM];
    decimal_from(word, text);
    if (q->options & WORDS) printf("%d", word);
    else printf("%s", text);
}

int unread(const question *q, const sheet_file *sheet) {
    if (sheet->reading == TOO_LONG) printf("too long\n");
    print_name(stderr, "valvepigeon: ", q->words[0], ": ");
    explain_unread(stderr, sheet->reading, sheet->fault);
    return 1;
}

int refused(const question *q, const char *argument, uint32_t number, uint64_t place) {
    printf("refused %u at %lu\n", number, (unsigned long)place);
    print_name(stderr, "valvepigeon: ", q->words[0], "");
    fprintf(stderr, ", formula %u", q->number);
    if (argument) fprintf(stderr, " at %s", argument);
    fprintf(stderr, ": ");
    explain_refused(stderr, number, place);
    return 1;
}

int answered(const question *q, const char *argument, int exactly, vp_worked answer) {
    if (answer.refused) return refused(q, argument, answer.refused, answer.place);
    show(q, answer.word);
    if (q->options & STEPS) printf(" %u", answer.steps);
    if (q->options & EXACT) printf(" %s", exactly && answer.exact ? "exact" : "rounded");
    putchar('\n');
    return 0;
}
