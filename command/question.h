/* A question to a formula of a sheet, as `ask`, `sine` and `cosine` are called with it, and how its answers are told. */
#ifndef QUESTION_H
#define QUESTION_H
#include <stdint.h>
#include "sheet_file.h"

/* The options, as bits: --words, for answers as words; --steps, for the number of steps behind each; --exact, for whether each is
   exact or rounded. */
enum { WORDS = 1, STEPS = 2, EXACT = 4 };

/* A call's words, its options apart. */
typedef struct {
    const char *verb;
    int options, count;
    char **words;                      /* file, number, arguments or angles */
    uint16_t number;
} question;

enum { FIRST_ARGUMENT = 2 };           /* where they begin */

/* Takes the options out of the words behind a verb, which has those of `has`, and judges the formula's number; false, and told,
   for a wrong call. */
int understood(question *q, const char *verb, int has, int count, char **words);

/* Each tells of a wrong call, and gives false: a word and why it is wrong, or what is missing. */
int wrong(const question *q, const char *text, const char *why);
int missing(const question *q, const char *what);

/* Prints a word as a decimal, or with WORDS as it is. */
void show(const question *q, int32_t word);

/* Each tells on both outputs what is not answered, as the listing says it and explained, and gives the status 1. `argument` is
   the one that it is for, or NULL where it is for none. */
int unread(const question *q, const sheet_file *sheet);
int refused(const question *q, const char *argument, uint32_t number, uint64_t place);

/* Prints the answer's line, or tells the refusal; gives the status. Where what was typed was not taken exactly, the answer to it is
   rounded too. */
int answered(const question *q, const char *argument, int exactly, vp_worked answer);
#endif
