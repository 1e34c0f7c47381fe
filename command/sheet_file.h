/* A sheet as the programs take it: at most 8,192 bytes of a file, or of standard input. */
#ifndef SHEET_FILE_H
#define SHEET_FILE_H
#include <stdint.h>
#include <stdio.h>
#include "valvepigeon.h"

enum { MOST_BYTES = 8192 };

typedef enum { READ, TOO_LONG, UNREADABLE } reading;

typedef struct {
    uint8_t bytes[MOST_BYTES + 1];
    size_t length;
    reading reading;
    int fault;                         /* where it is unreadable, the system's number for why */
} sheet_file;

/* Reads the file of that name; "-" is standard input. */
void read_sheet(sheet_file *sheet, const char *name);

/* Prints what a person calls the file, between two other texts. It stays on one line: '?' stands for a control character. */
void print_name(FILE *to, const char *before, const char *name, const char *after);

/* Each prints why there is no answer, and what to do, up to the end of a line. */
void explain_unread(FILE *to, reading reading, int fault);
void explain_refused(FILE *to, uint32_t refused, uint64_t place);
#endif
