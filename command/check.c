/* `check`: for each sheet a line that says whether it is accepted and, where not, why and what to do; then the counts. */
#define _POSIX_C_SOURCE 200809L
#include <errno.h>
#include <stdlib.h>
#include "sheet_file.h"
#include "verbs.h"

typedef struct {
    unsigned long accepted, refused, too_long, unreadable;
} tally;

static void unread(const sheet_file *sheet) {
    if (sheet->reading == UNREADABLE && sheet->fault == EISDIR)
        printf("unreadable: a folder, with no *.sheet file below it that can be read.\n");
    else
        explain_unread(stdout, sheet->reading, sheet->fault);
}

static void check_one(const char *name, tally *counts) {
    static sheet_file sheet;
    read_sheet(&sheet, name);
    print_name(stdout, "", name, ": ");
    if (sheet.reading != READ) {
        unread(&sheet);
        ++*(sheet.reading == TOO_LONG ? &counts->too_long : &counts->unreadable);
        return;
    }
    vp_counted answer = vp_count(sheet.bytes, sheet.length);
    if (answer.refused) explain_refused(stdout, answer.refused, answer.place);
    else printf("ok, %u formula%s\n", answer.count, answer.count == 1 ? "" : "s");
    ++*(answer.refused ? &counts->refused : &counts->accepted);
}

int check(FILE *names) {
    tally counts = {0, 0, 0, 0};
    char *name = NULL;
    size_t room = 0;
    while (getdelim(&name, &room, 0, names) > 0) check_one(name, &counts);
    free(name);
    unsigned long faults = counts.refused + counts.too_long + counts.unreadable;
    printf("%lu checked: %lu ok, %lu refused, %lu too long, %lu unreadable\n", counts.accepted + faults, counts.accepted,
           counts.refused, counts.too_long, counts.unreadable);
    return faults > 0 || counts.accepted == 0;
}
