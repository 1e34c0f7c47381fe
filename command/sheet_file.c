/* Reading a sheet's file, and saying what came of it. */
#include <errno.h>
#include <string.h>
#include "sheet_file.h"

void read_sheet(sheet_file *sheet, const char *name) {
    FILE *file = strcmp(name, "-") == 0 ? stdin : fopen(name, "rb");
    sheet->length = 0;
    sheet->reading = READ;
    if (file) sheet->length = fread(sheet->bytes, 1, sizeof sheet->bytes, file);
    if (!file || ferror(file)) {
        sheet->fault = errno;
        sheet->reading = UNREADABLE;
    } else if (sheet->length > MOST_BYTES) {
        sheet->reading = TOO_LONG;
    }
    if (file && file != stdin) fclose(file);
}

void print_name(FILE *to, const char *before, const char *name, const char *after) {
    if (strcmp(name, "-") == 0) name = "standard input";
    fprintf(to, "%s", before);
    for (; *name; name++) fputc((unsigned char)*name < ' ' || *name == 127 ? '?' : *name, to);
    fprintf(to, "%s", after);
}

void explain_unread(FILE *to, reading reading, int fault) {
    if (reading == TOO_LONG)
        fprintf(to, "too long: no sheet has more than 8,192 bytes. This is another file, or several in one: fetch it again.\n");
    else
        fprintf(to, "unreadable: %s.\n", strerror(fault));
}

void explain_refused(FILE *to, uint32_t refused, uint64_t place) {
    fprintf(to, "refused %u at %lu: %s\n", refused, (unsigned long)place, vp_message(refused));
}
