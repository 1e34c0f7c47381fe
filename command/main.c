/* The program behind the command's verbs but `list`, and behind what `list` says of a sheet that is not listed.

       verbs check                        the names of the files come by descriptor 3, each ended by a nought byte
       verbs ask [--words] [--steps] [--exact] FILE NUMBER ARGUMENT...
       verbs sine|cosine [--words] [--exact] FILE NUMBER ANGLE...
       verbs explain FILE LISTING...      the words of the listing program's line, 'refused 2 at 24' or 'too long' */
#define _POSIX_C_SOURCE 200809L
#include <stdlib.h>
#include <string.h>
#include "sheet_file.h"
#include "verbs.h"

static int explain(int count, char **words) {
    print_name(stderr, "valvepigeon: ", words[0], ": ");
    if (count == 5) explain_refused(stderr, (uint32_t)strtoul(words[2], NULL, 10), strtoul(words[4], NULL, 10));
    else explain_unread(stderr, TOO_LONG, 0);
    return 1;
}

static int verb(int count, char **words) {
    if (count > 0 && strcmp(words[0], "ask") == 0) return ask(count - 1, words + 1);
    if (count > 0 && strcmp(words[0], "sine") == 0) return sine(count - 1, words + 1);
    if (count > 0 && strcmp(words[0], "cosine") == 0) return cosine(count - 1, words + 1);
    if (count > 1 && strcmp(words[0], "explain") == 0) return explain(count - 1, words + 1);
    FILE *names = fdopen(3, "r");
    return names ? check(names) : 2;
}

int main(int count, char **words) {
    int status = verb(count - 1, words + 1);
    if (fflush(stdout) == 0 && !ferror(stdout)) return status;
    fprintf(stderr, "valvepigeon: the output could not be written: is the disk full?\n");
    return 1;
}
