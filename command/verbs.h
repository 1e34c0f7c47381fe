/* The verbs of the command that are C. Each ends with the command's status: 0 where everything was accepted or answered, 1 where
   not, 2 for a wrong call. */
#ifndef VERBS_H
#define VERBS_H
#include <stdio.h>

/* `check` of the files whose names a file has, each ended by a nought byte. */
int check(FILE *names);

/* Each of the words behind the verb. */
int ask(int count, char **words);
int sine(int count, char **words);
int cosine(int count, char **words);
#endif
