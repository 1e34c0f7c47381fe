/* What the C here needs of <stdlib.h>: the kit's compiler comes without headers. */
#ifndef KIT_STDLIB_H
#define KIT_STDLIB_H
#include <stddef.h>
void *realloc(void *, size_t);
void free(void *);
unsigned long strtoul(const char *, char **, int);
#endif
