/* What the C here needs of <stdio.h>: the kit's compiler comes without headers. */
#ifndef KIT_STDIO_H
#define KIT_STDIO_H
#include <stddef.h>
typedef struct file FILE;
extern FILE *stdin, *stdout, *stderr;
FILE *fopen(const char *, const char *);
FILE *fdopen(int, const char *);
size_t fread(void *, size_t, size_t, FILE *);
size_t fwrite(const void *, size_t, size_t, FILE *);
long getdelim(char **, size_t *, int, FILE *);
int ferror(FILE *);
int fflush(FILE *);
int fclose(FILE *);
int printf(const char *, ...);
int snprintf(char *, size_t, const char *, ...);
int fprintf(FILE *, const char *, ...);
int putchar(int);
int fputc(int, FILE *);
#endif
