#ifndef KIT_STDIO_H
#define KIT_STDIO_H
#include <stddef.h>
#define EOF (-1)
typedef struct kit_file FILE;
extern FILE *stdin, *stdout, *stderr;
FILE *fopen(const char *, const char *);
int fclose(FILE *);
int ferror(FILE *);
int fflush(FILE *);
int getc(FILE *);
int putc(int, FILE *);
int fputs(const char *, FILE *);
int puts(const char *);
size_t fread(void *, size_t, size_t, FILE *);
size_t fwrite(const void *, size_t, size_t, FILE *);
int printf(const char *, ...);
int fprintf(FILE *, const char *, ...);
int snprintf(char *, size_t, const char *, ...);
#endif
