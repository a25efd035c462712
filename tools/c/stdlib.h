#ifndef KIT_STDLIB_H
#define KIT_STDLIB_H
#include <stddef.h>
void *malloc(size_t);
void *realloc(void *, size_t);
void free(void *);
int atoi(const char *);
unsigned long strtoul(const char *, char **, int);
__attribute__((noreturn)) void exit(int);
#endif
