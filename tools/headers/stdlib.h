/* A part of the C library's header, for x86-64 Linux: the kit has none. */
#ifndef STDLIB_H
#define STDLIB_H

#include <stddef.h>

#define EXIT_SUCCESS 0
#define EXIT_FAILURE 1

#ifdef __cplusplus
extern "C" {
#endif

void exit(int status) __attribute__((noreturn));
void abort(void) __attribute__((noreturn));
int atexit(void (*last)(void));
char *getenv(const char *name);

void *malloc(size_t size);
void *calloc(size_t count, size_t size);
void *realloc(void *memory, size_t size);
void free(void *memory);

int atoi(const char *text);
long strtol(const char *__restrict text, char **__restrict end, int base);
long long strtoll(const char *__restrict text, char **__restrict end, int base);
unsigned long strtoul(const char *__restrict text, char **__restrict end, int base);
unsigned long long strtoull(const char *__restrict text, char **__restrict end, int base);

void qsort(void *items, size_t count, size_t size, int (*order)(const void *, const void *));
void *bsearch(const void *key, const void *items, size_t count, size_t size, int (*order)(const void *, const void *));

#ifdef __cplusplus
}
#endif

#endif
