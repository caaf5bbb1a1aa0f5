/* A part of the C library's header, for x86-64 Linux: the kit has none. */
#ifndef STDIO_H
#define STDIO_H

#include <stdarg.h>
#include <stddef.h>

#define EOF (-1)
#define SEEK_SET 0
#define SEEK_CUR 1
#define SEEK_END 2

#ifdef __cplusplus
extern "C" {
#endif

typedef struct FILE FILE;
extern FILE *stdin, *stdout, *stderr;

int printf(const char *__restrict format, ...) __attribute__((format(printf, 1, 2)));
int fprintf(FILE *__restrict stream, const char *__restrict format, ...) __attribute__((format(printf, 2, 3)));
int snprintf(char *__restrict text, size_t size, const char *__restrict format, ...)
    __attribute__((format(printf, 3, 4)));
int vprintf(const char *__restrict format, va_list rest) __attribute__((format(printf, 1, 0)));
int vfprintf(FILE *__restrict stream, const char *__restrict format, va_list rest)
    __attribute__((format(printf, 2, 0)));
int vsnprintf(char *__restrict text, size_t size, const char *__restrict format, va_list rest)
    __attribute__((format(printf, 3, 0)));
int sscanf(const char *__restrict text, const char *__restrict format, ...) __attribute__((format(scanf, 2, 3)));
int puts(const char *text);
int putchar(int character);
int fputc(int character, FILE *stream);
int fputs(const char *__restrict text, FILE *__restrict stream);
int getchar(void);
int fgetc(FILE *stream);
char *fgets(char *__restrict text, int size, FILE *__restrict stream);

FILE *fopen(const char *__restrict name, const char *__restrict mode);
int fclose(FILE *stream);
size_t fread(void *__restrict to, size_t size, size_t count, FILE *__restrict stream);
size_t fwrite(const void *__restrict from, size_t size, size_t count, FILE *__restrict stream);
int fseek(FILE *stream, long offset, int from);
long ftell(FILE *stream);
void rewind(FILE *stream);
int fflush(FILE *stream);
int feof(FILE *stream);
int ferror(FILE *stream);
int fileno(FILE *stream);
int remove(const char *name);
int rename(const char *from, const char *to);
void perror(const char *text);

#ifdef __cplusplus
}
#endif

#endif
