/* A part of the C library's header, for x86-64 Linux: the kit has none. */
#ifndef UNISTD_H
#define UNISTD_H

#include <stddef.h>

#ifdef __cplusplus
extern "C" {
#endif

int close(int file);
int fsync(int file);
int unlink(const char *name);

#ifdef __cplusplus
}
#endif

#endif
