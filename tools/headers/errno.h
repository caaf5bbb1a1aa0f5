/* A part of the C library's header, for x86-64 Linux: the kit has none. */
#ifndef ERRNO_H
#define ERRNO_H

#define ENOENT 2
#define EINTR 4
#define ENOMEM 12
#define EACCES 13
#define EEXIST 17
#define EINVAL 22
#define ERANGE 34

#ifdef __cplusplus
extern "C" {
#endif

int *__errno_location(void) __attribute__((const));
#define errno (*__errno_location())

#ifdef __cplusplus
}
#endif

#endif
