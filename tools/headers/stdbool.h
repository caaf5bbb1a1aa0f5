/* A part of the C library's header, for x86-64 Linux: the kit has none. */
#ifndef STDBOOL_H
#define STDBOOL_H

#ifndef __cplusplus
#define bool _Bool
#define true 1
#define false 0
#endif

#endif
