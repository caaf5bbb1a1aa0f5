/* What the speed program has in place of a C library, so that every instruction it runs is its own. */
#ifndef FREESTANDING_H
#define FREESTANDING_H

#include <stdint.h>

/* The program proper; its answer is the exit status. */
int run(int count, char **arguments);

void print(const char *text);

void print_number(uint64_t number);

/* The processor's time-stamp counter, read when all before it is done and before anything after it begins. */
uint64_t ticks(void);

#endif
