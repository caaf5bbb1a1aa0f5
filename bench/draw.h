/* Random numbers: the same seed gives the same ones on every machine. */
#ifndef DRAW_H
#define DRAW_H

#include <stdbool.h>
#include <stddef.h>
#include <stdint.h>

/* Starts the numbers of one round of a seed, whatever was drawn before. */
void draw_seed(uint64_t seed, uint64_t round);

/* Any 64-bit number. */
uint64_t draw(void);

/* A number below a limit, which is not 0. */
uint64_t draw_below(uint64_t limit);

/* Yes in so many of a hundred cases. */
bool draw_chance(unsigned percent);

void draw_bytes(uint8_t *bytes, size_t length);

#endif
