/* The generator splitmix64. */
#include "draw.h"

static uint64_t state;

static uint64_t mix(uint64_t number)
{
    number = (number ^ number >> 30) * 0xbf58476d1ce4e5b9u;
    number = (number ^ number >> 27) * 0x94d049bb133111ebu;
    return number ^ number >> 31;
}

void draw_seed(uint64_t seed, uint64_t round)
{
    state = mix(mix(seed) + round);
}

uint64_t draw(void)
{
    state += 0x9e3779b97f4a7c15u;
    return mix(state);
}

uint64_t draw_below(uint64_t limit)
{
    return draw() % limit;
}

bool draw_chance(unsigned percent)
{
    return draw_below(100) < percent;
}

void draw_bytes(uint8_t *bytes, size_t length)
{
    for (size_t i = 0; i < length; i++)
        bytes[i] = (uint8_t)draw();
}
