/* Makes one call of the library, by its easy call, and of the code by hand on equal input, and ends the program where
 * they differ.
 */
#ifndef LOCKSTEP_H
#define LOCKSTEP_H

#include <stdbool.h>

#include "calls.h"

extern const char *const call_names[CALLS];

/* How often a call was made, and how often refused with each number. */
struct tally {
    uint64_t calls;
    uint64_t refused[MASTARIK_TYPE_LACKING + 1];
};

void tally_add(struct tally *tally, mastarik_answer answer);

/* The tally of a call over the whole run. */
const struct tally *lockstep_tally(enum call call);

/* Prints how often each buffer was lent as NULL, and gives how many of them never were. */
unsigned lockstep_print_empty(void);

/* Says what is being tested, for the report of a difference. */
void lockstep_begin(const char *group, uint64_t seed, uint64_t round);

/* Makes a call on both sides: the answers and all lent bytes must be equal, nothing outside of them be changed, and
 * nothing at all by a refusal. What the call wrote is in the input afterwards.
 */
mastarik_answer lockstep(enum call call, struct input *input);

/* Whether two answers agree in every field. */
bool same_answer(mastarik_answer a, mastarik_answer b);

/* Ends the program with a report unless what must hold of the last call does. */
void expect(bool holds, const char *what, const struct input *input);

#endif
