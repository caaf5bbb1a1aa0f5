/* Callers of the zero realm, held against callers of other realms. */
#ifndef LOCAL_H
#define LOCAL_H

#include "lockstep.h"

/* Asks for the rights of a caller of the zero realm, all else being as it is. By a list they are those of the same user
 * in the default realm, with the same deciding record or refusal; by a mode the zero realm is a realm like any other.
 */
void compare_local(struct input *input);

/* Prints what decided for callers of the zero realm in the whole run, and gives how many such kinds never came up. */
unsigned local_print_kinds(void);

#endif
