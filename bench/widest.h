/* Widest grants, held against grant alone. */
#ifndef WIDEST_H
#define WIDEST_H

#include "lockstep.h"

/* Makes a widest grant in lockstep. It is refused where and as the library's grant is; else its range holds the asked
 * one, a grant of exactly that range gives the same number and the same table, and one of a wider range is a conflict.
 */
mastarik_answer compare_widest(struct input *input);

/* Prints what bounded the widest grants of the whole run and what did not, and gives how many such kinds never came up.
 */
unsigned widest_print_kinds(void);

#endif
