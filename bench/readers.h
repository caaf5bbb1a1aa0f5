/* What the header reads and names by itself, held against the bytes: walks, tokens, tokens to call back, texts. */
#ifndef READERS_H
#define READERS_H

#include "lockstep.h"

/* Walks the list, which may be any bytes: what the walk reads, spelled again, is the list up to where it ends; a list
 * that passes is read whole. Walks that begin anywhere stay inside as well.
 */
void compare_walk(const struct input *input, bool passes);

/* Reads every slot of a well formed table: the tokens, spelled again, give its bytes. */
void compare_tokens(const struct input *input);

/* Reads so many entries that ask wrote, and one of any numbers: spelled again they give their bytes. */
void compare_call_backs(const struct input *input, size_t count);

/* Every number that has a text or a name has one of its own, and no other has. */
void compare_texts(void);

/* The version, the count of slots of every length, who is unknown, and an access that is NULL. */
void compare_fixed(void);

#endif
