/* Random input for the calls, from small sets of realms, ids, hosts, files and ranges, so that matches are frequent. */
#ifndef INPUTS_H
#define INPUTS_H

#include "lockstep.h"

/* A list that passes; a generous one grants most of what it can. */
void make_list(struct input *input, bool generous);

/* A list that passes, of 4,063 to 4,095 bytes; none of 4,096 can, as only the first record's size is odd. */
void make_long_list(struct input *input);

/* Writes an entry as a record after the list. */
void append_record(struct input *input, const mastarik_entry *entry);

/* Realm and objects of a new list; not all of them can stand. */
void make_new_list(struct input *input);

/* Damages a list, or a part of it: not every damage leads to a refusal. */
void damage_list(struct input *input);

/* Caller, further groups, and a file guarded by the list or by a mode; sound ones are not refused. */
void make_access(struct input *input, bool sound);

/* Makes the caller the file's owner. */
void favour_caller(struct input *input);

/* An entry to put or drop, often one of the list's own. */
void make_entry(struct input *input);

/* What a request claims; a sound one is well formed. */
void make_claim(struct input *input, bool sound);

/* A well formed table of so many slots; in a calm one numbers differ and nothing conflicts. */
void make_table(struct input *input, size_t slots, bool calm);

/* Moves the tokens of a well formed table off the claim's range, leaves them types with a range alone, and frees a
 * slot: what conflicts with the claim then bounds it.
 */
void part_tokens(struct input *input);

/* Writes a token as the bytes of its slot. */
void put_token(uint8_t *slot, const mastarik_token *token);

/* Writes a token to call back as the bytes of its entry. */
void put_call_back(uint8_t *entry, const mastarik_call_back *call_back);

/* Adds free slots to a well formed table, as one does who moves to a larger one. */
void enlarge_table(struct input *input);

/* Makes a well formed table one that is not. */
void damage_table(struct input *input);

/* Gives a table a length that none has. */
void damage_length(struct input *input);

/* Host, number and types to return, often those of a token that is held. */
void make_return(struct input *input);

#endif
