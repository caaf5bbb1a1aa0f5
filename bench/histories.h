/* Whole histories of a table: what holds of every table that calls reach from fill. */
#ifndef HISTORIES_H
#define HISTORIES_H

#include "lockstep.h"

/* What the histories did, over the whole run. */
struct history_counts {
    uint64_t steps;
    uint64_t asks;        /* asks that were done, each followed up */
    uint64_t several;     /* those that listed more than one entry */
    uint64_t called_back; /* entries that they listed */
    uint64_t granted;     /* grants done after the listed types came back; the others found no slot or no number */
};

/* Plays one history: after each call the audit says yes, and each ask that is done says exactly what is in the way. */
void play_history(struct history_counts *counts);

#endif
