/* The library's calls as a server makes them: through the easy ones, on the form of input of calls.h. */
#ifndef EASY_H
#define EASY_H

#include "calls.h"

/* A buffer of no bytes is lent as NULL, with a length that is made up. */
mastarik_answer make_easy_call(enum call call, const struct input *input, const struct lent *lent);

#endif
