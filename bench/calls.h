/* The calls of both sides, the library's and those by hand, to be made by number on one form of input. */
#ifndef CALLS_H
#define CALLS_H

#include "mastarik.h"

enum side { LIBRARY, BY_HAND, SIDES };

enum call {
    CHECK,
    RIGHTS,
    NEEDS,
    NEW_LIST,
    PUT_ENTRY,
    DROP_ENTRY,
    FILL,
    ASK,
    GRANT,
    GRANT_WIDEST,
    RETURN,
    DROP_HOST,
    AUDIT,
    CALLS
};

enum { LIST_ROOM = 4200, GROUP_ROOM = 34 };
enum { TABLE_ROOM = MASTARIK_SLOT_SIZE * 1026, OUT_ROOM = MASTARIK_CALL_BACK_SIZE * 1030 };

/* All that a call may be given; each looks at its own part. */
struct input {
    uint8_t list[LIST_ROOM];
    uint8_t table[TABLE_ROOM];
    uint8_t out[OUT_ROOM];
    uint32_t groups[GROUP_ROOM];
    size_t list_length, table_length, out_length, group_count;
    mastarik_caller caller;
    mastarik_file file;
    mastarik_entry entry; /* a new list has its realm as well */
    uint8_t objects[3];   /* the rights of a new list's three objects */
    mastarik_claim claim;
    uint16_t host;
    uint64_t number;
    uint16_t types;
};

/* Where the buffers stand that are lent: the input's own, or copies. */
struct lent {
    uint8_t *list, *table, *out;
    const uint32_t *groups;
};

mastarik_answer make_call(enum side side, enum call call, const struct input *input, const struct lent *lent);

#endif
