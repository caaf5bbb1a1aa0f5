/* Access lists and a token table for a case server: the calls, for C99 and C++11 and later, on x86-64 Linux.
 * Here each call has its rules in short; docs/RULES.md has them whole.
 *
 * Every call ends with an answer, or with a refusal by its number; a refusal leaves every lent byte as it was. This
 * holds for any bytes and any numbers, so none of them has to be tested before a call. Where several refusals hold, the
 * one given is the first in the order that the call's comment names. A table that was filled, or to which the audit
 * said yes, and then changed by these calls alone never holds two tokens that conflict, and from there on no number is
 * given twice. All this is proved of the raw calls. The easy calls after them make the same calls; they, the readers
 * and the names are plain C, tested.
 *
 * What no proof can see, the caller must ensure:
 *
 *   - raw calls: a pointer is never NULL, not even with a length of 0. The easy calls take NULL, as no bytes;
 *   - a pointer is aligned for what it points to, and a length is true: so many bytes (or group ids) stand at the
 *     pointer, and nothing but the call changes them while it runs;
 *   - a buffer that a call may write (the table of fill, grant, widest grant, return and drop host, the out of ask and
 *     of an edit) overlaps no other buffer of the same call;
 *   - what is said of one file belongs together: the claim's file id, the list that is lent, owner, group and mode. So
 *     do the claim's host and the caller who sits at it, and that caller is who it says it is: one who was not
 *     authenticated is MASTARIK_ANONYMOUS;
 *   - header and library are of one version: mastarik_version() is MASTARIK_VERSION.
 *
 * No call keeps a pointer, allocates, or looks at anything but its arguments. Two threads may call at once, unless one
 * of them lends a buffer to be written that the other lends as well. Of the C library the archive needs memset alone.
 * Numbers in bytes are big-endian throughout.
 *
 * To keep a table on disk: write it to a file beside the old one, flush it to the disk, rename it over the old one; do
 * so before a grant's answer is sent. Audit it after loading. A copy older than the last grant gives numbers again that
 * were given since: then fill it, and let every host know that it holds nothing.
 *
 * To move to a larger table there is no call: append 41 zero bytes for each new slot, up to 1,024 slots in all. A table
 * that is well formed stays so, with the same tokens and the same next number, and the audit says of it what it said
 * before. Or begin anew: let the tokens come back, or drop their hosts, and fill the larger one; then no token carries
 * over, and numbers are given anew.
 */
#ifndef MASTARIK_H
#define MASTARIK_H

#include <stddef.h>
#include <stdint.h>

#ifdef __cplusplus
extern "C" {
#endif

/* The version of this header, as a number (20000 for 2.0.0) and as text. */
#define MASTARIK_VERSION_MAJOR 2
#define MASTARIK_VERSION_MINOR 0
#define MASTARIK_VERSION_PATCH 0
#define MASTARIK_VERSION (10000 * MASTARIK_VERSION_MAJOR + 100 * MASTARIK_VERSION_MINOR + MASTARIK_VERSION_PATCH)
#define MASTARIK_VERSION_TEXT "2.0.0"

/* The refusals. 10 to 19 come with a place: the record's first byte, the list's length for 17 to 19, 0 for 10 and 11,
 * for an edit's kind and for an unknown local realm. 35 comes with the true count of tokens. */
enum {
    MASTARIK_LIST_TOO_LONG = 10,         /* list over 4,096 bytes */
    MASTARIK_NO_DEFAULT_REALM = 11,      /* the list does not begin with kind 1 */
    MASTARIK_UNKNOWN_KIND = 12,          /* unknown kind */
    MASTARIK_CUT_SHORT = 13,             /* body cut short */
    MASTARIK_RIGHTS_ABOVE_63 = 14,       /* rights above 63 */
    MASTARIK_OUT_OF_ORDER = 15,          /* out of order or repeated */
    MASTARIK_FORBIDDEN_REALM = 16,       /* forbidden realm; also a local realm that is unknown, place 0 */
    MASTARIK_OBJECT_MISSING = 17,        /* user_obj, group_obj or other_obj missing */
    MASTARIK_MASK_MISSING = 18,          /* kind 6 or above present, no mask_obj */
    MASTARIK_CONTROL_MISSING = 19,       /* user_obj lacks control */
    MASTARIK_NOTHING_TO_DROP = 20,       /* edit: nothing to drop */
    MASTARIK_OUTPUT_TOO_SHORT = 21,      /* edit: output too short */
    MASTARIK_MODE_ABOVE_511 = 22,        /* mode above 511 */
    MASTARIK_TOO_MANY_GROUPS = 23,       /* more than 32 groups */
    MASTARIK_RIGHT_MISSING = 24,         /* a needed right is missing */
    MASTARIK_TABLE_NOT_WELL_FORMED = 30, /* table not well formed (fill: bad length only) */
    MASTARIK_REQUEST_MALFORMED = 31,     /* host 0, types 0 or above 255, or first above last */
    MASTARIK_CONFLICT = 32,              /* grant: a conflict exists */
    MASTARIK_NO_FREE_SLOT = 33,          /* grant: no free slot */
    MASTARIK_NUMBERS_SPENT = 34,         /* grant: no number is left */
    MASTARIK_BUFFER_TOO_SHORT = 35,      /* ask: list buffer too short */
    MASTARIK_NO_SUCH_TOKEN = 36,         /* return: no such token of this host */
    MASTARIK_TYPE_LACKING = 37           /* return: a type that the token lacks */
};

/* Rights, a bit each. */
enum {
    MASTARIK_READ = 1,
    MASTARIK_WRITE = 2,
    MASTARIK_EXECUTE = 4,
    MASTARIK_CONTROL = 8,
    MASTARIK_INSERT = 16,
    MASTARIK_DELETE = 32
};

/* Token types, a bit each; two after another are a family: data, status, lock, open. */
enum {
    MASTARIK_DATA_READ = 1,
    MASTARIK_DATA_WRITE = 2,
    MASTARIK_STATUS_READ = 4,
    MASTARIK_STATUS_WRITE = 8,
    MASTARIK_LOCK_READ = 16,
    MASTARIK_LOCK_WRITE = 32,
    MASTARIK_OPEN_SHARED = 64,
    MASTARIK_OPEN_EXCLUSIVE = 128
};

/* The kinds of record in a list, each with what follows it: a realm of 16 bytes, an id of 4, a byte of rights. */
enum {
    MASTARIK_DEFAULT_REALM = 1, /* realm */
    MASTARIK_USER_OBJ = 2,      /* rights */
    MASTARIK_GROUP_OBJ = 3,     /* rights */
    MASTARIK_OTHER_OBJ = 4,     /* rights */
    MASTARIK_MASK_OBJ = 5,      /* rights */
    MASTARIK_ANY_OTHER = 6,     /* rights */
    MASTARIK_USER = 7,          /* id, rights */
    MASTARIK_GROUP = 8,         /* id, rights */
    MASTARIK_FOREIGN_USER = 9,  /* realm, id, rights */
    MASTARIK_FOREIGN_GROUP = 10, /* realm, id, rights */
    MASTARIK_FOREIGN_OTHER = 11  /* realm, rights */
};

/* A list has at most so many bytes, the smallest one so many, and so many further groups may be lent. */
enum { MASTARIK_LIST_LIMIT = 4096, MASTARIK_NEW_LIST_SIZE = 23, MASTARIK_GROUP_LIMIT = 32 };

/* A table of n slots, 1 to 1,024, takes MASTARIK_SLOT_SIZE * (1 + n) bytes. What ask writes takes
 * MASTARIK_CALL_BACK_SIZE bytes for each token that it lists; n times that is always enough. */
enum { MASTARIK_SLOT_SIZE = 41, MASTARIK_SLOT_LIMIT = 1024, MASTARIK_CALL_BACK_SIZE = 13 };

/* Initialisers: the realm and the id of nobody, and the caller whom nobody has authenticated. By a list only any_other
 * serves it, as no list can name it; by a mode it gets nothing. A server hands over this one, never zeroes, which are
 * user 0 of the server itself. */
#define MASTARIK_UNKNOWN_REALM {255, 255, 255, 254, 0, 0, 0, 0, 0, 0, 0, 0, 0, 0, 0, 0}
#define MASTARIK_UNKNOWN_ID 4294967294u
#define MASTARIK_ANONYMOUS {MASTARIK_UNKNOWN_REALM, MASTARIK_UNKNOWN_ID, MASTARIK_UNKNOWN_ID}

/* The realm of jobs started on the server itself. By a list its callers count as of the list's default realm, owner and
 * users and groups alike, and a foreign record that names it serves nobody; by a mode it is a realm like any other. */
#define MASTARIK_ZERO_REALM {0, 0, 0, 0, 0, 0, 0, 0, 0, 0, 0, 0, 0, 0, 0, 0}

/* What a call answers; a field that a call does not use is 0. */
typedef struct mastarik_answer {
    uint32_t refused; /* 0, or the refusal's number */
    uint64_t value;   /* the answer; 0 on refusal, and for check, fill and return, which have nothing to say */
    uint64_t detail;  /* on refusal: the place for 10 to 19, the true count for 35 */
    size_t start;     /* rights: the deciding record's place in the list */
    size_t length;    /* rights: its length, 0 where no record decides */
    uint64_t first;   /* widest grant: the first byte of the token's range */
    uint64_t last;    /* widest grant: its last byte */
} mastarik_answer;

/* Who asks; further groups are lent beside it, and belong to the same realm. */
typedef struct mastarik_caller {
    uint8_t realm[16];
    uint32_t user;
    uint32_t group;
} mastarik_caller;

/* What is asked for. Guarded by a list: the one that is lent, and realm and mode are not looked at. By a mode: the
 * local realm and the mode here, and the list is not looked at. */
typedef struct mastarik_file {
    uint32_t owner;
    uint32_t group;
    uint8_t dir;     /* 0: a file; any other number: a directory */
    uint8_t by_mode; /* 0: by the list; any other number: by realm and mode */
    uint8_t realm[16];
    uint32_t mode;
} mastarik_file;

/* An entry to put into a list or to drop; what its kind does not have, and a drop's rights, are ignored. */
typedef struct mastarik_entry {
    uint8_t kind;
    uint8_t rights;
    uint8_t realm[16];
    uint32_t id;
} mastarik_entry;

/* What a request claims; first and last are both in the range. */
typedef struct mastarik_claim {
    uint16_t types;
    uint16_t host;
    uint8_t file[12];
    uint64_t first;
    uint64_t last;
} mastarik_claim;

/* The library's version: to be compared with MASTARIK_VERSION before the first call. */
uint32_t mastarik_version(void);

/* Checks a list: refused is 0 where it passes. Its records stand in rising order of kind, then of realm and id: the
 * default realm, user_obj, group_obj and other_obj, then the others; a kind of 6 or above wants a mask_obj before it.
 * user_obj has control; no realm is the unknown one, and no foreign record names the default realm. Refused with 10 to
 * 19. */
mastarik_answer mastarik_check(const uint8_t *list, size_t list_length);

/* The caller's rights on a file: value has a bit for each. By a list the first of these decides that applies:
 *
 *   1. the owner, of the default realm: user_obj;
 *   2. this caller's user record in the default realm, or foreign_user record in another: masked;
 *   3. all that match the caller's groups, together: group_obj for the file's group and group records in the default
 *      realm, foreign_group records in another: masked;
 *   4. anyone else of the default realm: other_obj;
 *   5. foreign_other of the caller's realm: masked;
 *   6. any_other: masked;
 *   7. nothing.
 *
 * Masked are the rights that mask_obj has as well, where there is one; so user_obj and other_obj never are. start and
 * length are the deciding record's, in step 3 the first match's in the list; length is 0 in step 7 and by a mode.
 *
 * By a mode a caller of another realm than the file's gets nothing; the owner gets the first octal digit and control,
 * else a member of the file's group the second, else the third. 4 is read, 2 write, 1 execute; on a directory write
 * brings insert and delete. Refused with 23, then by a list 10 to 19, by a mode 16 and 22. */
mastarik_answer mastarik_rights(const uint8_t *list, size_t list_length, const uint32_t *groups, size_t group_count,
                                mastarik_caller caller, mastarik_file file);

/* The rights that types need, as value. Data read, status read, lock read and open shared need read; status write needs
 * control; data write, lock write and open exclusive need write, on a directory (dir not 0) insert and delete instead.
 * Bits above 128 need nothing. Never refused. */
mastarik_answer mastarik_needs(uint16_t types, uint8_t dir);

/* Writes the list with an entry put, in place of the one of the same kind, realm and id: value is the new length, and
 * bytes of out past it stay. mask_obj is put before the first entry of kind 6 or above, else that one is refused with
 * 18. Refused with the old list's 10 to 19; 12 at place 0 for a kind outside 2 to 11; the new list's 10 to 19, at
 * places in the new list; 21. */
mastarik_answer mastarik_put_entry(const uint8_t *list, size_t list_length, mastarik_entry entry, uint8_t *out,
                                   size_t out_length);

/* Writes the list without the entry of this kind, realm and id: value is the new length, and bytes of out past it stay.
 * mask_obj is dropped after the last entry of kind 6 or above; the three objects stay. Refused as a put is, and with 20
 * before the new list's. */
mastarik_answer mastarik_drop_entry(const uint8_t *list, size_t list_length, mastarik_entry entry, uint8_t *out,
                                    size_t out_length);

/* Makes all slots free, with 1 as the next number: a new history. Looks at the length alone. After a fill, or when an
 * old copy is loaded again, numbers are given anew: a host that still holds one of before must forget it, or it would
 * return a token that is another by now. Refused with 30. */
mastarik_answer mastarik_fill(uint8_t *table, size_t table_length);

/* Lists the tokens in the way of a request: value is their count, and out has an entry for each in slot order: 3, its
 * number in 8 bytes, its host in 2, its types to call back in 2; bytes past them stay. mastarik_call_back_at reads one.
 *
 * A type of a token is in the way of one that is asked where the hosts differ, the file is the same, both types are of
 * one family, and at least one of them is its second: reads and shared opens go together, writes and exclusive ones
 * with nothing. Data and lock types want ranges that share a byte, both ends included; status and open types cover the
 * whole file. Families do not mix: an open exclusive stops no data write of another host. One host never conflicts with
 * itself.
 *
 * Once what is listed is returned the request is granted, unless no slot or no number is left: of these ask says
 * nothing. Refused with 30, 31, 23, 10 to 19, 22, 24, 35. */
mastarik_answer mastarik_ask(const uint8_t *table, size_t table_length, mastarik_claim claim, const uint8_t *list,
                             size_t list_length, const uint32_t *groups, size_t group_count, mastarik_caller caller,
                             mastarik_file file, uint8_t *out, size_t out_length);

/* Grants a token where nothing is in its way (see ask): value is its number, which no other token had since the fill.
 * Equal grants of one host do not merge: each takes a slot and a number, and is returned by itself. Rights are judged
 * now: a later edit of the list takes no token back. Refused with 30, 31, 23, 10 to 19, 22, 24, 32, 33, 34. */
mastarik_answer mastarik_grant(uint8_t *table, size_t table_length, mastarik_claim claim, const uint8_t *list,
                               size_t list_length, const uint32_t *groups, size_t group_count, mastarik_caller caller,
                               mastarik_file file);

/* Grants as grant does, but over the largest range that holds the asked one and conflicts with nobody: value is the
 * token's number, first and last are its range. So one token serves a host that reads a file in small pieces.
 *
 * On either side the range ends next to the nearest token that would be in the way (see ask) of the same request with
 * the range 0 to 18,446,744,073,709,551,615, also where that token touches the asked range. Tokens of the same host, of
 * another file, and without a conflicting type, as a read beside a read, do not bound it; where none does, and always
 * with status and open types alone, it is 0 to 18,446,744,073,709,551,615. No wider range that holds the asked one
 * could have been granted then.
 *
 * The token is held over all of that range, and in the way of others there. Refused exactly where and as grant is, with
 * 30, 31, 23, 10 to 19, 22, 24, 32, 33, 34. */
mastarik_answer mastarik_grant_widest(uint8_t *table, size_t table_length, mastarik_claim claim, const uint8_t *list,
                                      size_t list_length, const uint32_t *groups, size_t group_count,
                                      mastarik_caller caller, mastarik_file file);

/* Takes types back from a host's token, over its whole range; with none left its slot is free. One type that the token
 * lacks refuses the whole return. Refused with 30, 31, 36, 37. */
mastarik_answer mastarik_return(uint8_t *table, size_t table_length, uint16_t host, uint64_t number, uint16_t types);

/* Frees a host's slots: value is how many they were. Refused with 30, 31. */
mastarik_answer mastarik_drop_host(uint8_t *table, size_t table_length, uint16_t host);

/* Audits any bytes: value is 1 where the table is well formed, its numbers differ and nothing conflicts, else 0. Never
 * refused. */
mastarik_answer mastarik_audit(const uint8_t *table, size_t table_length);

/* Who asks, and what guards the file: what rights, ask and grants judge. Later versions add fields at its end, in which
 * zero says what there was before: so give fields by name, {.list = .., .caller = ..}, or begin with {0}, in C++ {}. */
typedef struct mastarik_access {
    const uint8_t *list; /* NULL for none, where a mode guards the file */
    size_t list_length;
    const uint32_t *groups; /* further groups of the caller; NULL for none */
    size_t group_count;
    mastarik_caller caller;
    mastarik_file file;
} mastarik_access;

/* An access with nothing NULL in it: an access that is NULL is one of zeroes, whose empty list is refused with 11. Not
 * for callers. */
static inline mastarik_access mastarik_inner_access(const mastarik_access *access, const uint8_t *no_list,
                                                    const uint32_t *no_groups)
{
    mastarik_access whole = {NULL, 0, NULL, 0, {{0}, 0, 0}, {0, 0, 0, 0, {0}, 0}};
    if (access != NULL)
        whole = *access;
    if (whole.list == NULL) {
        whole.list = no_list;
        whole.list_length = 0;
    }
    if (whole.groups == NULL) {
        whole.groups = no_groups;
        whole.group_count = 0;
    }
    return whole;
}

/* The easy calls: each is the raw call of its name, with the same answer and the same refusals. NULL counts as no
 * bytes, whatever the length says, and an access has who asks and what guards the file. */
static inline mastarik_answer mastarik_easy_check(const uint8_t *list, size_t list_length)
{
    const uint8_t none = 0;
    return list != NULL ? mastarik_check(list, list_length) : mastarik_check(&none, 0);
}

static inline mastarik_answer mastarik_easy_rights(const mastarik_access *access)
{
    const uint8_t none = 0;
    const uint32_t no_groups = 0;
    mastarik_access given = mastarik_inner_access(access, &none, &no_groups);
    return mastarik_rights(given.list, given.list_length, given.groups, given.group_count, given.caller, given.file);
}

static inline mastarik_answer mastarik_easy_put_entry(const uint8_t *list, size_t list_length, mastarik_entry entry,
                                                      uint8_t *out, size_t out_length)
{
    const uint8_t none = 0;
    uint8_t no_out = 0;
    return mastarik_put_entry(list != NULL ? list : &none, list != NULL ? list_length : 0, entry,
                              out != NULL ? out : &no_out, out != NULL ? out_length : 0);
}

static inline mastarik_answer mastarik_easy_drop_entry(const uint8_t *list, size_t list_length, mastarik_entry entry,
                                                       uint8_t *out, size_t out_length)
{
    const uint8_t none = 0;
    uint8_t no_out = 0;
    return mastarik_drop_entry(list != NULL ? list : &none, list != NULL ? list_length : 0, entry,
                               out != NULL ? out : &no_out, out != NULL ? out_length : 0);
}

static inline mastarik_answer mastarik_easy_fill(uint8_t *table, size_t table_length)
{
    uint8_t none = 0;
    return table != NULL ? mastarik_fill(table, table_length) : mastarik_fill(&none, 0);
}

static inline mastarik_answer mastarik_easy_ask(const uint8_t *table, size_t table_length, mastarik_claim claim,
                                                const mastarik_access *access, uint8_t *out, size_t out_length)
{
    const uint8_t none = 0;
    const uint32_t no_groups = 0;
    uint8_t no_out = 0;
    mastarik_access given = mastarik_inner_access(access, &none, &no_groups);
    return mastarik_ask(table != NULL ? table : &none, table != NULL ? table_length : 0, claim, given.list,
                        given.list_length, given.groups, given.group_count, given.caller, given.file,
                        out != NULL ? out : &no_out, out != NULL ? out_length : 0);
}

static inline mastarik_answer mastarik_easy_grant(uint8_t *table, size_t table_length, mastarik_claim claim,
                                                  const mastarik_access *access)
{
    const uint8_t none = 0;
    const uint32_t no_groups = 0;
    uint8_t no_table = 0;
    mastarik_access given = mastarik_inner_access(access, &none, &no_groups);
    return mastarik_grant(table != NULL ? table : &no_table, table != NULL ? table_length : 0, claim, given.list,
                          given.list_length, given.groups, given.group_count, given.caller, given.file);
}

static inline mastarik_answer mastarik_easy_grant_widest(uint8_t *table, size_t table_length, mastarik_claim claim,
                                                         const mastarik_access *access)
{
    const uint8_t none = 0;
    const uint32_t no_groups = 0;
    uint8_t no_table = 0;
    mastarik_access given = mastarik_inner_access(access, &none, &no_groups);
    return mastarik_grant_widest(table != NULL ? table : &no_table, table != NULL ? table_length : 0, claim, given.list,
                                 given.list_length, given.groups, given.group_count, given.caller, given.file);
}

static inline mastarik_answer mastarik_easy_return(uint8_t *table, size_t table_length, uint16_t host, uint64_t number,
                                                   uint16_t types)
{
    uint8_t none = 0;
    return mastarik_return(table != NULL ? table : &none, table != NULL ? table_length : 0, host, number, types);
}

static inline mastarik_answer mastarik_easy_drop_host(uint8_t *table, size_t table_length, uint16_t host)
{
    uint8_t none = 0;
    return mastarik_drop_host(table != NULL ? table : &none, table != NULL ? table_length : 0, host);
}

static inline mastarik_answer mastarik_easy_audit(const uint8_t *table, size_t table_length)
{
    const uint8_t none = 0;
    return table != NULL ? mastarik_audit(table, table_length) : mastarik_audit(&none, 0);
}

/* Writes the smallest list, a default realm and the rights of the three objects, to be edited from there: value is its
 * length, MASTARIK_NEW_LIST_SIZE, and bytes of out past it stay. user_obj must have control. out may be NULL, as no
 * bytes; realm may not. Refused as the check of that list is, with 14, 16, 19 at places in it; then with 21. */
static inline mastarik_answer mastarik_new_list(const uint8_t realm[16], uint8_t user_obj, uint8_t group_obj,
                                                uint8_t other_obj, uint8_t *out, size_t out_length)
{
    const uint8_t objects[6] = {MASTARIK_USER_OBJ,  user_obj,           MASTARIK_GROUP_OBJ,
                                group_obj,          MASTARIK_OTHER_OBJ, other_obj};
    uint8_t list[MASTARIK_NEW_LIST_SIZE] = {MASTARIK_DEFAULT_REALM};
    for (size_t i = 0; i < 16; i++)
        list[1 + i] = realm[i];
    for (size_t i = 0; i < sizeof objects; i++)
        list[17 + i] = objects[i];
    mastarik_answer answer = mastarik_check(list, sizeof list);
    if (answer.refused == 0 && (out == NULL || out_length < sizeof list))
        answer.refused = MASTARIK_OUTPUT_TOO_SHORT;
    if (answer.refused != 0)
        return answer;
    for (size_t i = 0; i < sizeof list; i++)
        out[i] = list[i];
    answer.value = sizeof list;
    return answer;
}

/* The number in so many bytes, up to 8. Not for callers. */
static inline uint64_t mastarik_inner_number(const uint8_t *bytes, size_t width)
{
    uint64_t number = 0;
    for (size_t i = 0; i < width; i++)
        number = number << 8 | bytes[i];
    return number;
}

/* A token to call back: of this number and host, these types. */
typedef struct mastarik_call_back {
    uint64_t number;
    uint16_t host;
    uint16_t types;
} mastarik_call_back;

/* Entry k, from 0, of those that ask wrote: k is less than ask's value. */
static inline mastarik_call_back mastarik_call_back_at(const uint8_t *out, size_t k)
{
    const uint8_t *entry = out + MASTARIK_CALL_BACK_SIZE * k;
    mastarik_call_back call_back = {mastarik_inner_number(entry + 1, 8), (uint16_t)mastarik_inner_number(entry + 9, 2),
                                    (uint16_t)mastarik_inner_number(entry + 11, 2)};
    return call_back;
}

/* A token that is held. */
typedef struct mastarik_token {
    uint64_t number;
    mastarik_claim claim;
} mastarik_token;

/* How many slots a table of so many bytes has; 0 where no table has that length. */
static inline size_t mastarik_slot_count(size_t table_length)
{
    size_t parts = table_length / MASTARIK_SLOT_SIZE;
    int fits = table_length % MASTARIK_SLOT_SIZE == 0 && parts >= 2 && parts <= 1 + MASTARIK_SLOT_LIMIT;
    return fits ? parts - 1 : 0;
}

/* 1 and the token where a slot, from 0, holds one; 0, and the token as it was, where it is free or there is no such
 * slot. Reads the bytes as they stand: whether the table is well formed says mastarik_audit. Who holds a file:
 *
 *     mastarik_token token;
 *     for (size_t slot = 0; slot < mastarik_slot_count(table_length); slot++)
 *         if (mastarik_token_at(table, table_length, slot, &token) && memcmp(token.claim.file, file, 12) == 0)
 *             printf("host %d holds token %llu\n", token.claim.host, (unsigned long long)token.number);
 */
static inline int mastarik_token_at(const uint8_t *table, size_t table_length, size_t slot, mastarik_token *token)
{
    if (table == NULL || slot >= mastarik_slot_count(table_length))
        return 0;
    const uint8_t *bytes = table + MASTARIK_SLOT_SIZE * (1 + slot);
    if (bytes[0] != 1)
        return 0;
    token->claim.types = (uint16_t)mastarik_inner_number(bytes + 1, 2);
    token->claim.host = (uint16_t)mastarik_inner_number(bytes + 3, 2);
    for (size_t i = 0; i < 12; i++)
        token->claim.file[i] = bytes[5 + i];
    token->claim.first = mastarik_inner_number(bytes + 17, 8);
    token->claim.last = mastarik_inner_number(bytes + 25, 8);
    token->number = mastarik_inner_number(bytes + 33, 8);
    return 1;
}

/* A record of a list: where it begins, how many bytes it has, and what it says; what its kind has not is 0. */
typedef struct mastarik_record {
    size_t place;
    size_t length;
    mastarik_entry entry;
} mastarik_record;

/* The length of a record of this kind, the byte of kind included; 0 for an unknown kind. Not for callers. */
static inline size_t mastarik_inner_record_length(uint8_t kind)
{
    switch (kind) {
    case MASTARIK_DEFAULT_REALM: return 17;
    case MASTARIK_USER_OBJ:
    case MASTARIK_GROUP_OBJ:
    case MASTARIK_OTHER_OBJ:
    case MASTARIK_MASK_OBJ:
    case MASTARIK_ANY_OTHER: return 2;
    case MASTARIK_USER:
    case MASTARIK_GROUP: return 6;
    case MASTARIK_FOREIGN_USER:
    case MASTARIK_FOREIGN_GROUP: return 22;
    case MASTARIK_FOREIGN_OTHER: return 18;
    default: return 0;
    }
}

/* What the whole record that begins here says. Not for callers. */
static inline mastarik_entry mastarik_inner_entry(const uint8_t *bytes)
{
    mastarik_entry entry = {bytes[0], 0, {0}, 0};
    const uint8_t *body = bytes + 1;
    if (entry.kind == MASTARIK_DEFAULT_REALM || entry.kind >= MASTARIK_FOREIGN_USER)
        for (size_t i = 0; i < 16; i++)
            entry.realm[i] = *body++;
    if (entry.kind >= MASTARIK_USER && entry.kind <= MASTARIK_FOREIGN_GROUP) {
        entry.id = (uint32_t)mastarik_inner_number(body, 4);
        body += 4;
    }
    if (entry.kind != MASTARIK_DEFAULT_REALM)
        entry.rights = *body;
    return entry;
}

/* Goes to the next record of a list: from a record that is all zero to the first, then to the one after it. 1 where
 * there is one; 0, and the record as it was, at the end and at bytes that are no record: an unknown kind, or cut short.
 * Never reads past the list, whatever its bytes and the record say, and makes none of the list's checks: mastarik_check
 * does. An entry of kind 2 to 11 can be handed to a put and to a drop.
 *
 *     mastarik_record record = {0};
 *     while (mastarik_next_record(list, list_length, &record))
 *         printf("%s at %zu\n", mastarik_kind_name(record.entry.kind), record.place);
 */
static inline int mastarik_next_record(const uint8_t *list, size_t list_length, mastarik_record *record)
{
    if (list == NULL || record->place > list_length || record->length >= list_length - record->place)
        return 0;
    size_t place = record->place + record->length, length = mastarik_inner_record_length(list[place]);
    if (length == 0 || length > list_length - place)
        return 0;
    record->place = place;
    record->length = length;
    record->entry = mastarik_inner_entry(list + place);
    return 1;
}

/* A refusal in words; "done" for 0, "unknown" for what is none. */
static inline const char *mastarik_refusal_text(uint32_t refused)
{
    switch (refused) {
    case 0: return "done";
    case MASTARIK_LIST_TOO_LONG: return "list over 4,096 bytes";
    case MASTARIK_NO_DEFAULT_REALM: return "the list does not begin with default_realm";
    case MASTARIK_UNKNOWN_KIND: return "unknown kind";
    case MASTARIK_CUT_SHORT: return "body cut short";
    case MASTARIK_RIGHTS_ABOVE_63: return "rights above 63";
    case MASTARIK_OUT_OF_ORDER: return "out of order or repeated";
    case MASTARIK_FORBIDDEN_REALM: return "forbidden realm";
    case MASTARIK_OBJECT_MISSING: return "user_obj, group_obj or other_obj missing";
    case MASTARIK_MASK_MISSING: return "no mask_obj, which kinds 6 and above need";
    case MASTARIK_CONTROL_MISSING: return "user_obj lacks control";
    case MASTARIK_NOTHING_TO_DROP: return "nothing to drop";
    case MASTARIK_OUTPUT_TOO_SHORT: return "output too short";
    case MASTARIK_MODE_ABOVE_511: return "mode above 511";
    case MASTARIK_TOO_MANY_GROUPS: return "more than 32 groups";
    case MASTARIK_RIGHT_MISSING: return "a needed right is missing";
    case MASTARIK_TABLE_NOT_WELL_FORMED: return "table not well formed";
    case MASTARIK_REQUEST_MALFORMED: return "host 0, types 0 or above 255, or first above last";
    case MASTARIK_CONFLICT: return "a conflict exists";
    case MASTARIK_NO_FREE_SLOT: return "no free slot";
    case MASTARIK_NUMBERS_SPENT: return "no number is left";
    case MASTARIK_BUFFER_TOO_SHORT: return "list buffer too short";
    case MASTARIK_NO_SUCH_TOKEN: return "no such token of this host";
    case MASTARIK_TYPE_LACKING: return "a type that the token lacks";
    default: return "unknown";
    }
}

/* The name of one type, by its bit; "unknown" for any other number. */
static inline const char *mastarik_type_name(uint16_t type)
{
    switch (type) {
    case MASTARIK_DATA_READ: return "data read";
    case MASTARIK_DATA_WRITE: return "data write";
    case MASTARIK_STATUS_READ: return "status read";
    case MASTARIK_STATUS_WRITE: return "status write";
    case MASTARIK_LOCK_READ: return "lock read";
    case MASTARIK_LOCK_WRITE: return "lock write";
    case MASTARIK_OPEN_SHARED: return "open shared";
    case MASTARIK_OPEN_EXCLUSIVE: return "open exclusive";
    default: return "unknown";
    }
}

/* The name of one right, by its bit; "unknown" for any other number. */
static inline const char *mastarik_right_name(uint8_t right)
{
    switch (right) {
    case MASTARIK_READ: return "read";
    case MASTARIK_WRITE: return "write";
    case MASTARIK_EXECUTE: return "execute";
    case MASTARIK_CONTROL: return "control";
    case MASTARIK_INSERT: return "insert";
    case MASTARIK_DELETE: return "delete";
    default: return "unknown";
    }
}

/* The name of a kind; "unknown" for any other number. */
static inline const char *mastarik_kind_name(uint8_t kind)
{
    switch (kind) {
    case MASTARIK_DEFAULT_REALM: return "default_realm";
    case MASTARIK_USER_OBJ: return "user_obj";
    case MASTARIK_GROUP_OBJ: return "group_obj";
    case MASTARIK_OTHER_OBJ: return "other_obj";
    case MASTARIK_MASK_OBJ: return "mask_obj";
    case MASTARIK_ANY_OTHER: return "any_other";
    case MASTARIK_USER: return "user";
    case MASTARIK_GROUP: return "group";
    case MASTARIK_FOREIGN_USER: return "foreign_user";
    case MASTARIK_FOREIGN_GROUP: return "foreign_group";
    case MASTARIK_FOREIGN_OTHER: return "foreign_other";
    default: return "unknown";
    }
}

#ifdef __cplusplus
}
#endif

#endif
