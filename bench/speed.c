/* One call on prepared input, for the counting or timing of what it costs.
 *
 * speed rows          tries each row on both sides, and prints its name
 * speed ROW SIDE      prepares a row and makes its call: SIDE 0 the library's, 1 that by hand, 2 none
 * speed time          prints each row's name and the least ticks of a call, of the library and by hand
 */
#include <stdbool.h>
#include <string.h>

#include "calls.h"
#include "freestanding.h"

enum { SLOT_SIZE = MASTARIK_SLOT_SIZE, OWNER = 2, NOBODY = 8, FILE_GROUP = 4, FIRST_USER = 7, FIRST_GROUP = 1000 };

/* What a table holds: every second slot, or all; each token on its own file, or all on one; or all slots but the last,
 * on one file on both sides of a gap.
 */
enum held { EMPTY, HALF, FULL, ONE_FILE, APART };

enum { GAP = 4096 };

/* Who calls: the user of the last user record, of the default realm or of the zero one, or one whom the last of five
 * further groups helps, at home or not.
 */
enum who { NAMED, LOCAL, BY_GROUPS, STRANGER };

struct row {
    const char *name;
    enum call call;
    uint16_t slots;
    enum held held;
    uint16_t home;    /* records of users and groups in the list */
    uint16_t foreign; /* foreign_group records in the list */
    enum who who;
    uint16_t host;    /* whom drop host frees: 1 and 2 have half of the tokens each */
    bool added;       /* the entry is a new one, not one that the list has */
    uint8_t refused;  /* the answer that the row is meant to have */
};

static const struct row rows[] = {
    {.name = "fill, n = 1024", .call = FILL, .slots = 1024},

    {.name = "ask, empty", .call = ASK, .slots = 1024, .held = EMPTY, .home = 1},
    {.name = "ask, half full", .call = ASK, .slots = 1024, .held = HALF, .home = 1},
    {.name = "ask, full", .call = ASK, .slots = 1024, .held = FULL, .home = 1},
    {.name = "ask, one file, 512 in the way", .call = ASK, .slots = 1024, .held = ONE_FILE, .home = 1},
    {.name = "grant, empty", .call = GRANT, .slots = 1024, .held = EMPTY, .home = 1},
    {.name = "grant, half full", .call = GRANT, .slots = 1024, .held = HALF, .home = 1},
    {.name = "grant, full (33)", .call = GRANT, .slots = 1024, .held = FULL, .home = 1, .refused = 33},
    {.name = "grant, one file (32)", .call = GRANT, .slots = 1024, .held = ONE_FILE, .home = 1, .refused = 32},
    {.name = "widest grant, empty", .call = GRANT_WIDEST, .slots = 1024, .held = EMPTY, .home = 1},
    {.name = "widest grant, half full", .call = GRANT_WIDEST, .slots = 1024, .held = HALF, .home = 1},
    {.name = "widest grant, full (33)", .call = GRANT_WIDEST, .slots = 1024, .held = FULL, .home = 1, .refused = 33},
    {.name = "widest grant, one file (32)", .call = GRANT_WIDEST, .slots = 1024, .held = ONE_FILE, .home = 1,
     .refused = 32},
    {.name = "widest grant, one file, bounded", .call = GRANT_WIDEST, .slots = 1024, .held = APART, .home = 1},
    {.name = "return, empty (36)", .call = RETURN, .slots = 1024, .held = EMPTY, .refused = 36},
    {.name = "return, half full", .call = RETURN, .slots = 1024, .held = HALF},
    {.name = "return, full", .call = RETURN, .slots = 1024, .held = FULL},
    {.name = "return, one file", .call = RETURN, .slots = 1024, .held = ONE_FILE},
    {.name = "drop host, empty", .call = DROP_HOST, .slots = 1024, .held = EMPTY, .host = 1},
    {.name = "drop host, half full, none", .call = DROP_HOST, .slots = 1024, .held = HALF, .host = 3},
    {.name = "drop host, half full, 256", .call = DROP_HOST, .slots = 1024, .held = HALF, .host = 1},
    {.name = "drop host, full, none", .call = DROP_HOST, .slots = 1024, .held = FULL, .host = 3},
    {.name = "drop host, full, 512", .call = DROP_HOST, .slots = 1024, .held = FULL, .host = 1},
    {.name = "drop host, one file, none", .call = DROP_HOST, .slots = 1024, .held = ONE_FILE, .host = 3},
    {.name = "drop host, one file, 512", .call = DROP_HOST, .slots = 1024, .held = ONE_FILE, .host = 1},
    {.name = "audit, empty", .call = AUDIT, .slots = 1024, .held = EMPTY},
    {.name = "audit, half full", .call = AUDIT, .slots = 1024, .held = HALF},
    {.name = "audit, full", .call = AUDIT, .slots = 1024, .held = FULL},
    {.name = "audit, one file", .call = AUDIT, .slots = 1024, .held = ONE_FILE},

    {.name = "check, 31 bytes", .call = CHECK, .home = 1},
    {.name = "check, 399 bytes", .call = CHECK, .home = 62},
    {.name = "check, 4095 bytes", .call = CHECK, .home = 678},
    {.name = "check, 399 bytes, foreign", .call = CHECK, .foreign = 17},
    {.name = "check, 4095 bytes, foreign", .call = CHECK, .foreign = 185},
    {.name = "rights of a user, 31 bytes", .call = RIGHTS, .home = 1},
    {.name = "rights of a user, 399 bytes", .call = RIGHTS, .home = 62},
    {.name = "rights of a user, 4095 bytes", .call = RIGHTS, .home = 678},
    {.name = "rights of a user, 31 bytes, zero realm", .call = RIGHTS, .home = 1, .who = LOCAL},
    {.name = "rights of a user, 399 bytes, zero realm", .call = RIGHTS, .home = 62, .who = LOCAL},
    {.name = "rights of a user, 4095 bytes, zero realm", .call = RIGHTS, .home = 678, .who = LOCAL},
    {.name = "rights by 5 groups, 31 bytes", .call = RIGHTS, .home = 1, .who = BY_GROUPS},
    {.name = "rights by 5 groups, 399 bytes", .call = RIGHTS, .home = 62, .who = BY_GROUPS},
    {.name = "rights by 5 groups, 4095 bytes", .call = RIGHTS, .home = 678, .who = BY_GROUPS},
    {.name = "rights by 5 groups, 399 bytes, foreign", .call = RIGHTS, .foreign = 17, .who = STRANGER},
    {.name = "rights by 5 groups, 4095 bytes, foreign", .call = RIGHTS, .foreign = 185, .who = STRANGER},
    {.name = "needs, all types", .call = NEEDS},
    {.name = "put entry, 31 bytes", .call = PUT_ENTRY, .home = 1},
    {.name = "put entry, 399 bytes", .call = PUT_ENTRY, .home = 62},
    {.name = "put entry, 4095 bytes", .call = PUT_ENTRY, .home = 678},
    {.name = "put entry, 31 bytes, new", .call = PUT_ENTRY, .home = 1, .added = true},
    {.name = "put entry, 399 bytes, new", .call = PUT_ENTRY, .home = 62, .added = true},
    {.name = "drop entry, 31 bytes", .call = DROP_ENTRY, .home = 1},
    {.name = "drop entry, 399 bytes", .call = DROP_ENTRY, .home = 62},
    {.name = "drop entry, 4095 bytes", .call = DROP_ENTRY, .home = 678},

    {.name = "ask, half full, n = 64", .call = ASK, .slots = 64, .held = HALF, .home = 1},
    {.name = "ask, half full, n = 256", .call = ASK, .slots = 256, .held = HALF, .home = 1},
    {.name = "ask, half full, n = 1024", .call = ASK, .slots = 1024, .held = HALF, .home = 1},
    {.name = "grant, half full, n = 64", .call = GRANT, .slots = 64, .held = HALF, .home = 1},
    {.name = "grant, half full, n = 256", .call = GRANT, .slots = 256, .held = HALF, .home = 1},
    {.name = "grant, half full, n = 1024", .call = GRANT, .slots = 1024, .held = HALF, .home = 1},
    {.name = "widest grant, half full, n = 64", .call = GRANT_WIDEST, .slots = 64, .held = HALF, .home = 1},
    {.name = "widest grant, half full, n = 256", .call = GRANT_WIDEST, .slots = 256, .held = HALF, .home = 1},
    {.name = "widest grant, half full, n = 1024", .call = GRANT_WIDEST, .slots = 1024, .held = HALF, .home = 1},
    {.name = "audit, half full, n = 64", .call = AUDIT, .slots = 64, .held = HALF},
    {.name = "audit, half full, n = 256", .call = AUDIT, .slots = 256, .held = HALF},
    {.name = "audit, half full, n = 1024", .call = AUDIT, .slots = 1024, .held = HALF},
};

enum { ROWS = sizeof rows / sizeof rows[0], REPETITIONS = 100 };

static struct input input;

static void put16(uint8_t *bytes, uint16_t number)
{
    number = __builtin_bswap16(number);
    memcpy(bytes, &number, sizeof number);
}

static void put32(uint8_t *bytes, uint32_t number)
{
    number = __builtin_bswap32(number);
    memcpy(bytes, &number, sizeof number);
}

static void put64(uint8_t *bytes, uint64_t number)
{
    number = __builtin_bswap64(number);
    memcpy(bytes, &number, sizeof number);
}

/* Users have the odd ids from 7 on, groups the even ones from 1,000 on. */
static uint8_t *put_records(uint8_t *end, uint8_t kind, uint32_t first_id, size_t count)
{
    for (size_t i = 0; i < count; i++, end += 6) {
        end[0] = kind;
        put32(end + 1, first_id + 2 * (uint32_t)i);
        end[5] = 7;
    }
    return end;
}

static uint8_t *put_foreign_groups(uint8_t *end, size_t count)
{
    for (size_t i = 0; i < count; i++, end += 22) {
        end[0] = 10;
        memset(end + 1, 34, 16);
        put32(end + 17, FIRST_GROUP + 2 * (uint32_t)i);
        end[21] = 7;
    }
    return end;
}

static size_t users_of(const struct row *row)
{
    return (row->home + 1u) / 2;
}

/* The rules' list E, with any_other and further records where the row wants more than E's one. */
static void prepare_list(const struct row *row)
{
    static const uint8_t objects[] = {2, 15, 3, 5, 4, 4, 5, 3, 6, 1};
    uint8_t *end = input.list;
    *end++ = 1;
    memset(end, 17, 16);
    end += 16;
    size_t length = row->home > 1 ? 10 : 8;
    memcpy(end, objects, length);
    end = put_records(end + length, 7, FIRST_USER, users_of(row));
    end = put_records(end, 8, FIRST_GROUP, row->home / 2u);
    end = put_foreign_groups(end, row->foreign);
    input.list_length = (size_t)(end - input.list);
}

static bool is_named(const struct row *row)
{
    return row->who == NAMED || row->who == LOCAL;
}

static void prepare_caller(const struct row *row)
{
    static const uint8_t realms[] = {[NAMED] = 17, [LOCAL] = 0, [BY_GROUPS] = 17, [STRANGER] = 34};
    size_t groups = row->who == STRANGER ? row->foreign : row->home / 2u;
    memset(input.caller.realm, realms[row->who], sizeof input.caller.realm);
    input.caller.user = is_named(row) ? FIRST_USER + 2 * (uint32_t)(users_of(row) - 1) : NOBODY;
    input.caller.group = NOBODY;
    input.file = (mastarik_file){.owner = OWNER, .group = FILE_GROUP};
    input.group_count = is_named(row) ? 0 : 5;
    for (size_t i = 0; i < 4; i++)
        input.groups[i] = FIRST_GROUP + 1 + 2 * (uint32_t)i;
    input.groups[4] = groups ? FIRST_GROUP + 2 * (uint32_t)(groups - 1) : FILE_GROUP;
}

/* An entry for the user in the middle, or for one next to it. */
static void prepare_entry(const struct row *row)
{
    input.entry = (mastarik_entry){.kind = 7, .rights = 5, .id = FIRST_USER + 2 * (uint32_t)(users_of(row) / 2)};
    input.entry.id += row->added;
    input.out_length = sizeof input.out;
}

static unsigned tokens_of(const struct row *row)
{
    switch (row->held) {
    case EMPTY:
        return 0;
    case HALF:
        return row->slots / 2u;
    case APART:
        return row->slots - 1u;
    default:
        return row->slots;
    }
}

static bool is_one_file(const struct row *row)
{
    return row->held == ONE_FILE || row->held == APART;
}

/* Token i has byte i of its file for reading, past a gap in the middle if there is one; hosts 1 and 2 take turns. */
static void prepare_table(const struct row *row)
{
    uint8_t *slot = input.table;
    unsigned step = row->held == HALF ? 2 : 1, count = tokens_of(row);
    input.table_length = SLOT_SIZE * (1u + row->slots);
    memset(slot, 0, input.table_length);
    slot[0] = 2;
    put64(slot + 33, 1u + count);
    for (unsigned i = 0; i < count; i++) {
        slot = input.table + SLOT_SIZE * (1 + i * step);
        slot[0] = 1;
        put16(slot + 1, MASTARIK_DATA_READ);
        put16(slot + 3, (uint16_t)(1 + i % 2));
        put32(slot + 5, is_one_file(row) ? 0 : i);
        unsigned byte = row->held == APART && i >= row->slots / 2u ? GAP + i : i;
        put64(slot + 17, byte);
        put64(slot + 25, byte);
        put64(slot + 33, 1u + i);
    }
    input.host = row->host ? row->host : (uint16_t)(2 - count % 2);
    input.number = count;
    input.types = MASTARIK_DATA_READ;
}

/* A request that meets nothing, as its file is another; on a table of one file, the lower half of the tokens, or the
 * middle of the gap.
 */
static void prepare_claim(const struct row *row)
{
    input.claim = (mastarik_claim){.types = MASTARIK_DATA_WRITE, .host = 3, .last = row->slots / 2u - 1};
    if (!is_one_file(row))
        memset(input.claim.file, 255, sizeof input.claim.file);
    if (row->held == APART) {
        input.claim.last += GAP / 2;
        input.claim.first = input.claim.last;
    }
}

static void prepare(const struct row *row)
{
    prepare_list(row);
    prepare_caller(row);
    prepare_entry(row);
    input.types = 255;
    if (row->slots) {
        prepare_table(row);
        prepare_claim(row);
    }
}

static mastarik_answer call(const struct row *row, enum side side)
{
    struct lent lent = {input.list, input.table, input.out, input.groups};
    return make_call(side, row->call, &input, &lent);
}

static bool answers_as_meant(const struct row *row, enum side side)
{
    prepare(row);
    mastarik_answer answer = call(row, side);
    bool bounded = answer.first == row->slots / 2u && answer.last == row->slots / 2u + GAP - 1;
    return answer.refused == row->refused && (row->call != AUDIT || answer.value == 1) &&
           (row->held != APART || bounded);
}

static int print_rows(void)
{
    for (size_t i = 0; i < ROWS; i++) {
        print(rows[i].name);
        print("\n");
        if (!answers_as_meant(&rows[i], LIBRARY) || !answers_as_meant(&rows[i], BY_HAND))
            return 1;
    }
    return 0;
}

/* The least ticks of a row's call, or of none. */
static uint64_t least_ticks(const struct row *row, enum side side)
{
    uint64_t least = UINT64_MAX;
    for (int i = 0; i < REPETITIONS; i++) {
        prepare(row);
        uint64_t start = ticks();
        if (side < SIDES)
            call(row, side);
        uint64_t took = ticks() - start;
        least = took < least ? took : least;
    }
    return least;
}

static int print_times(void)
{
    for (size_t i = 0; i < ROWS; i++) {
        uint64_t none = least_ticks(&rows[i], SIDES);
        print(rows[i].name);
        print("|");
        print_number(least_ticks(&rows[i], LIBRARY) - none);
        print("|");
        print_number(least_ticks(&rows[i], BY_HAND) - none);
        print("\n");
    }
    return 0;
}

int run(int count, char **arguments)
{
    if (count == 2)
        return arguments[1][0] == 'r' ? print_rows() : print_times();
    size_t row = 0;
    for (const char *digit = arguments[1]; *digit; digit++)
        row = row * 10 + (size_t)(*digit - '0');
    prepare(&rows[row]);
    enum side side = (enum side)(arguments[2][0] - '0');
    if (side < SIDES)
        call(&rows[row], side);
    return 0;
}
