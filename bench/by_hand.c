/* The calls by hand, for a little-endian machine: lists and rights, then edits, then the token table. */
#include "by_hand.h"

#include <stdbool.h>
#include <string.h>

enum { LIST_LIMIT = 4096, REALM_SIZE = 16, GROUP_LIMIT = 32, MODE_LIMIT = 511, ALL_RIGHTS = 63 };

/* The kinds of a list's records. */
enum {
    DEFAULT_REALM = 1,
    USER_OBJ,
    GROUP_OBJ,
    OTHER_OBJ,
    MASK_OBJ,
    ANY_OTHER,
    USER,
    GROUP,
    FOREIGN_USER,
    FOREIGN_GROUP,
    FOREIGN_OTHER,
    KINDS_END
};

/* A record's size by its kind, the byte of kind included; 0 for an unknown kind. */
static const uint8_t record_size[256] = {
    [DEFAULT_REALM] = 17, [USER_OBJ] = 2,       [GROUP_OBJ] = 2,      [OTHER_OBJ] = 2,
    [MASK_OBJ] = 2,       [ANY_OTHER] = 2,      [USER] = 6,           [GROUP] = 6,
    [FOREIGN_USER] = 22,  [FOREIGN_GROUP] = 22, [FOREIGN_OTHER] = 18,
};

static const uint8_t unknown_realm[REALM_SIZE] = {255, 255, 255, 254};
static const uint8_t zero_realm[REALM_SIZE] = {0};

/* Where each kind stands in a list that passed: its records begin at from[kind] and end before from[kind + 1]. */
struct sections {
    size_t from[KINDS_END + 1];
};

/* What a rights judgement looks at. */
struct access {
    const uint8_t *list;
    size_t list_length;
    const uint32_t *groups;
    size_t group_count;
    const mastarik_caller *caller;
    const mastarik_file *file;
};

static uint16_t read16(const uint8_t *bytes)
{
    uint16_t number;
    memcpy(&number, bytes, sizeof number);
    return __builtin_bswap16(number);
}

static uint32_t read32(const uint8_t *bytes)
{
    uint32_t number;
    memcpy(&number, bytes, sizeof number);
    return __builtin_bswap32(number);
}

static uint64_t read64(const uint8_t *bytes)
{
    uint64_t number;
    memcpy(&number, bytes, sizeof number);
    return __builtin_bswap64(number);
}

static void write16(uint8_t *bytes, uint16_t number)
{
    number = __builtin_bswap16(number);
    memcpy(bytes, &number, sizeof number);
}

static void write32(uint8_t *bytes, uint32_t number)
{
    number = __builtin_bswap32(number);
    memcpy(bytes, &number, sizeof number);
}

static void write64(uint8_t *bytes, uint64_t number)
{
    number = __builtin_bswap64(number);
    memcpy(bytes, &number, sizeof number);
}

static mastarik_answer refuse(uint32_t number, uint64_t detail)
{
    return (mastarik_answer){.refused = number, .detail = detail};
}

static bool same_realm(const uint8_t *a, const uint8_t *b)
{
    return memcmp(a, b, REALM_SIZE) == 0;
}

static uint8_t rights_of(const uint8_t *record)
{
    return record[record_size[record[0]] - 1];
}

/* Whether a record stands above the one before it: in kind, then in body without the rights byte. */
static bool rises(const uint8_t *before, const uint8_t *record)
{
    if (before[0] != record[0])
        return before[0] < record[0];
    return record[0] != DEFAULT_REALM && memcmp(before + 1, record + 1, record_size[record[0]] - 2u) < 0;
}

/* Whether a record names a realm that it must not: the unknown one, or in a foreign record the default one. */
static bool names_forbidden_realm(const uint8_t *record, const uint8_t *default_realm)
{
    if (record[0] == DEFAULT_REALM)
        return same_realm(record + 1, unknown_realm);
    return record[0] >= FOREIGN_USER &&
           (same_realm(record + 1, unknown_realm) || same_realm(record + 1, default_realm));
}

/* The refusal of the record at a place, 12 to 16, or 0; the first record has none before it. */
static uint32_t judge_record(const uint8_t *list, size_t length, size_t place, const uint8_t *before)
{
    const uint8_t *record = list + place;
    size_t size = record_size[record[0]];
    if (size == 0)
        return MASTARIK_UNKNOWN_KIND;
    if (size > length - place)
        return MASTARIK_CUT_SHORT;
    if (record[0] != DEFAULT_REALM && rights_of(record) > ALL_RIGHTS)
        return MASTARIK_RIGHTS_ABOVE_63;
    if (before != NULL && !rises(before, record))
        return MASTARIK_OUT_OF_ORDER;
    if (names_forbidden_realm(record, list + 1))
        return MASTARIK_FORBIDDEN_REALM;
    return 0;
}

static bool has(const struct sections *sections, unsigned kind)
{
    return sections->from[kind] < sections->from[kind + 1];
}

/* The refusal of a list whose records all passed, 17 to 19, or 0. */
static uint32_t judge_whole(const uint8_t *list, const struct sections *sections)
{
    if (!has(sections, USER_OBJ) || !has(sections, GROUP_OBJ) || !has(sections, OTHER_OBJ))
        return MASTARIK_OBJECT_MISSING;
    if (sections->from[ANY_OTHER] < sections->from[KINDS_END] && !has(sections, MASK_OBJ))
        return MASTARIK_MASK_MISSING;
    if (!(rights_of(list + sections->from[USER_OBJ]) & MASTARIK_CONTROL))
        return MASTARIK_CONTROL_MISSING;
    return 0;
}

/* Checks a list and finds its sections. */
static mastarik_answer check(const uint8_t *list, size_t length, struct sections *sections)
{
    if (length > LIST_LIMIT)
        return refuse(MASTARIK_LIST_TOO_LONG, 0);
    if (length == 0 || list[0] != DEFAULT_REALM)
        return refuse(MASTARIK_NO_DEFAULT_REALM, 0);
    const uint8_t *before = NULL;
    unsigned kind = 0;
    for (size_t place = 0; place < length; place += record_size[list[place]]) {
        uint32_t refused = judge_record(list, length, place, before);
        if (refused)
            return refuse(refused, place);
        while (kind < list[place])
            sections->from[++kind] = place;
        before = list + place;
    }
    while (kind < KINDS_END)
        sections->from[++kind] = length;
    uint32_t refused = judge_whole(list, sections);
    return refuse(refused, refused ? length : 0);
}

mastarik_answer by_hand_check(const uint8_t *list, size_t list_length)
{
    struct sections sections;
    return check(list, list_length, &sections);
}

static bool is_member(const struct access *access, uint32_t group)
{
    if (access->caller->group == group)
        return true;
    for (size_t i = 0; i < access->group_count; i++)
        if (access->groups[i] == group)
            return true;
    return false;
}

/* The answer by the record at a place. */
static mastarik_answer decide(const uint8_t *list, size_t place, unsigned rights)
{
    return (mastarik_answer){.value = rights, .start = place, .length = record_size[list[place]]};
}

/* The place of the caller's own record among those of a kind, or 0; a foreign one must name the caller's realm too. */
static size_t find_user(const struct access *access, const struct sections *sections, unsigned kind)
{
    size_t size = record_size[kind];
    for (size_t place = sections->from[kind]; place < sections->from[kind + 1]; place += size) {
        const uint8_t *record = access->list + place;
        if (read32(record + size - 5) == access->caller->user &&
            (kind == USER || same_realm(record + 1, access->caller->realm)))
            return place;
    }
    return 0;
}

/* The place of the first record that matches one of the caller's groups, or 0; rights are the union of all that do. */
static size_t match_groups(const struct access *access, const struct sections *sections, bool home, unsigned *rights)
{
    unsigned kind = home ? GROUP : FOREIGN_GROUP;
    size_t size = record_size[kind], first = 0;
    *rights = 0;
    if (home && is_member(access, access->file->group)) {
        first = sections->from[GROUP_OBJ];
        *rights = rights_of(access->list + first);
    }
    for (size_t place = sections->from[kind]; place < sections->from[kind + 1]; place += size) {
        const uint8_t *record = access->list + place;
        if ((!home && !same_realm(record + 1, access->caller->realm)) || !is_member(access, read32(record + size - 5)))
            continue;
        if (first == 0)
            first = place;
        *rights |= rights_of(record);
    }
    return first;
}

/* The place of the foreign_other record of the caller's realm, or 0. */
static size_t find_foreign_other(const struct access *access, const struct sections *sections)
{
    size_t place = sections->from[FOREIGN_OTHER];
    for (; place < sections->from[KINDS_END]; place += record_size[FOREIGN_OTHER])
        if (same_realm(access->list + place + 1, access->caller->realm))
            return place;
    return 0;
}

/* The seven steps; place 0 is the default realm's, so it can say that nothing was found. */
static mastarik_answer rights_by_list(const struct access *access)
{
    const uint8_t *list = access->list;
    struct sections sections;
    mastarik_answer checked = check(list, access->list_length, &sections);
    if (checked.refused)
        return checked;
    unsigned mask = has(&sections, MASK_OBJ) ? rights_of(list + sections.from[MASK_OBJ]) : ALL_RIGHTS;
    bool home = same_realm(access->caller->realm, list + 1) || same_realm(access->caller->realm, zero_realm);
    if (home && access->caller->user == access->file->owner)
        return decide(list, sections.from[USER_OBJ], rights_of(list + sections.from[USER_OBJ]));
    size_t place = find_user(access, &sections, home ? USER : FOREIGN_USER);
    if (place)
        return decide(list, place, rights_of(list + place) & mask);
    unsigned rights;
    place = match_groups(access, &sections, home, &rights);
    if (place)
        return decide(list, place, rights & mask);
    if (home)
        return decide(list, sections.from[OTHER_OBJ], rights_of(list + sections.from[OTHER_OBJ]));
    place = find_foreign_other(access, &sections);
    if (place == 0 && has(&sections, ANY_OTHER))
        place = sections.from[ANY_OTHER];
    if (place)
        return decide(list, place, rights_of(list + place) & mask);
    return (mastarik_answer){0};
}

/* The rights that an octal digit of a mode stands for: there 4 is read, 2 write, 1 execute. */
static unsigned rights_of_digit(unsigned digit)
{
    return (digit & 4 ? MASTARIK_READ : 0) | (digit & 2 ? MASTARIK_WRITE : 0) | (digit & 1 ? MASTARIK_EXECUTE : 0);
}

static mastarik_answer rights_by_mode(const struct access *access)
{
    const mastarik_caller *caller = access->caller;
    const mastarik_file *file = access->file;
    if (same_realm(file->realm, unknown_realm))
        return refuse(MASTARIK_FORBIDDEN_REALM, 0);
    if (file->mode > MODE_LIMIT)
        return refuse(MASTARIK_MODE_ABOVE_511, 0);
    if (!same_realm(caller->realm, file->realm))
        return (mastarik_answer){0};
    unsigned rights;
    if (caller->user == file->owner)
        rights = rights_of_digit(file->mode >> 6) | MASTARIK_CONTROL;
    else if (is_member(access, file->group))
        rights = rights_of_digit(file->mode >> 3);
    else
        rights = rights_of_digit(file->mode);
    if (file->dir && (rights & MASTARIK_WRITE))
        rights |= MASTARIK_INSERT | MASTARIK_DELETE;
    return (mastarik_answer){.value = rights};
}

static mastarik_answer rights(const struct access *access)
{
    if (access->group_count > GROUP_LIMIT)
        return refuse(MASTARIK_TOO_MANY_GROUPS, 0);
    return access->file->by_mode ? rights_by_mode(access) : rights_by_list(access);
}

mastarik_answer by_hand_rights(const uint8_t *list, size_t list_length, const uint32_t *groups, size_t group_count,
                               mastarik_caller caller, mastarik_file file)
{
    return rights(&(struct access){list, list_length, groups, group_count, &caller, &file});
}

/* The first record fills the list's first bytes, the objects follow in order of their kinds. */
mastarik_answer by_hand_new_list(const uint8_t *realm, uint8_t user_obj, uint8_t group_obj, uint8_t other_obj,
                                 uint8_t *out, size_t out_length)
{
    uint8_t list[] = {DEFAULT_REALM, 0, 0, 0, 0, 0, 0, 0, 0, 0, 0, 0, 0, 0, 0, 0, 0,
                      USER_OBJ, user_obj, GROUP_OBJ, group_obj, OTHER_OBJ, other_obj};
    memcpy(list + 1, realm, REALM_SIZE);
    mastarik_answer answer = by_hand_check(list, sizeof list);
    if (answer.refused)
        return answer;
    if (out_length < sizeof list)
        return refuse(MASTARIK_OUTPUT_TOO_SHORT, 0);
    memcpy(out, list, sizeof list);
    return (mastarik_answer){.value = sizeof list};
}

/* Writes an entry as a record, with those of its numbers that its kind has, and gives the size. */
static size_t write_record(uint8_t *record, const mastarik_entry *entry)
{
    uint8_t *end = record;
    *end++ = entry->kind;
    if (entry->kind >= FOREIGN_USER) {
        memcpy(end, entry->realm, REALM_SIZE);
        end += REALM_SIZE;
    }
    if (entry->kind >= USER && entry->kind <= FOREIGN_GROUP) {
        write32(end, entry->id);
        end += 4;
    }
    *end++ = entry->rights;
    return (size_t)(end - record);
}

/* The place of the first record of the same kind that is not below the given one; found says that it is the same. */
static size_t locate(const uint8_t *list, const struct sections *sections, const uint8_t *record, bool *found)
{
    size_t size = record_size[record[0]], end = sections->from[record[0] + 1];
    *found = false;
    for (size_t place = sections->from[record[0]]; place < end; place += size) {
        int order = memcmp(list + place + 1, record + 1, size - 2);
        *found = order == 0;
        if (order >= 0)
            return place;
    }
    return end;
}

/* The refusals of an edit before 20: the old list's, then an unknown kind. */
static mastarik_answer check_edit(const uint8_t *list, size_t length, uint8_t kind, struct sections *sections)
{
    mastarik_answer checked = check(list, length, sections);
    if (!checked.refused && (kind < USER_OBJ || kind > FOREIGN_OTHER))
        return refuse(MASTARIK_UNKNOWN_KIND, 0);
    return checked;
}

/* The refusals of a new list whose old one passed: only the record put can be at fault, or a mask be missing. */
static mastarik_answer judge_put(const uint8_t *list, const struct sections *sections, const uint8_t *record,
                                 size_t place, size_t new_length)
{
    if (new_length > LIST_LIMIT)
        return refuse(MASTARIK_LIST_TOO_LONG, 0);
    if (rights_of(record) > ALL_RIGHTS)
        return refuse(MASTARIK_RIGHTS_ABOVE_63, place);
    if (names_forbidden_realm(record, list + 1))
        return refuse(MASTARIK_FORBIDDEN_REALM, place);
    if (record[0] >= ANY_OTHER && !has(sections, MASK_OBJ))
        return refuse(MASTARIK_MASK_MISSING, new_length);
    if (record[0] == USER_OBJ && !(rights_of(record) & MASTARIK_CONTROL))
        return refuse(MASTARIK_CONTROL_MISSING, new_length);
    return (mastarik_answer){0};
}

mastarik_answer by_hand_put_entry(const uint8_t *list, size_t list_length, mastarik_entry entry, uint8_t *out,
                                  size_t out_length)
{
    struct sections sections;
    mastarik_answer answer = check_edit(list, list_length, entry.kind, &sections);
    if (answer.refused)
        return answer;
    uint8_t record[22];
    size_t size = write_record(record, &entry);
    bool found;
    size_t place = locate(list, &sections, record, &found);
    size_t after = found ? place + size : place;
    size_t new_length = place + size + (list_length - after);
    answer = judge_put(list, &sections, record, place, new_length);
    if (answer.refused)
        return answer;
    if (out_length < new_length)
        return refuse(MASTARIK_OUTPUT_TOO_SHORT, 0);
    memcpy(out, list, place);
    memcpy(out + place, record, size);
    memcpy(out + place + size, list + after, list_length - after);
    return (mastarik_answer){.value = new_length};
}

mastarik_answer by_hand_drop_entry(const uint8_t *list, size_t list_length, mastarik_entry entry, uint8_t *out,
                                   size_t out_length)
{
    struct sections sections;
    mastarik_answer answer = check_edit(list, list_length, entry.kind, &sections);
    if (answer.refused)
        return answer;
    uint8_t record[22];
    size_t size = write_record(record, &entry);
    bool found;
    size_t place = locate(list, &sections, record, &found);
    if (!found)
        return refuse(MASTARIK_NOTHING_TO_DROP, 0);
    size_t new_length = list_length - size;
    if (entry.kind <= OTHER_OBJ)
        return refuse(MASTARIK_OBJECT_MISSING, new_length);
    if (entry.kind == MASK_OBJ && sections.from[ANY_OTHER] < list_length)
        return refuse(MASTARIK_MASK_MISSING, new_length);
    if (out_length < new_length)
        return refuse(MASTARIK_OUTPUT_TOO_SHORT, 0);
    memcpy(out, list, place);
    memcpy(out + place, list + place + size, new_length - place);
    return (mastarik_answer){.value = new_length};
}

enum { SLOT_SIZE = MASTARIK_SLOT_SIZE, ENTRY_SIZE = MASTARIK_CALL_BACK_SIZE, SLOT_LIMIT = 1024 };

/* First bytes of a slot, of the header and of an entry of ask's list. */
enum { FREE_SLOT = 0, HELD_SLOT = 1, HEADER = 2, ENTRY = 3 };

/* Places within a slot; the header has the next number where a slot has its own. */
enum { TYPES_AT = 1, HOST_AT = 3, FILE_AT = 5, FIRST_AT = 17, LAST_AT = 25, NUMBER_AT = 33 };

enum { FILE_SIZE = 12 };

/* The first and the second types of the families, and the types that cover the whole file whatever the range. */
enum { FIRST_TYPES = 0x55, SECOND_TYPES = 0xaa, WHOLE_FILE_TYPES = 0xcc };

/* Whether all of some bytes, a multiple of eight, are 0. */
static bool all_zero(const uint8_t *bytes, size_t length)
{
    uint64_t seen = 0, word;
    for (size_t i = 0; i < length; i += sizeof word) {
        memcpy(&word, bytes + i, sizeof word);
        seen |= word;
    }
    return seen == 0;
}

static bool length_fits(size_t length)
{
    return length % SLOT_SIZE == 0 && length >= 2 * SLOT_SIZE && length <= (1 + SLOT_LIMIT) * SLOT_SIZE;
}

static bool header_fits(const uint8_t *table, size_t length)
{
    return length_fits(length) && table[0] == HEADER && all_zero(table + 1, NUMBER_AT - 1) &&
           read64(table + NUMBER_AT) != 0;
}

static bool types_fit(uint16_t types)
{
    return types >= 1 && types <= 255;
}

static bool slot_fits(const uint8_t *slot, uint64_t next)
{
    if (slot[0] == FREE_SLOT)
        return all_zero(slot + 1, SLOT_SIZE - 1);
    uint64_t number = read64(slot + NUMBER_AT);
    return slot[0] == HELD_SLOT && types_fit(read16(slot + TYPES_AT)) && read16(slot + HOST_AT) != 0 &&
           read64(slot + FIRST_AT) <= read64(slot + LAST_AT) && number >= 1 && number < next;
}

/* The types that no other host may hold beside these: a family's second, and beside a second its first as well. */
static unsigned rival_types(unsigned types)
{
    unsigned seconds = (types | types << 1) & SECOND_TYPES;
    unsigned firsts = types >> 1 & FIRST_TYPES;
    return seconds | firsts;
}

/* The types of a slot that conflict with a claim; none of a free slot. */
static uint8_t conflicting_types(const uint8_t *slot, const mastarik_claim *claim)
{
    if (read16(slot + HOST_AT) == claim->host || memcmp(slot + FILE_AT, claim->file, FILE_SIZE) != 0)
        return 0;
    unsigned types = read16(slot + TYPES_AT) & rival_types(claim->types);
    if (claim->first > read64(slot + LAST_AT) || read64(slot + FIRST_AT) > claim->last)
        types &= WHOLE_FILE_TYPES;
    return (uint8_t)types;
}

mastarik_answer by_hand_fill(uint8_t *table, size_t table_length)
{
    if (!length_fits(table_length))
        return refuse(MASTARIK_TABLE_NOT_WELL_FORMED, 0);
    memset(table, 0, table_length);
    table[0] = HEADER;
    write64(table + NUMBER_AT, 1);
    return (mastarik_answer){0};
}

/* What one pass over a table finds for a claim; a malformed one finds something as well, of no use. */
struct survey {
    bool well_formed;
    size_t conflicts;
    size_t free_place; /* of the lowest free slot; 0 where none is free */
};

static struct survey survey(const uint8_t *table, size_t length, const mastarik_claim *claim)
{
    struct survey seen = {0};
    if (!header_fits(table, length))
        return seen;
    uint64_t next = read64(table + NUMBER_AT);
    for (size_t place = SLOT_SIZE; place < length; place += SLOT_SIZE) {
        const uint8_t *slot = table + place;
        if (!slot_fits(slot, next))
            return seen;
        if (slot[0] == FREE_SLOT) {
            if (seen.free_place == 0)
                seen.free_place = place;
        } else if (conflicting_types(slot, claim)) {
            seen.conflicts++;
        }
    }
    seen.well_formed = true;
    return seen;
}

/* The rights that types need: those that need write need insert and delete on a directory instead. */
static unsigned needed_rights(unsigned types, bool dir)
{
    unsigned reading = MASTARIK_DATA_READ | MASTARIK_STATUS_READ | MASTARIK_LOCK_READ | MASTARIK_OPEN_SHARED;
    unsigned writing = MASTARIK_DATA_WRITE | MASTARIK_LOCK_WRITE | MASTARIK_OPEN_EXCLUSIVE;
    unsigned needed = 0;
    if (types & reading)
        needed |= MASTARIK_READ;
    if (types & MASTARIK_STATUS_WRITE)
        needed |= MASTARIK_CONTROL;
    if (types & writing)
        needed |= dir ? MASTARIK_INSERT | MASTARIK_DELETE : MASTARIK_WRITE;
    return needed;
}

mastarik_answer by_hand_needs(uint16_t types, uint8_t dir)
{
    return (mastarik_answer){.value = needed_rights(types, dir != 0)};
}

/* The refusals that ask and grant share, from 30 down to 24. */
static mastarik_answer judge_request(const struct survey *seen, const mastarik_claim *claim,
                                     const struct access *access)
{
    if (!seen->well_formed)
        return refuse(MASTARIK_TABLE_NOT_WELL_FORMED, 0);
    if (claim->host == 0 || !types_fit(claim->types) || claim->first > claim->last)
        return refuse(MASTARIK_REQUEST_MALFORMED, 0);
    mastarik_answer judged = rights(access);
    if (judged.refused)
        return judged;
    if (needed_rights(claim->types, access->file->dir != 0) & ~judged.value)
        return refuse(MASTARIK_RIGHT_MISSING, 0);
    return (mastarik_answer){0};
}

mastarik_answer by_hand_ask(const uint8_t *table, size_t table_length, mastarik_claim claim, const uint8_t *list,
                            size_t list_length, const uint32_t *groups, size_t group_count, mastarik_caller caller,
                            mastarik_file file, uint8_t *out, size_t out_length)
{
    struct access access = {list, list_length, groups, group_count, &caller, &file};
    struct survey seen = survey(table, table_length, &claim);
    mastarik_answer answer = judge_request(&seen, &claim, &access);
    if (answer.refused)
        return answer;
    if (out_length < seen.conflicts * ENTRY_SIZE)
        return refuse(MASTARIK_BUFFER_TOO_SHORT, seen.conflicts);
    size_t left = seen.conflicts;
    for (const uint8_t *slot = table + SLOT_SIZE; left > 0; slot += SLOT_SIZE) {
        uint8_t types = conflicting_types(slot, &claim);
        if (types == 0)
            continue;
        out[0] = ENTRY;
        memcpy(out + 1, slot + NUMBER_AT, 8);
        memcpy(out + 9, slot + HOST_AT, 2);
        write16(out + 11, types);
        out += ENTRY_SIZE;
        left--;
    }
    return (mastarik_answer){.value = seen.conflicts};
}

static void write_slot(uint8_t *slot, const mastarik_claim *claim, uint64_t number)
{
    slot[0] = HELD_SLOT;
    write16(slot + TYPES_AT, claim->types);
    write16(slot + HOST_AT, claim->host);
    memcpy(slot + FILE_AT, claim->file, FILE_SIZE);
    write64(slot + FIRST_AT, claim->first);
    write64(slot + LAST_AT, claim->last);
    write64(slot + NUMBER_AT, number);
}

/* The refusals that a grant has beside those of any request, 32 to 34, or 0. */
static uint32_t judge_grant(const struct survey *seen, uint64_t next)
{
    if (seen->conflicts > 0)
        return MASTARIK_CONFLICT;
    if (seen->free_place == 0)
        return MASTARIK_NO_FREE_SLOT;
    return next == UINT64_MAX ? MASTARIK_NUMBERS_SPENT : 0;
}

/* Writes a claim into a free slot under the next number. */
static void enter(uint8_t *table, size_t place, const mastarik_claim *claim, uint64_t next)
{
    write_slot(table + place, claim, next);
    write64(table + NUMBER_AT, next + 1);
}

mastarik_answer by_hand_grant(uint8_t *table, size_t table_length, mastarik_claim claim, const uint8_t *list,
                              size_t list_length, const uint32_t *groups, size_t group_count, mastarik_caller caller,
                              mastarik_file file)
{
    struct access access = {list, list_length, groups, group_count, &caller, &file};
    struct survey seen = survey(table, table_length, &claim);
    mastarik_answer answer = judge_request(&seen, &claim, &access);
    if (answer.refused)
        return answer;
    uint64_t next = read64(table + NUMBER_AT);
    uint32_t refused = judge_grant(&seen, next);
    if (refused)
        return refuse(refused, 0);
    enter(table, seen.free_place, &claim, next);
    return (mastarik_answer){.value = next};
}

/* What one pass finds where the widest range is wanted: beside the rest, what the rivals seen leave of all bytes. */
struct wide_survey {
    struct survey seen;
    uint64_t first, last;
};

/* The types of a slot that would conflict with a claim over all bytes; none of a free slot. */
static unsigned rivals_in(const uint8_t *slot, const mastarik_claim *claim)
{
    if (read16(slot + HOST_AT) == claim->host || memcmp(slot + FILE_AT, claim->file, FILE_SIZE) != 0)
        return 0;
    return read16(slot + TYPES_AT) & rival_types(claim->types);
}

/* A rival with a byte of the claim's is in the way; another leaves the side of it on which the claim is. */
static void pass_rival(struct wide_survey *told, const uint8_t *slot, const mastarik_claim *claim, unsigned rivals)
{
    uint64_t first = read64(slot + FIRST_AT), last = read64(slot + LAST_AT);
    if (last < claim->first)
        told->first = told->first > last ? told->first : last + 1;
    else if (first > claim->last)
        told->last = told->last < first ? told->last : first - 1;
    else
        rivals = WHOLE_FILE_TYPES;
    told->seen.conflicts += (rivals & WHOLE_FILE_TYPES) != 0;
}

static struct wide_survey survey_widest(const uint8_t *table, size_t length, const mastarik_claim *claim)
{
    struct wide_survey told = {.last = UINT64_MAX};
    if (!header_fits(table, length))
        return told;
    uint64_t next = read64(table + NUMBER_AT);
    for (size_t place = SLOT_SIZE; place < length; place += SLOT_SIZE) {
        const uint8_t *slot = table + place;
        if (!slot_fits(slot, next))
            return told;
        unsigned rivals;
        if (slot[0] == FREE_SLOT) {
            if (told.seen.free_place == 0)
                told.seen.free_place = place;
        } else if ((rivals = rivals_in(slot, claim)) != 0) {
            pass_rival(&told, slot, claim, rivals);
        }
    }
    told.seen.well_formed = true;
    return told;
}

mastarik_answer by_hand_grant_widest(uint8_t *table, size_t table_length, mastarik_claim claim, const uint8_t *list,
                                     size_t list_length, const uint32_t *groups, size_t group_count,
                                     mastarik_caller caller, mastarik_file file)
{
    struct access access = {list, list_length, groups, group_count, &caller, &file};
    struct wide_survey told = survey_widest(table, table_length, &claim);
    mastarik_answer answer = judge_request(&told.seen, &claim, &access);
    if (answer.refused)
        return answer;
    uint64_t next = read64(table + NUMBER_AT);
    uint32_t refused = judge_grant(&told.seen, next);
    if (refused)
        return refuse(refused, 0);
    claim.first = told.first;
    claim.last = told.last;
    enter(table, told.seen.free_place, &claim, next);
    return (mastarik_answer){.value = next, .first = told.first, .last = told.last};
}

mastarik_answer by_hand_return(uint8_t *table, size_t table_length, uint16_t host, uint64_t number, uint16_t types)
{
    if (!header_fits(table, table_length))
        return refuse(MASTARIK_TABLE_NOT_WELL_FORMED, 0);
    uint64_t next = read64(table + NUMBER_AT);
    uint8_t *found = NULL;
    for (uint8_t *slot = table + SLOT_SIZE; slot < table + table_length; slot += SLOT_SIZE) {
        if (!slot_fits(slot, next))
            return refuse(MASTARIK_TABLE_NOT_WELL_FORMED, 0);
        if (found == NULL && read64(slot + NUMBER_AT) == number && read16(slot + HOST_AT) == host)
            found = slot;
    }
    if (host == 0 || !types_fit(types))
        return refuse(MASTARIK_REQUEST_MALFORMED, 0);
    if (found == NULL)
        return refuse(MASTARIK_NO_SUCH_TOKEN, 0);
    uint16_t held = read16(found + TYPES_AT);
    if (types & ~held)
        return refuse(MASTARIK_TYPE_LACKING, 0);
    if (held == types)
        memset(found, 0, SLOT_SIZE);
    else
        write16(found + TYPES_AT, held & ~types);
    return (mastarik_answer){0};
}

mastarik_answer by_hand_drop_host(uint8_t *table, size_t table_length, uint16_t host)
{
    if (!header_fits(table, table_length))
        return refuse(MASTARIK_TABLE_NOT_WELL_FORMED, 0);
    uint64_t next = read64(table + NUMBER_AT);
    size_t count = 0;
    for (uint8_t *slot = table + SLOT_SIZE; slot < table + table_length; slot += SLOT_SIZE) {
        if (!slot_fits(slot, next))
            return refuse(MASTARIK_TABLE_NOT_WELL_FORMED, 0);
        count += read16(slot + HOST_AT) == host;
    }
    if (host == 0)
        return refuse(MASTARIK_REQUEST_MALFORMED, 0);
    size_t left = count;
    for (uint8_t *slot = table + SLOT_SIZE; left > 0; slot += SLOT_SIZE) {
        if (read16(slot + HOST_AT) != host)
            continue;
        memset(slot, 0, SLOT_SIZE);
        left--;
    }
    return (mastarik_answer){.value = count};
}

static mastarik_claim read_claim(const uint8_t *slot)
{
    mastarik_claim claim = {
        .types = read16(slot + TYPES_AT),
        .host = read16(slot + HOST_AT),
        .first = read64(slot + FIRST_AT),
        .last = read64(slot + LAST_AT),
    };
    memcpy(claim.file, slot + FILE_AT, FILE_SIZE);
    return claim;
}

/* Each token is held against those in the slots before it. */
mastarik_answer by_hand_audit(const uint8_t *table, size_t table_length)
{
    if (!header_fits(table, table_length))
        return (mastarik_answer){0};
    uint64_t next = read64(table + NUMBER_AT);
    const uint8_t *held[SLOT_LIMIT];
    size_t count = 0;
    for (const uint8_t *slot = table + SLOT_SIZE; slot < table + table_length; slot += SLOT_SIZE) {
        if (!slot_fits(slot, next))
            return (mastarik_answer){0};
        if (slot[0] == FREE_SLOT)
            continue;
        mastarik_claim claim = read_claim(slot);
        for (size_t i = 0; i < count; i++)
            if (memcmp(held[i] + NUMBER_AT, slot + NUMBER_AT, 8) == 0 || conflicting_types(held[i], &claim))
                return (mastarik_answer){0};
        held[count++] = slot;
    }
    return (mastarik_answer){.value = 1};
}
