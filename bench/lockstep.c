/* Both sides of a call, on copies of what is lent between guard bytes. The guard bytes of the two sides differ, so that
 * an answer which depends on a byte outside of its buffer shows as well.
 */
#include "lockstep.h"

#include <inttypes.h>
#include <stdio.h>
#include <stdlib.h>
#include <string.h>

#include "draw.h"
#include "easy.h"

const char *const call_names[CALLS] = {"check", "rights", "needs",        "new list", "put entry", "drop entry", "fill",
                                       "ask",   "grant",  "widest grant", "return",   "drop host", "audit"};

static const char *const side_names[SIDES] = {"library", "by hand"};

enum buffer { LIST, GROUPS, TABLE, OUT, BUFFERS };

static const char *const buffer_names[BUFFERS] = {"list", "groups", "table", "out"};

/* Which buffers a call is lent and which of them it may write, a bit each. */
static const struct {
    unsigned lent, written;
} uses[CALLS] = {
    [CHECK] = {1 << LIST, 0},
    [RIGHTS] = {1 << LIST | 1 << GROUPS, 0},
    [NEEDS] = {0, 0},
    [NEW_LIST] = {1 << OUT, 1 << OUT},
    [PUT_ENTRY] = {1 << LIST | 1 << OUT, 1 << OUT},
    [DROP_ENTRY] = {1 << LIST | 1 << OUT, 1 << OUT},
    [FILL] = {1 << TABLE, 1 << TABLE},
    [ASK] = {1 << LIST | 1 << GROUPS | 1 << TABLE | 1 << OUT, 1 << OUT},
    [GRANT] = {1 << LIST | 1 << GROUPS | 1 << TABLE, 1 << TABLE},
    [GRANT_WIDEST] = {1 << LIST | 1 << GROUPS | 1 << TABLE, 1 << TABLE},
    [RETURN] = {1 << TABLE, 1 << TABLE},
    [DROP_HOST] = {1 << TABLE, 1 << TABLE},
    [AUDIT] = {1 << TABLE, 0},
};

/* A side's copy of a buffer starts after the guard and a shift of up to seven bytes, and a guard follows it. */
enum { GUARD = 64, SHIFT_LIMIT = 8, ROOM = TABLE_ROOM + SHIFT_LIMIT + 2 * GUARD };

struct room {
    _Alignas(16) uint8_t bytes[ROOM];
    uint8_t *start;
    uint8_t guard;
};

static struct room rooms[SIDES][BUFFERS];
static struct tally tallies[CALLS];
static uint64_t empty[BUFFERS];
static mastarik_answer answers[SIDES];
static enum call last_call;
static const char *group_name;
static uint64_t group_seed, group_round;

static const uint8_t *buffer_bytes(const struct input *input, enum buffer buffer)
{
    const uint8_t *const bytes[BUFFERS] = {input->list, (const uint8_t *)input->groups, input->table, input->out};
    return bytes[buffer];
}

static size_t buffer_length(const struct input *input, enum buffer buffer)
{
    const size_t lengths[BUFFERS] = {input->list_length, input->group_count * sizeof(uint32_t), input->table_length,
                                     input->out_length};
    return lengths[buffer];
}

static void lay(struct room *room, const uint8_t *bytes, size_t length, size_t shift, uint8_t guard)
{
    room->start = room->bytes + GUARD + shift;
    room->guard = guard;
    memset(room->bytes, guard, GUARD + shift);
    memcpy(room->start, bytes, length);
    memset(room->start + length, guard, GUARD);
}

static bool guards_stand(const struct room *room, size_t length)
{
    for (const uint8_t *byte = room->bytes; byte < room->start; byte++)
        if (*byte != room->guard)
            return false;
    for (const uint8_t *byte = room->start + length; byte < room->start + length + GUARD; byte++)
        if (*byte != room->guard)
            return false;
    return true;
}

static void print_hex(const char *name, const uint8_t *bytes, size_t length)
{
    printf("%s, %zu bytes:", name, length);
    for (size_t i = 0; i < length; i++)
        printf("%s%02x", i % 41 == 0 ? "\n  " : " ", bytes[i]);
    printf("\n");
}

static void print_numbers(const struct input *in)
{
    const mastarik_caller *caller = &in->caller;
    const mastarik_file *file = &in->file;
    const mastarik_entry *entry = &in->entry;
    const mastarik_claim *claim = &in->claim;
    printf("caller: user %" PRIu32 ", group %" PRIu32 "\n", caller->user, caller->group);
    print_hex("caller's realm", caller->realm, sizeof caller->realm);
    printf("file: owner %" PRIu32 ", group %" PRIu32 ", dir %d, by_mode %d, mode %" PRIu32 "\n", file->owner,
           file->group, file->dir, file->by_mode, file->mode);
    print_hex("local realm", file->realm, sizeof file->realm);
    printf("entry: kind %d, id %" PRIu32 ", rights %d\n", entry->kind, entry->id, entry->rights);
    print_hex("entry's realm", entry->realm, sizeof entry->realm);
    printf("objects: %d, %d, %d\n", in->objects[0], in->objects[1], in->objects[2]);
    printf("claim: types %d, host %d, first %" PRIu64 ", last %" PRIu64 "\n", claim->types, claim->host, claim->first,
           claim->last);
    print_hex("claim's file", claim->file, sizeof claim->file);
    printf("host %d, number %" PRIu64 ", types %d\n", in->host, in->number, in->types);
}

static void print_answer(const char *name, const mastarik_answer *answer)
{
    printf("%s: refused %" PRIu32 ", value %" PRIu64 ", detail %" PRIu64 ", start %zu, length %zu, first %" PRIu64
           ", last %" PRIu64 "\n",
           name, answer->refused, answer->value, answer->detail, answer->start, answer->length, answer->first,
           answer->last);
}

/* Prints what was lent and answered at the last call, and ends the program. */
static _Noreturn void report(const char *what, const struct input *input)
{
    printf("DIFFERENCE: %s\nseed %" PRIu64 ", %s, round %" PRIu64 ", call %s\n", what, group_seed, group_name,
           group_round, call_names[last_call]);
    for (enum side side = 0; side < SIDES; side++)
        print_answer(side_names[side], &answers[side]);
    print_numbers(input);
    for (enum buffer buffer = 0; buffer < BUFFERS; buffer++) {
        if (!(uses[last_call].lent & 1u << buffer))
            continue;
        size_t length = buffer_length(input, buffer);
        print_hex(buffer_names[buffer], buffer_bytes(input, buffer), length);
        for (enum side side = 0; side < SIDES; side++) {
            printf("after the call, %s: ", side_names[side]);
            print_hex(buffer_names[buffer], rooms[side][buffer].start, length);
        }
    }
    exit(EXIT_FAILURE);
}

void expect(bool holds, const char *what, const struct input *input)
{
    if (!holds)
        report(what, input);
}

static void compare_buffer(struct input *input, enum buffer buffer)
{
    const uint8_t *lent = buffer_bytes(input, buffer);
    size_t length = buffer_length(input, buffer);
    const uint8_t *by_library = rooms[LIBRARY][buffer].start, *by_hand = rooms[BY_HAND][buffer].start;
    expect(guards_stand(&rooms[LIBRARY][buffer], length), "the library wrote outside of a buffer", input);
    expect(guards_stand(&rooms[BY_HAND][buffer], length), "the code by hand wrote outside of a buffer", input);
    expect(memcmp(by_library, by_hand, length) == 0, "lent bytes differ", input);
    if (!(uses[last_call].written & 1u << buffer))
        expect(memcmp(by_library, lent, length) == 0, "a buffer lent for reading changed", input);
    else if (answers[LIBRARY].refused)
        expect(memcmp(by_library, lent, length) == 0, "a refusal changed a buffer", input);
    else
        memcpy(buffer == TABLE ? input->table : input->out, by_library, length);
}

bool same_answer(mastarik_answer a, mastarik_answer b)
{
    return a.refused == b.refused && a.value == b.value && a.detail == b.detail && a.start == b.start &&
           a.length == b.length && a.first == b.first && a.last == b.last;
}

void tally_add(struct tally *tally, mastarik_answer answer)
{
    tally->calls++;
    tally->refused[answer.refused]++;
}

const struct tally *lockstep_tally(enum call call)
{
    return &tallies[call];
}

unsigned lockstep_print_empty(void)
{
    unsigned never = 0;
    printf("lent as NULL:");
    for (enum buffer buffer = 0; buffer < BUFFERS; buffer++) {
        printf(" %s x %" PRIu64, buffer_names[buffer], empty[buffer]);
        never += empty[buffer] == 0;
    }
    printf("\n");
    return never;
}

void lockstep_begin(const char *group, uint64_t seed, uint64_t round)
{
    group_name = group;
    group_seed = seed;
    group_round = round;
}

mastarik_answer lockstep(enum call call, struct input *input)
{
    last_call = call;
    uint8_t guard = (uint8_t)draw();
    for (enum side side = 0; side < SIDES; side++) {
        for (enum buffer buffer = 0; buffer < BUFFERS; buffer++)
            if (uses[call].lent & 1u << buffer)
                lay(&rooms[side][buffer], buffer_bytes(input, buffer), buffer_length(input, buffer),
                    buffer == GROUPS ? 0 : draw_below(SHIFT_LIMIT), side == LIBRARY ? guard : (uint8_t)~guard);
        struct lent lent = {
            .list = rooms[side][LIST].start,
            .table = rooms[side][TABLE].start,
            .out = rooms[side][OUT].start,
            .groups = (const uint32_t *)(const void *)rooms[side][GROUPS].start,
        };
        answers[side] = side == LIBRARY ? make_easy_call(call, input, &lent) : make_call(side, call, input, &lent);
    }
    expect(same_answer(answers[LIBRARY], answers[BY_HAND]), "the answers differ", input);
    expect(answers[LIBRARY].refused <= MASTARIK_TYPE_LACKING, "not a refusal of the rules", input);
    for (enum buffer buffer = 0; buffer < BUFFERS; buffer++) {
        if (!(uses[call].lent & 1u << buffer))
            continue;
        compare_buffer(input, buffer);
        empty[buffer] += buffer_length(input, buffer) == 0;
    }
    tally_add(&tallies[call], answers[LIBRARY]);
    return answers[LIBRARY];
}
