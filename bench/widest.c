/* Each widest grant beside grants on copies of the table as it was before. */
#include "widest.h"

#include <inttypes.h>
#include <stdio.h>
#include <string.h>

#include "draw.h"

enum { RANGE_TYPES = MASTARIK_DATA_READ | MASTARIK_DATA_WRITE | MASTARIK_LOCK_READ | MASTARIK_LOCK_WRITE };

/* Where a widest grant was bounded, and past which tokens it went. */
enum kind { BELOW, ABOVE, BOTH, TOUCHED, UNBOUNDED, NO_RANGE_TYPE, PAST_OWN, PAST_READ, PAST_OTHER_FILE, KINDS };

static const char *const kind_names[KINDS] = {
    [BELOW] = "bounded below",
    [ABOVE] = "above",
    [BOTH] = "on both sides",
    [TOUCHED] = "by one that touches",
    [UNBOUNDED] = "by none",
    [NO_RANGE_TYPE] = "status and open alone",
    [PAST_OWN] = "past an own token",
    [PAST_READ] = "past a read beside a read",
    [PAST_OTHER_FILE] = "past one of another file",
};

static uint8_t before[TABLE_ROOM], tried[TABLE_ROOM];
static uint64_t given, kinds[KINDS];

/* Ends the program unless this holds, with a report of the table before. */
static void hold(bool holds, const char *what, struct input *in)
{
    if (!holds)
        memcpy(in->table, before, in->table_length);
    expect(holds, what, in);
}

/* A grant of the request with this range, on a copy of the table before. */
static mastarik_answer try_range(const struct input *in, uint64_t first, uint64_t last)
{
    mastarik_claim claim = in->claim;
    claim.first = first;
    claim.last = last;
    memcpy(tried, before, in->table_length);
    return mastarik_grant(tried, in->table_length, claim, in->list, in->list_length, in->groups, in->group_count,
                          in->caller, in->file);
}

/* How much wider a range is to be on a side with so much room. */
static uint64_t draw_more(uint64_t room)
{
    if (draw_chance(10))
        return room;
    return draw_below(room < 12 ? room + 1 : 12);
}

/* A range that holds the asked one is granted exactly where the widest one holds it. */
static void try_any_range(struct input *in, mastarik_answer answer)
{
    uint64_t first = in->claim.first - draw_more(in->claim.first);
    uint64_t last = in->claim.last + draw_more(UINT64_MAX - in->claim.last);
    bool within = first >= answer.first && last <= answer.last;
    hold(try_range(in, first, last).refused == (within ? 0 : MASTARIK_CONFLICT),
         "a range around the asked one is granted outside of the widest, or not within", in);
}

static void try_ranges(struct input *in, mastarik_answer answer)
{
    hold(answer.first <= in->claim.first && in->claim.last <= answer.last,
         "the widest range does not hold the asked one", in);
    mastarik_answer same = try_range(in, answer.first, answer.last);
    hold(same.refused == 0 && same.value == answer.value && memcmp(tried, in->table, in->table_length) == 0,
         "a grant of the widest range does something else", in);
    if (answer.first > 0)
        hold(try_range(in, answer.first - 1, answer.last).refused == MASTARIK_CONFLICT,
             "the byte below the widest range is no conflict", in);
    if (answer.last < UINT64_MAX)
        hold(try_range(in, answer.first, answer.last + 1).refused == MASTARIK_CONFLICT,
             "the byte above the widest range is no conflict", in);
    try_any_range(in, answer);
}

/* Whether data or lock types of two tokens conflict: both have one of a family, and at least one its second. */
static bool are_rivals(unsigned a, unsigned b)
{
    return (a | a << 1) & (b | b << 1) & (a | b) & (MASTARIK_DATA_WRITE | MASTARIK_LOCK_WRITE);
}

/* Counts which tokens reach into the widest range and not into the asked one: past those it went. */
static void count_passed(const struct input *in, mastarik_answer answer)
{
    const mastarik_claim *asked = &in->claim;
    bool passed[KINDS] = {false};
    mastarik_token token;
    for (size_t slot = 0; slot < mastarik_slot_count(in->table_length); slot++) {
        const mastarik_claim *held = &token.claim;
        if (!mastarik_token_at(before, in->table_length, slot, &token) || held->last < answer.first ||
            held->first > answer.last || (held->last >= asked->first && held->first <= asked->last))
            continue;
        bool same_file = memcmp(held->file, asked->file, sizeof held->file) == 0, own = held->host == asked->host;
        bool rivals = are_rivals(held->types, asked->types);
        passed[PAST_OWN] |= same_file && own && rivals;
        passed[PAST_READ] |= same_file && !own && (held->types & asked->types & MASTARIK_DATA_READ);
        passed[PAST_OTHER_FILE] |= !same_file && !own && rivals;
    }
    for (enum kind kind = PAST_OWN; kind < KINDS; kind++)
        kinds[kind] += passed[kind];
}

static void count_bounds(const struct input *in, mastarik_answer answer)
{
    const mastarik_claim *asked = &in->claim;
    bool below = answer.first > 0, above = answer.last < UINT64_MAX;
    kinds[BELOW] += below && !above;
    kinds[ABOVE] += above && !below;
    kinds[BOTH] += below && above;
    kinds[TOUCHED] += (below && answer.first == asked->first) || (above && answer.last == asked->last);
    kinds[UNBOUNDED] += !below && !above;
    kinds[NO_RANGE_TYPE] += (asked->types & RANGE_TYPES) == 0;
}

mastarik_answer compare_widest(struct input *in)
{
    memcpy(before, in->table, in->table_length);
    mastarik_answer answer = lockstep(GRANT_WIDEST, in);
    mastarik_answer asked = try_range(in, in->claim.first, in->claim.last);
    hold(asked.refused == answer.refused && asked.detail == answer.detail && asked.value == answer.value,
         "a widest grant is not refused where and as a grant is", in);
    if (answer.refused)
        return answer;
    try_ranges(in, answer);
    count_bounds(in, answer);
    count_passed(in, answer);
    given++;
    return answer;
}

unsigned widest_print_kinds(void)
{
    unsigned never = 0;
    printf("widest grants: %" PRIu64 " given", given);
    for (enum kind kind = 0; kind < KINDS; kind++) {
        printf(", %s x %" PRIu64, kind_names[kind], kinds[kind]);
        never += kinds[kind] == 0;
    }
    printf("\n");
    return never;
}
