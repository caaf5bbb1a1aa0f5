/* Compares the library with the code by hand on random input: compare [SEED [ROUNDS]]. */
#include <inttypes.h>
#include <stdio.h>
#include <stdlib.h>
#include <string.h>

#include "draw.h"
#include "histories.h"
#include "inputs.h"
#include "local.h"
#include "readers.h"
#include "widest.h"

/* The refusals that a run must bring up, call by call; 0 ends a row. */
static const uint8_t refusals[CALLS][20] = {
    [CHECK] = {10, 11, 12, 13, 14, 15, 16, 17, 18, 19},
    [RIGHTS] = {10, 11, 12, 13, 14, 15, 16, 17, 18, 19, 22, 23},
    [NEW_LIST] = {14, 16, 19, 21},
    [PUT_ENTRY] = {10, 11, 12, 13, 14, 15, 16, 17, 18, 19, 21},
    [DROP_ENTRY] = {10, 11, 12, 13, 14, 15, 16, 17, 18, 19, 20, 21},
    [FILL] = {30},
    [ASK] = {10, 11, 12, 13, 14, 15, 16, 17, 18, 19, 22, 23, 24, 30, 31, 35},
    [GRANT] = {10, 11, 12, 13, 14, 15, 16, 17, 18, 19, 22, 23, 24, 30, 31, 32, 33, 34},
    [GRANT_WIDEST] = {10, 11, 12, 13, 14, 15, 16, 17, 18, 19, 22, 23, 24, 30, 31, 32, 33, 34},
    [RETURN] = {30, 31, 36, 37},
    [DROP_HOST] = {30, 31},
};

/* Those of edits of a list that passes. */
static const uint8_t put_refusals[] = {10, 12, 14, 16, 18, 19, 21, 0};
static const uint8_t drop_refusals[] = {12, 17, 18, 20, 21, 0};

static struct input input;
static struct tally puts_to_passing, drops_from_passing;
static struct history_counts history_counts;
static uint64_t audits_yes;

/* How often a record of each kind decided about rights, and, at 0, none. */
static uint64_t decided[12];

/* A list, damaged unless it is to pass. */
static void make_any_list(bool generous, bool passing)
{
    if (draw_chance(10))
        make_long_list(&input);
    else
        make_list(&input, generous);
    if (!passing)
        for (uint64_t damages = 1 + draw_below(3); damages > 0; damages--)
            damage_list(&input);
}

static void compare_check(void)
{
    bool passing = draw_chance(40);
    make_any_list(false, passing);
    if (!passing && draw_chance(10)) {
        input.list_length = draw_below(60);
        draw_bytes(input.list, input.list_length);
    }
    mastarik_answer answer = lockstep(CHECK, &input);
    if (passing)
        expect(answer.refused == 0, "a list that passes is refused", &input);
    compare_walk(&input, passing);
}

static void compare_rights(void)
{
    make_any_list(false, draw_chance(80));
    make_access(&input, draw_chance(80));
    mastarik_answer answer = lockstep(RIGHTS, &input);
    if (answer.refused == 0 && !input.file.by_mode)
        decided[answer.length ? input.list[answer.start] : 0]++;
    if (draw_chance(30))
        compare_local(&input);
}

/* Every set of types, with bits above them. */
static void compare_needs(void)
{
    input.file.dir = (uint8_t)(draw_chance(50) ? draw_below(2) : draw());
    unsigned above = (unsigned)(draw_chance(50) ? 0 : draw_below(256)) << 8;
    for (unsigned types = 0; types < 256; types++) {
        input.types = (uint16_t)(above | types);
        lockstep(NEEDS, &input);
    }
}

/* An output buffer just long enough, one byte or a unit short, empty, or longer. */
static void make_out(size_t needed, size_t unit)
{
    const size_t lengths[] = {needed, needed, needed > 0 ? needed - 1 : 0, 0, needed > unit ? needed - unit : 0,
                              needed + 1, needed + draw_below(40)};
    input.out_length = lengths[draw_below(7)];
    draw_bytes(input.out, input.out_length);
}

static void compare_new_list(void)
{
    make_new_list(&input);
    make_out(MASTARIK_NEW_LIST_SIZE, 2);
    mastarik_answer answer = lockstep(NEW_LIST, &input);
    if (answer.refused == 0)
        expect(mastarik_check(input.out, answer.value).refused == 0, "a new list does not pass", &input);
}

/* A record that the list has, put once more as the walk reads it, changes nothing. */
static void put_again(void)
{
    mastarik_record record = {0};
    uint64_t left = draw_below(40);
    while (left > 0 && mastarik_next_record(input.list, input.list_length, &record))
        left--;
    input.entry = record.entry;
    input.out_length = input.list_length;
    mastarik_answer answer = lockstep(PUT_ENTRY, &input);
    if (record.entry.kind > MASTARIK_DEFAULT_REALM)
        expect(answer.value == input.list_length && memcmp(input.out, input.list, input.list_length) == 0,
               "a record of the list put again changes it", &input);
}

static void compare_edit(void)
{
    bool passing = draw_chance(85);
    enum call call = draw_chance(50) ? PUT_ENTRY : DROP_ENTRY;
    struct tally *tally = call == PUT_ENTRY ? &puts_to_passing : &drops_from_passing;
    make_any_list(false, passing);
    make_entry(&input);
    input.out_length = input.list_length + 22 + draw_below(10);
    draw_bytes(input.out, input.out_length);
    mastarik_answer answer = lockstep(call, &input);
    make_out(answer.refused ? input.list_length : answer.value, 2);
    mastarik_answer again = lockstep(call, &input);
    if (passing) {
        tally_add(tally, answer);
        tally_add(tally, again);
        put_again();
    }
}

static size_t draw_slots(void)
{
    unsigned size = (unsigned)draw_below(100);
    if (size < 2)
        return 1023 + draw_below(2);
    return 1 + draw_below(size < 70 ? 8 : 40);
}

/* Makes a table, and says whether it is well formed. */
static bool make_any_table(bool calm)
{
    make_table(&input, draw_slots(), calm);
    if (!draw_chance(12))
        return true;
    damage_table(&input);
    return false;
}

/* A widest grant of the request, often with the tokens parted; the table is then as it was. */
static void compare_widest_aside(bool well_formed)
{
    static uint8_t table[TABLE_ROOM];
    memcpy(table, input.table, input.table_length);
    if (well_formed && draw_chance(50))
        part_tokens(&input);
    compare_widest(&input);
    memcpy(input.table, table, input.table_length);
}

static void compare_request(void)
{
    bool well_formed = make_any_table(draw_chance(20)), generous = draw_chance(80);
    make_any_list(generous, draw_chance(90));
    make_access(&input, draw_chance(90));
    make_claim(&input, draw_chance(93));
    if (draw_chance(40))
        favour_caller(&input);
    input.out_length = input.table_length / MASTARIK_SLOT_SIZE * MASTARIK_CALL_BACK_SIZE;
    draw_bytes(input.out, input.out_length);
    mastarik_answer answer = lockstep(ASK, &input);
    expect(well_formed == (answer.refused != MASTARIK_TABLE_NOT_WELL_FORMED), "30 at the wrong time", &input);
    compare_call_backs(&input, answer.value);
    make_out(answer.value * MASTARIK_CALL_BACK_SIZE, MASTARIK_CALL_BACK_SIZE);
    lockstep(ASK, &input);
    compare_widest_aside(well_formed);
    lockstep(GRANT, &input);
}

static void compare_upkeep(void)
{
    bool well_formed = make_any_table(draw_chance(30));
    mastarik_answer answer;
    if (draw_chance(50)) {
        make_return(&input);
        answer = lockstep(RETURN, &input);
    } else {
        input.host = (uint16_t)(draw_chance(90) ? 1 + draw_below(4) : 0);
        answer = lockstep(DROP_HOST, &input);
    }
    expect(well_formed == (answer.refused != MASTARIK_TABLE_NOT_WELL_FORMED), "30 at the wrong time", &input);
    if (well_formed && draw_chance(20))
        damage_length(&input);
    if (draw_chance(50))
        lockstep(FILL, &input);
}

static void compare_audit(void)
{
    bool calm = draw_chance(50);
    bool well_formed = make_any_table(calm);
    mastarik_answer answer = lockstep(AUDIT, &input);
    if (!well_formed || calm)
        expect(answer.value == well_formed, "the audit's answer is wrong", &input);
    audits_yes += answer.value;
    if (!well_formed)
        return;
    enlarge_table(&input);
    expect(lockstep(AUDIT, &input).value == answer.value, "an audit says something else of a larger copy", &input);
    compare_tokens(&input);
}

static void compare_history(void)
{
    play_history(&history_counts);
}

/* The groups, each with its rounds in percent of those asked for. */
static const struct {
    const char *name;
    void (*round)(void);
    unsigned percent;
} groups[] = {
    {"lists", compare_check, 100},
    {"rights", compare_rights, 100},
    {"needs", compare_needs, 1},
    {"new lists", compare_new_list, 30},
    {"edits", compare_edit, 150},
    {"requests", compare_request, 150},
    {"upkeep", compare_upkeep, 150},
    {"audits", compare_audit, 50},
    {"histories", compare_history, 1},
};

/* Prints a tally, and gives how many of the numbers that must come up did not. */
static unsigned print_tally(const char *name, const struct tally *tally, const uint8_t *expected)
{
    unsigned missing = 0;
    uint64_t calls = tally->calls ? tally->calls : 1, refused = tally->calls - tally->refused[0];
    printf("%s: %" PRIu64 " calls, %" PRIu64 "%% refused:", name, tally->calls, refused * 100 / calls);
    for (int number = 1; number <= MASTARIK_TYPE_LACKING; number++)
        if (tally->refused[number])
            printf(" %d x %" PRIu64, number, tally->refused[number]);
    printf("\n");
    for (; *expected; expected++) {
        if (tally->refused[*expected])
            continue;
        printf("  NEVER CAME UP: %d\n", *expected);
        missing++;
    }
    return missing;
}

static unsigned print_summary(void)
{
    unsigned missing = 0;
    for (enum call call = 0; call < CALLS; call++)
        missing += print_tally(call_names[call], lockstep_tally(call), refusals[call]);
    missing += print_tally("put entry, list passing", &puts_to_passing, put_refusals);
    missing += print_tally("drop entry, list passing", &drops_from_passing, drop_refusals);
    missing += lockstep_print_empty();
    missing += widest_print_kinds();
    missing += local_print_kinds();
    printf("rights decided by no record: %" PRIu64 "; by kind:", decided[0]);
    for (int kind = 2; kind < 12; kind++)
        printf(" %d x %" PRIu64, kind, decided[kind]);
    printf("\naudits of any table: %" PRIu64 " said yes\n", audits_yes);
    printf("histories: %" PRIu64 " calls, %" PRIu64 " asks followed up (%" PRIu64 " with several entries), %" PRIu64
           " entries returned, %" PRIu64 " then granted\n",
           history_counts.steps, history_counts.asks, history_counts.several, history_counts.called_back,
           history_counts.granted);
    return missing;
}

int main(int count, char **arguments)
{
    uint64_t seed = count > 1 ? strtoull(arguments[1], NULL, 10) : 1;
    uint64_t rounds = count > 2 ? strtoull(arguments[2], NULL, 10) : 20000;
    for (size_t group = 0; group < sizeof groups / sizeof groups[0]; group++) {
        for (uint64_t round = 0; round < rounds * groups[group].percent / 100; round++) {
            draw_seed(seed * 16 + group, round);
            lockstep_begin(groups[group].name, seed, round);
            groups[group].round();
        }
    }
    lockstep_begin("texts", seed, 0);
    compare_texts();
    compare_fixed();
    unsigned missing = print_summary();
    printf(missing ? "some refusals never came up\n" : "equal throughout, each refusal seen\n");
    return missing ? EXIT_FAILURE : EXIT_SUCCESS;
}
