/* A history: random calls from fill on. */
#include "histories.h"

#include <string.h>

#include "draw.h"
#include "inputs.h"
#include "widest.h"

enum { ENTRY_SIZE = MASTARIK_CALL_BACK_SIZE, SLOT_LIMIT = 40 };

static struct input input, scratch;

/* In a history of pieces every claim is of one byte's data: so tokens stand apart, and a widest grant between them. */
static bool of_pieces;

static void expect_audit(struct input *in)
{
    expect(lockstep(AUDIT, in).value == 1, "the audit of a table reached from fill says no", in);
}

/* On a copy of the table, returns what ask listed in random order, an entry or one of its types at a time: grant is
 * refused with 32 exactly until the last is back.
 */
static void follow_ask(size_t count, struct history_counts *counts)
{
    scratch = input;
    for (size_t left = count; left > 0;) {
        expect(lockstep(GRANT, &scratch).refused == MASTARIK_CONFLICT, "granted before all came back", &scratch);
        size_t chosen = draw_below(left);
        uint8_t *entry = scratch.out + ENTRY_SIZE * chosen;
        mastarik_call_back call_back = mastarik_call_back_at(scratch.out, chosen);
        scratch.number = call_back.number;
        scratch.host = call_back.host;
        scratch.types = call_back.types;
        if (draw_chance(50))
            scratch.types &= -scratch.types; /* the lowest of them alone */
        expect(lockstep(RETURN, &scratch).refused == 0, "what ask lists cannot be returned", &scratch);
        expect_audit(&scratch);
        entry[12] &= ~scratch.types;
        if (entry[12] == 0)
            memmove(entry, scratch.out + ENTRY_SIZE * --left, ENTRY_SIZE);
    }
    mastarik_answer answer = lockstep(GRANT, &scratch);
    expect(answer.refused == 0 || answer.refused == MASTARIK_NO_FREE_SLOT || answer.refused == MASTARIK_NUMBERS_SPENT,
           "not granted after all came back", &scratch);
    expect_audit(&scratch);
    counts->asks++;
    counts->several += count > 1;
    counts->called_back += count;
    counts->granted += answer.refused == 0;
}

static void make_request(void)
{
    bool sound = draw_chance(97);
    make_claim(&input, sound);
    if (of_pieces && sound) {
        input.claim.types = draw_chance(50) ? MASTARIK_DATA_READ : MASTARIK_DATA_WRITE;
        input.claim.last = input.claim.first;
    }
    if (draw_chance(20))
        make_list(&input, true);
    make_access(&input, draw_chance(97));
    if (draw_chance(70))
        favour_caller(&input);
}

static void step(struct history_counts *counts)
{
    unsigned kind = (unsigned)draw_below(100);
    if (kind < 30) {
        make_request();
        if (draw_chance(50))
            input.claim.types |= draw() & 0xaa;
        input.out_length = draw_chance(95) ? ENTRY_SIZE * SLOT_LIMIT : ENTRY_SIZE * draw_below(4);
        mastarik_answer answer = lockstep(ASK, &input);
        if (answer.refused == 0)
            follow_ask(answer.value, counts);
    } else if (kind < 79) {
        make_request();
        if (draw_chance(30))
            compare_widest(&input);
        else
            lockstep(GRANT, &input);
    } else if (kind < 98) {
        make_return(&input);
        lockstep(RETURN, &input);
    } else {
        input.host = (uint16_t)draw_below(5);
        lockstep(DROP_HOST, &input);
    }
    expect_audit(&input);
    counts->steps++;
}

/* Fills the table; some histories start with the last few numbers only, and some are of pieces. */
static void begin(void)
{
    input.table_length = MASTARIK_SLOT_SIZE * (2 + draw_below(draw_chance(50) ? 4 : SLOT_LIMIT));
    draw_bytes(input.table, input.table_length);
    expect(lockstep(FILL, &input).refused == 0, "fill is refused", &input);
    if (draw_chance(25)) {
        memset(input.table + 33, 255, 8);
        input.table[40] = (uint8_t)(150 + draw_below(106));
    }
    of_pieces = draw_chance(30);
    expect_audit(&input);
}

void play_history(struct history_counts *counts)
{
    make_list(&input, true);
    begin();
    for (uint64_t steps = 100 + draw_below(300); steps > 0; steps--)
        step(counts);
}
