/* Random claims, token tables and returns. */
#include <string.h>

#include "draw.h"
#include "inputs.h"

enum { SLOT_SIZE = MASTARIK_SLOT_SIZE };

/* Places within a slot; the header has the next number where a slot has its own. */
enum { TYPES_AT = 1, HOST_AT = 3, FILE_AT = 5, FIRST_AT = 17, LAST_AT = 25, NUMBER_AT = 33 };

static void put_number(uint8_t *bytes, size_t length, uint64_t number)
{
    for (size_t i = length; i-- > 0; number >>= 8)
        bytes[i] = (uint8_t)number;
}

static uint64_t get_number(const uint8_t *bytes, size_t length)
{
    uint64_t number = 0;
    for (size_t i = 0; i < length; i++)
        number = number << 8 | bytes[i];
    return number;
}

static uint16_t draw_host(void)
{
    const uint16_t rare[] = {4, 0x100, 0x101, 0xffff};
    return draw_chance(85) ? (uint16_t)(1 + draw_below(3)) : rare[draw_below(4)];
}

/* Some of the types: one, often the first of its family, or two, or any. */
static uint16_t draw_types(void)
{
    unsigned types = 1u << (draw_chance(60) ? 2 * draw_below(4) : draw_below(8));
    if (draw_chance(40))
        types |= 1u << draw_below(8);
    if (draw_chance(20))
        types |= (unsigned)draw_below(256);
    return (uint16_t)types;
}

/* A range within ten bytes, or with an end at a limit. */
static void draw_range(uint64_t *first, uint64_t *last)
{
    uint64_t a = draw_below(10), b = draw_below(10);
    *first = a < b ? a : b;
    *last = a < b ? b : a;
    if (draw_chance(10))
        *first = 0;
    if (draw_chance(10))
        *last = UINT64_MAX;
    if (draw_chance(3))
        *first = *last;
}

static void draw_file(uint8_t *file)
{
    memset(file, 5, 12);
    if (draw_chance(15))
        file[draw_chance(50) ? 0 : 11] = 6;
}

static void draw_claim(mastarik_claim *claim)
{
    claim->types = draw_types();
    claim->host = draw_host();
    draw_file(claim->file);
    draw_range(&claim->first, &claim->last);
}

void make_claim(struct input *in, bool sound)
{
    mastarik_claim *claim = &in->claim;
    draw_claim(claim);
    if (sound)
        return;
    switch (draw_below(4)) {
    case 0:
        claim->host = 0;
        break;
    case 1:
        claim->types = 0;
        break;
    case 2:
        claim->types = (uint16_t)(draw_chance(50) ? 256 : claim->types | 0x100u << draw_below(8));
        break;
    default:
        claim->last = draw_below(10);
        claim->first = draw_chance(80) ? claim->last + 1 + draw_below(3) : UINT64_MAX;
    }
}

/* What keeps a table calm: types that never conflict, a single host, a file for each slot, or ranges apart. */
enum calm { FIRST_TYPES_ONLY, ONE_HOST, OWN_FILES, APART, NOT_CALM };

static void calm_claim(mastarik_claim *claim, enum calm calm, size_t slot)
{
    if (calm == FIRST_TYPES_ONLY)
        claim->types = claim->types & 0x55 ? claim->types & 0x55 : 1;
    if (calm == ONE_HOST)
        claim->host = 3;
    if (calm == OWN_FILES)
        put_number(claim->file, 2, slot);
    if (calm != APART)
        return;
    claim->types = claim->types & 0x33 ? claim->types & 0x33 : 2;
    claim->first = slot * 3;
    claim->last = slot * 3 + draw_below(3);
}

void put_token(uint8_t *slot, const mastarik_token *token)
{
    slot[0] = 1;
    put_number(slot + TYPES_AT, 2, token->claim.types);
    put_number(slot + HOST_AT, 2, token->claim.host);
    memcpy(slot + FILE_AT, token->claim.file, sizeof token->claim.file);
    put_number(slot + FIRST_AT, 8, token->claim.first);
    put_number(slot + LAST_AT, 8, token->claim.last);
    put_number(slot + NUMBER_AT, 8, token->number);
}

void put_call_back(uint8_t *entry, const mastarik_call_back *call_back)
{
    entry[0] = 3;
    put_number(entry + 1, 8, call_back->number);
    put_number(entry + 9, 2, call_back->host);
    put_number(entry + 11, 2, call_back->types);
}

static void put_tokens(struct input *in, size_t slots, uint64_t base, unsigned free_share, bool calm)
{
    enum calm way = calm ? (enum calm)draw_below(NOT_CALM) : NOT_CALM;
    for (size_t slot = 0; slot < slots; slot++) {
        if (draw_chance(free_share))
            continue;
        mastarik_token token;
        draw_claim(&token.claim);
        calm_claim(&token.claim, way, slot);
        bool distinct = calm || draw_chance(70);
        token.number = base + (distinct ? slots - 1 - slot : draw_below(slots));
        put_token(in->table + SLOT_SIZE * (1 + slot), &token);
    }
}

void make_table(struct input *in, size_t slots, bool calm)
{
    const unsigned free_shares[] = {0, 0, 20, 50, 90, 100};
    unsigned free_share = free_shares[draw_below(6)];
    uint64_t base = draw_chance(80) ? 1 : UINT64_MAX - slots;
    uint64_t next = base + slots;
    if (base == 1)
        next = draw_chance(75) ? next + draw_below(3) : UINT64_MAX - draw_below(2);
    if (free_share == 100 && draw_chance(50))
        next = 1;
    in->table_length = SLOT_SIZE * (1 + slots);
    memset(in->table, 0, in->table_length);
    in->table[0] = 2;
    put_number(in->table + NUMBER_AT, 8, next);
    put_tokens(in, slots, base, free_share, calm);
}

void enlarge_table(struct input *in)
{
    size_t left = MASTARIK_SLOT_LIMIT - mastarik_slot_count(in->table_length);
    size_t added = SLOT_SIZE * (draw_chance(2) ? left : draw_below(left < 40 ? left + 1 : 41));
    memset(in->table + in->table_length, 0, added);
    in->table_length += added;
}

/* Draws a range of a few bytes beside another, next to it or not far, or up to a limit; no, where there is no room. */
static bool draw_range_beside(const mastarik_claim *claim, uint64_t *first, uint64_t *last)
{
    uint64_t below = claim->first, above = UINT64_MAX - claim->last;
    if (below == 0 && above == 0)
        return false;
    bool is_below = above == 0 || (below > 0 && draw_chance(50));
    uint64_t room = is_below ? below : above, gap = draw_below(room < 4 ? room : 4);
    uint64_t more = draw_chance(10) ? room - gap - 1 : draw_below(room - gap < 4 ? room - gap : 4);
    *first = is_below ? claim->first - 1 - gap - more : claim->last + 1 + gap;
    *last = *first + more;
    return true;
}

void part_tokens(struct input *in)
{
    size_t slots = mastarik_slot_count(in->table_length), freed = draw_below(slots);
    for (size_t slot = 0; slot < slots; slot++) {
        uint8_t *bytes = in->table + SLOT_SIZE * (1 + slot);
        mastarik_token token;
        if (!mastarik_token_at(in->table, in->table_length, slot, &token))
            continue;
        token.claim.types = token.claim.types & 0x33 ? token.claim.types & 0x33 : 2;
        if (slot != freed && draw_range_beside(&in->claim, &token.claim.first, &token.claim.last))
            put_token(bytes, &token);
        else
            memset(bytes, 0, SLOT_SIZE);
    }
}

/* A slot drawn from those with a token, or NULL. */
static uint8_t *draw_held(struct input *in)
{
    size_t slots = in->table_length / SLOT_SIZE - 1, start = draw_below(slots);
    for (size_t i = 0; i < slots; i++) {
        uint8_t *slot = in->table + SLOT_SIZE * (1 + (start + i) % slots);
        if (slot[0] == 1)
            return slot;
    }
    return NULL;
}

/* Bytes that this adds are those of free slots. */
void damage_length(struct input *in)
{
    const size_t lengths[] = {0, SLOT_SIZE, 81, 83, SLOT_SIZE * 1026, in->table_length - 1, in->table_length + 1};
    size_t length = draw_chance(80) ? lengths[draw_below(7)] : SLOT_SIZE * draw_below(1024) + 1 + draw_below(40);
    if (length > in->table_length)
        memset(in->table + in->table_length, 0, length - in->table_length);
    in->table_length = length;
}

static void spoil_header(struct input *in)
{
    uint8_t kind = (uint8_t)draw_below(5);
    switch (draw_below(3)) {
    case 0:
        in->table[0] = kind == 2 ? 255 : kind;
        break;
    case 1:
        in->table[1 + draw_below(32)] = (uint8_t)(1 + draw_below(255));
        break;
    default:
        put_number(in->table + NUMBER_AT, 8, 0);
    }
}

/* Spoils a slot's kind, or makes the slot free but for one byte. */
static void spoil_any_slot(struct input *in)
{
    uint8_t *slot = in->table + SLOT_SIZE * (1 + draw_below(in->table_length / SLOT_SIZE - 1));
    if (draw_chance(50)) {
        slot[0] = (uint8_t)(2 + draw_below(draw_chance(50) ? 2 : 254));
    } else {
        memset(slot, 0, SLOT_SIZE);
        slot[1 + draw_below(SLOT_SIZE - 1)] = (uint8_t)(1 + draw_below(255));
    }
}

static void spoil_held_slot(struct input *in, uint8_t *slot)
{
    uint64_t next = get_number(in->table + NUMBER_AT, 8), first = draw_below(20);
    switch (draw_below(6)) {
    case 0:
        put_number(slot + TYPES_AT, 2, draw_chance(50) ? 0 : 256);
        break;
    case 1:
        slot[TYPES_AT] = (uint8_t)(1u << draw_below(8));
        break;
    case 2:
        put_number(slot + HOST_AT, 2, 0);
        break;
    case 3:
        put_number(slot + FIRST_AT, 8, first + 1);
        put_number(slot + LAST_AT, 8, first);
        break;
    case 4:
        put_number(slot + NUMBER_AT, 8, 0);
        break;
    default:
        put_number(slot + NUMBER_AT, 8, draw_chance(70) ? next : UINT64_MAX);
    }
}

void damage_table(struct input *in)
{
    uint8_t *held = draw_held(in);
    unsigned part = (unsigned)draw_below(100);
    if (part < 20)
        damage_length(in);
    else if (part < 35)
        spoil_header(in);
    else if (part < 60 || held == NULL)
        spoil_any_slot(in);
    else
        spoil_held_slot(in, held);
}

void make_return(struct input *in)
{
    uint8_t *slot = in->table_length < 2 * SLOT_SIZE ? NULL : draw_held(in);
    in->host = draw_host();
    in->number = draw_below(8);
    in->types = draw_types();
    if (slot != NULL && draw_chance(90)) {
        uint16_t held = (uint16_t)get_number(slot + TYPES_AT, 2), part = held & (uint16_t)draw();
        in->host = (uint16_t)get_number(slot + HOST_AT, 2);
        in->number = get_number(slot + NUMBER_AT, 8);
        in->types = draw_chance(40) || part == 0 ? held : part;
    }
    if (draw_chance(85))
        return;
    switch (draw_below(4)) {
    case 0:
        in->host = draw_chance(50) ? 0 : draw_host();
        break;
    case 1:
        in->number = draw_chance(50) ? 0 : in->number + 1;
        break;
    case 2:
        in->types |= draw_types();
        break;
    default:
        in->types = draw_chance(50) ? 0 : in->types | 0x100;
    }
}
