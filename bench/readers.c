/* Readings of the header, each held against a writing of our own. */
#include "readers.h"

#include <stdio.h>
#include <string.h>
#include <sys/mman.h>

#include "draw.h"
#include "inputs.h"

static struct input spelled;

/* Copies a list to where memory ends that can be read: to read a byte past it ends the program. */
static const uint8_t *lay_at_edge(const struct input *in)
{
    enum { PAGES = 1 << 16 };
    static uint8_t *memory;
    if (memory == NULL) {
        memory = mmap(NULL, 2 * PAGES, PROT_READ | PROT_WRITE, MAP_PRIVATE | MAP_ANONYMOUS, -1, 0);
        expect(memory != MAP_FAILED && mprotect(memory + PAGES, PAGES, PROT_NONE) == 0, "no memory with an edge", in);
    }
    return memcpy(memory + PAGES - in->list_length, in->list, in->list_length);
}

static bool same_record(const mastarik_record *a, const mastarik_record *b)
{
    return a->place == b->place && a->length == b->length && a->entry.kind == b->entry.kind &&
           a->entry.rights == b->entry.rights && a->entry.id == b->entry.id &&
           memcmp(a->entry.realm, b->entry.realm, sizeof a->entry.realm) == 0;
}

/* One step from any record: to one that is after it and inside of the list, or nowhere. */
static bool step(const struct input *in, const uint8_t *list, mastarik_record *record)
{
    mastarik_record before = *record;
    if (!mastarik_next_record(list, in->list_length, record)) {
        expect(same_record(record, &before), "a walk that ends changed the record", in);
        return false;
    }
    expect(record->place >= before.place && record->place - before.place == before.length &&
               record->place < in->list_length && record->length > 0 &&
               record->length <= in->list_length - record->place,
           "a record is not after the one before, or not inside", in);
    return true;
}

/* A place or a length: within the list, about its end, or anywhere. */
static size_t draw_size(const struct input *in)
{
    const size_t sizes[] = {0, in->list_length - 1, in->list_length, in->list_length + 1, SIZE_MAX, draw()};
    return draw_chance(50) ? draw_below(in->list_length + 1) : sizes[draw_below(6)];
}

void compare_walk(const struct input *in, bool passes)
{
    const uint8_t *list = lay_at_edge(in);
    mastarik_record none = {0}, record = {0}, anywhere = {.place = draw_size(in), .length = draw_size(in)};
    spelled.list_length = 0;
    while (step(in, list, &record))
        append_record(&spelled, &record.entry);
    expect(spelled.list_length == record.place + record.length &&
               memcmp(spelled.list, in->list, spelled.list_length) == 0,
           "what a walk reads is not what stands there", in);
    expect(!passes || spelled.list_length == in->list_length, "a walk ends before its list", in);
    while (step(in, list, &anywhere))
        ;
    expect(!mastarik_next_record(NULL, in->list_length, &none), "a walk over no bytes finds a record", in);
}

void compare_tokens(const struct input *in)
{
    const mastarik_token mark = {77, {7, 7, {7}, 7, 77}};
    size_t slots = mastarik_slot_count(in->table_length);
    expect(in->table_length == MASTARIK_SLOT_SIZE * (1 + slots), "a table has another count of slots", in);
    memset(spelled.table, 0, in->table_length);
    memcpy(spelled.table, in->table, MASTARIK_SLOT_SIZE);
    for (size_t slot = 0; slot < slots + 2; slot++) {
        mastarik_token token = mark;
        if (mastarik_token_at(in->table, in->table_length, slot, &token))
            put_token(spelled.table + MASTARIK_SLOT_SIZE * (1 + slot), &token);
        else
            expect(memcmp(&token, &mark, sizeof mark) == 0, "a slot without a token changed the token", in);
    }
    expect(memcmp(spelled.table, in->table, in->table_length) == 0, "tokens that are read are not those held", in);
    mastarik_token token = mark;
    expect(!mastarik_token_at(in->table, in->table_length, SIZE_MAX, &token) &&
               !mastarik_token_at(in->table, in->table_length + 1, 0, &token) &&
               !mastarik_token_at(NULL, in->table_length, 0, &token),
           "a token where there is no slot", in);
}

void compare_call_backs(const struct input *in, size_t count)
{
    for (size_t k = 0; k < count; k++) {
        mastarik_call_back call_back = mastarik_call_back_at(in->out, k);
        put_call_back(spelled.out + MASTARIK_CALL_BACK_SIZE * k, &call_back);
    }
    expect(memcmp(spelled.out, in->out, MASTARIK_CALL_BACK_SIZE * count) == 0,
           "tokens to call back that are read are not those written", in);
    uint8_t any[MASTARIK_CALL_BACK_SIZE], again[MASTARIK_CALL_BACK_SIZE];
    draw_bytes(any, sizeof any);
    any[0] = 3;
    mastarik_call_back call_back = mastarik_call_back_at(any, 0);
    put_call_back(again, &call_back);
    expect(memcmp(again, any, sizeof any) == 0, "an entry of any numbers is not read as it stands", in);
}

static const char *type_text(uint32_t number)
{
    return number > UINT16_MAX ? "unknown" : mastarik_type_name((uint16_t)number);
}

static const char *right_text(uint32_t number)
{
    return number > UINT8_MAX ? "unknown" : mastarik_right_name((uint8_t)number);
}

static const char *kind_text(uint32_t number)
{
    return number > UINT8_MAX ? "unknown" : mastarik_kind_name((uint8_t)number);
}

/* Every number up to a limit has a text of its own where it is known, else that of the unknown. */
static void expect_texts(const char *(*text)(uint32_t), const uint8_t *known, size_t count)
{
    size_t found = 0;
    for (uint32_t number = 0; number <= 2 * UINT16_MAX; number++) {
        bool is_known = found < count && known[found] == number;
        expect(is_known == (strcmp(text(number), "unknown") != 0), "a text is missing, or one too many", &spelled);
        for (size_t i = 0; is_known && i < found; i++)
            expect(strcmp(text(number), text(known[i])) != 0, "a text stands twice", &spelled);
        found += is_known;
    }
    expect(found == count, "not all texts were met", &spelled);
}

void compare_texts(void)
{
    static const uint8_t refusals[] = {0,  10, 11, 12, 13, 14, 15, 16, 17, 18, 19, 20, 21,
                                       22, 23, 24, 30, 31, 32, 33, 34, 35, 36, 37};
    static const uint8_t bits[] = {1, 2, 4, 8, 16, 32, 64, 128};
    static const uint8_t kinds[] = {1, 2, 3, 4, 5, 6, 7, 8, 9, 10, 11};
    expect_texts(mastarik_refusal_text, refusals, sizeof refusals);
    expect_texts(type_text, bits, 8);
    expect_texts(right_text, bits, 6);
    expect_texts(kind_text, kinds, sizeof kinds);
}

void compare_fixed(void)
{
    char text[32];
    snprintf(text, sizeof text, "%d.%d.%d", MASTARIK_VERSION_MAJOR, MASTARIK_VERSION_MINOR, MASTARIK_VERSION_PATCH);
    expect(strcmp(text, MASTARIK_VERSION_TEXT) == 0, "the version's text is another", &spelled);
    expect(mastarik_version() == MASTARIK_VERSION, "the library is of another version", &spelled);
    for (size_t length = 0; length <= TABLE_ROOM; length++) {
        bool fits = length % MASTARIK_SLOT_SIZE == 0 && length >= 2 * MASTARIK_SLOT_SIZE && length < TABLE_ROOM;
        expect(mastarik_slot_count(length) == (fits ? length / MASTARIK_SLOT_SIZE - 1 : 0), "a wrong count of slots",
               &spelled);
    }
    const mastarik_caller anonymous = MASTARIK_ANONYMOUS;
    mastarik_answer named = mastarik_new_list(anonymous.realm, 63, 63, 63, spelled.out, sizeof spelled.out);
    expect(named.refused == MASTARIK_FORBIDDEN_REALM, "the unknown realm is another", &spelled);
    const uint8_t zero_realm[16] = MASTARIK_ZERO_REALM;
    for (size_t i = 0; i < sizeof zero_realm; i++)
        expect(zero_realm[i] == 0, "the zero realm is another", &spelled);
    expect(anonymous.user == UINT32_MAX - 1 && anonymous.group == UINT32_MAX - 1, "the unknown id is another",
           &spelled);
    const mastarik_claim claim = {.types = MASTARIK_DATA_READ, .host = 1};
    size_t length = 2 * MASTARIK_SLOT_SIZE;
    mastarik_easy_fill(spelled.table, length);
    expect(mastarik_easy_rights(NULL).refused == MASTARIK_NO_DEFAULT_REALM &&
               mastarik_easy_ask(spelled.table, length, claim, NULL, NULL, 0).refused == MASTARIK_NO_DEFAULT_REALM &&
               mastarik_easy_grant(spelled.table, length, claim, NULL).refused == MASTARIK_NO_DEFAULT_REALM &&
               mastarik_easy_grant_widest(spelled.table, length, claim, NULL).refused == MASTARIK_NO_DEFAULT_REALM,
           "an access that is NULL is not refused", &spelled);
}
