/* Random access lists, callers, files and entries. */
#include <string.h>

#include "draw.h"
#include "inputs.h"

/* Realms in rising order; the unknown one stands between its neighbours, and the zero one before its own. */
enum { REALMS = 9, ZERO_REALM = 0, HOME_REALM = 2, UNKNOWN_REALM = 6 };
static const uint8_t realms[REALMS][16] = {
    {0},
    {0, 0, 0, 0, 0, 0, 0, 0, 0, 0, 0, 0, 0, 0, 0, 1},
    {17, 17, 17, 17, 17, 17, 17, 17, 17, 17, 17, 17, 17, 17, 17, 17},
    {17, 17, 17, 17, 17, 17, 17, 17, 17, 17, 17, 17, 17, 17, 17, 18},
    {18, 17, 17, 17, 17, 17, 17, 17, 17, 17, 17, 17, 17, 17, 17, 17},
    {255, 255, 255, 253, 255, 255, 255, 255, 255, 255, 255, 255, 255, 255, 255, 255},
    {255, 255, 255, 254},
    {255, 255, 255, 254, 0, 0, 0, 0, 0, 0, 0, 0, 0, 0, 0, 1},
    {255, 255, 255, 255, 255, 255, 255, 255, 255, 255, 255, 255, 255, 255, 255, 255},
};

/* Ids in rising order; most draws are among the first few. */
enum { IDS = 10, FREQUENT_IDS = 4 };
static const uint32_t ids[IDS] = {3, 4, 7, 9, 0x100, 0x10000, 0x7fffffff, 0x80000000, 0xfffffffe, 0xffffffff};

static const uint8_t sizes[12] = {0, 17, 2, 2, 2, 2, 2, 6, 6, 22, 22, 18};

enum { RECORDS = 2100 };

static uint32_t draw_id(void)
{
    return ids[draw_below(draw_chance(80) ? FREQUENT_IDS : IDS)];
}

static const uint8_t *draw_realm(void)
{
    return realms[draw_chance(40) ? HOME_REALM : draw_below(REALMS)];
}

static const uint8_t *draw_known_realm(void)
{
    const uint8_t *realm = draw_realm();
    return realm == realms[UNKNOWN_REALM] ? realms[HOME_REALM] : realm;
}

static uint8_t draw_rights(bool generous)
{
    return generous && draw_chance(85) ? 63 : (uint8_t)draw_below(64);
}

static void insert_bytes(struct input *in, size_t place, const uint8_t *bytes, size_t length)
{
    if (in->list_length + length > LIST_ROOM)
        return;
    memmove(in->list + place + length, in->list + place, in->list_length - place);
    memcpy(in->list + place, bytes, length);
    in->list_length += length;
}

static void remove_bytes(struct input *in, size_t place, size_t length)
{
    memmove(in->list + place, in->list + place + length, in->list_length - place - length);
    in->list_length -= length;
}

void append_record(struct input *in, const mastarik_entry *entry)
{
    uint8_t kind = entry->kind, record[22] = {kind};
    size_t length = 1;
    if (kind == 1 || kind >= 9) {
        memcpy(record + length, entry->realm, 16);
        length += 16;
    }
    if (kind >= 7 && kind <= 10)
        for (int shift = 24; shift >= 0; shift -= 8)
            record[length++] = (uint8_t)(entry->id >> shift);
    if (kind != 1)
        record[length++] = entry->rights;
    insert_bytes(in, in->list_length, record, length);
}

static void append(struct input *in, uint8_t kind, const uint8_t *realm, uint32_t id, uint8_t rights)
{
    mastarik_entry entry = {.kind = kind, .rights = rights, .id = id};
    if (realm != NULL)
        memcpy(entry.realm, realm, sizeof entry.realm);
    append_record(in, &entry);
}

/* The records of kinds 7 to 11, each of those that may stand with the given chance. */
static void append_named(struct input *in, bool generous, unsigned percent)
{
    for (uint8_t kind = 7; kind <= 8; kind++)
        for (size_t id = 0; id < IDS; id++)
            if (draw_chance(percent))
                append(in, kind, NULL, ids[id], draw_rights(generous));
    for (uint8_t kind = 9; kind <= 11; kind++) {
        for (size_t realm = 0; realm < REALMS; realm++) {
            if (realm == UNKNOWN_REALM || memcmp(realms[realm], in->list + 1, 16) == 0)
                continue;
            for (size_t id = 0; id < (kind == 11 ? 1 : IDS); id++)
                if (draw_chance(percent))
                    append(in, kind, realms[realm], ids[id], draw_rights(generous));
        }
    }
}

static void start_list(struct input *in, bool generous)
{
    in->list_length = 0;
    append(in, 1, draw_known_realm(), 0, 0);
    append(in, 2, NULL, 0, draw_rights(generous) | MASTARIK_CONTROL);
    append(in, 3, NULL, 0, draw_rights(generous));
    append(in, 4, NULL, 0, draw_rights(generous));
}

void make_list(struct input *in, bool generous)
{
    start_list(in, generous);
    if (draw_chance(20))
        return;
    append(in, 5, NULL, 0, draw_rights(generous));
    if (draw_chance(50))
        append(in, 6, NULL, 0, draw_rights(generous));
    append_named(in, generous, (unsigned)draw_below(draw_chance(90) ? 30 : 101));
}

void make_long_list(struct input *in)
{
    start_list(in, true);
    append(in, 5, NULL, 0, draw_rights(true));
    if (draw_chance(50))
        append(in, 6, NULL, 0, draw_rights(true));
    uint32_t users = (uint32_t)draw_below(670), records = 673 + (uint32_t)draw_below(6);
    uint32_t step = 1 + (uint32_t)draw_below(UINT32_MAX / 700);
    for (uint32_t i = 0; i < records; i++)
        append(in, i < users ? 7 : 8, NULL, i * step, draw_rights(true));
}

void make_new_list(struct input *in)
{
    memcpy(in->entry.realm, draw_realm(), sizeof in->entry.realm);
    for (size_t i = 0; i < sizeof in->objects; i++)
        in->objects[i] = (uint8_t)(draw_chance(90) ? draw_below(64) : draw());
    if (draw_chance(80))
        in->objects[0] |= MASTARIK_CONTROL;
}

/* The place of a record, drawn from those up to the first that cannot be read; an empty list gives 0. */
static size_t draw_place(const struct input *in)
{
    size_t places[RECORDS], count = 0, place = 0;
    while (place < in->list_length && count < RECORDS) {
        places[count++] = place;
        size_t size = in->list[place] < 12 ? sizes[in->list[place]] : 0;
        if (size == 0 || size > in->list_length - place)
            break;
        place += size;
    }
    return count ? places[draw_below(count)] : 0;
}

/* The size of the record at a place, not beyond the list's end; of an unknown kind, one byte. */
static size_t size_at(const struct input *in, size_t place)
{
    size_t left = in->list_length - place, size = 1;
    if (left > 0 && in->list[place] >= 1 && in->list[place] < 12)
        size = sizes[in->list[place]];
    return size < left ? size : left;
}

/* Writes a byte where the list has one. */
static void set_byte(struct input *in, size_t place, uint8_t byte)
{
    if (place < in->list_length)
        in->list[place] = byte;
}

/* Puts a copy of a record elsewhere, or after itself, or moves it. */
static void shuffle_record(struct input *in)
{
    size_t from = draw_place(in), size = size_at(in, from), to = draw_chance(30) ? from : draw_place(in);
    uint8_t record[22];
    memcpy(record, in->list + from, size);
    if (draw_chance(50)) {
        insert_bytes(in, to, record, size);
    } else {
        remove_bytes(in, from, size);
        insert_bytes(in, to > from ? to - size : to, record, size);
    }
}

/* Gives a record with a realm the unknown one or the default one. */
static void forbid_realm(struct input *in)
{
    uint8_t realm[16];
    size_t place = 0;
    for (int tries = 0; tries < 20 && (place == 0 || in->list[place] < 9); tries++)
        place = draw_place(in);
    if (in->list_length < place + 17 || (place > 0 && in->list[place] < 9))
        return;
    memcpy(realm, draw_chance(50) ? in->list + 1 : realms[UNKNOWN_REALM], sizeof realm);
    memcpy(in->list + place + 1, realm, sizeof realm);
}

/* Lengthens a list beyond or just up to the limit, or a little. */
static void lengthen(struct input *in)
{
    const size_t lengths[] = {4095, 4096, 4097, LIST_ROOM};
    size_t length = draw_chance(60) ? in->list_length + 1 + draw_below(25) : lengths[draw_below(4)];
    while (in->list_length < length && in->list_length < LIST_ROOM)
        in->list[in->list_length++] = (uint8_t)(draw_chance(50) ? draw_below(13) : draw());
}

/* Puts a second default realm somewhere, by chance above the first. */
static void repeat_default_realm(struct input *in)
{
    uint8_t record[17] = {1};
    memcpy(record + 1, draw_realm(), 16);
    insert_bytes(in, draw_chance(50) && in->list_length >= 17 ? 17 : draw_place(in), record, sizeof record);
}

static void remove_record(struct input *in)
{
    size_t place = draw_chance(50) && in->list_length > 24 ? 17 + 2 * draw_below(4) : draw_place(in);
    remove_bytes(in, place, size_at(in, place));
}

void damage_list(struct input *in)
{
    size_t place = draw_place(in), end = place + size_at(in, place);
    switch (draw_below(12)) {
    case 0:
        set_byte(in, draw_below(in->list_length + 1), (uint8_t)draw());
        break;
    case 1:
        in->list_length = draw_below(in->list_length + 1);
        break;
    case 2:
        in->list_length -= in->list_length < 3 ? 0 : 1 + draw_below(2);
        break;
    case 3:
        lengthen(in);
        break;
    case 4:
    case 5:
        shuffle_record(in);
        break;
    case 6:
        remove_record(in);
        break;
    case 7:
        forbid_realm(in);
        break;
    case 8:
        set_byte(in, end > 0 ? end - 1 : 0, (uint8_t)(64 + draw_below(192)));
        break;
    case 9:
        set_byte(in, 18, (uint8_t)draw_below(64) & ~MASTARIK_CONTROL);
        break;
    case 10:
        set_byte(in, place, (uint8_t)(draw_chance(70) ? draw_below(13) : draw()));
        break;
    default:
        repeat_default_realm(in);
    }
}

static void make_groups(struct input *in, bool sound)
{
    const size_t counts[] = {0, 1, 5, 31, 32, 33, 34};
    in->group_count = draw_chance(60) ? draw_below(6) : counts[draw_below(sound ? 5 : 7)];
    for (size_t i = 0; i < in->group_count; i++)
        in->groups[i] = draw_chance(70) ? ids[draw_below(IDS)] : (uint32_t)draw();
}

static uint8_t draw_flag(unsigned percent)
{
    return draw_chance(percent) ? (uint8_t)(1 + draw_below(255)) : 0;
}

void make_access(struct input *in, bool sound)
{
    mastarik_caller *caller = &in->caller;
    mastarik_file *file = &in->file;
    make_groups(in, sound);
    *caller = (mastarik_caller){.user = draw_id(), .group = draw_id()};
    *file = (mastarik_file){.owner = draw_id(), .group = draw_id(), .dir = draw_flag(30), .by_mode = draw_flag(30)};
    memcpy(file->realm, sound ? draw_known_realm() : draw_realm(), 16);
    file->mode = (uint32_t)(draw_chance(sound ? 60 : 20) ? 511 : draw_below(512));
    if (!sound && draw_chance(30))
        file->mode = draw_chance(50) ? 512 + (uint32_t)draw_below(3) : (uint32_t)draw();
    const uint8_t *home = file->by_mode || in->list_length < 17 ? file->realm : in->list + 1;
    memcpy(caller->realm, draw_chance(60) ? home : draw_chance(30) ? realms[ZERO_REALM] : draw_realm(), 16);
}

void favour_caller(struct input *in)
{
    in->caller.user = in->file.owner;
    memcpy(in->caller.realm, in->file.by_mode ? in->file.realm : in->list + 1, 16);
}

void make_entry(struct input *in)
{
    mastarik_entry *entry = &in->entry;
    entry->kind = (uint8_t)(draw_chance(75) ? 2 + draw_below(10) : draw());
    entry->rights = (uint8_t)(draw_chance(75) ? draw_below(64) : draw());
    memcpy(entry->realm, draw_realm(), 16);
    entry->id = draw_id();
    size_t place = draw_place(in), size = size_at(in, place);
    const uint8_t *record = in->list + place;
    if (draw_chance(30) || size < 6)
        return;
    entry->kind = record[0];
    if (size >= 18)
        memcpy(entry->realm, record + 1, 16);
    if (size == 6 || size == 22)
        entry->id = (uint32_t)record[size - 5] << 24 | (uint32_t)record[size - 4] << 16 |
                    (uint32_t)record[size - 3] << 8 | record[size - 2];
}
