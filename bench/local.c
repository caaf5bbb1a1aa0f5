/* Rights of the zero realm beside those of the default realm, and of another with a mode. */
#include "local.h"

#include <inttypes.h>
#include <stdio.h>
#include <string.h>

/* What decided for a caller of the zero realm, and what stood by. */
enum kind { OWNER, USER, GROUP_OBJ, GROUP, OTHER, FOREIGN, MODE, MODE_ELSEWHERE, KINDS };

static const char *const kind_names[KINDS] = {
    [OWNER] = "as owner",
    [USER] = "by a user record",
    [GROUP_OBJ] = "by group_obj",
    [GROUP] = "by a group record",
    [OTHER] = "by other_obj",
    [FOREIGN] = "beside foreign records of that realm",
    [MODE] = "by a mode of that realm",
    [MODE_ELSEWHERE] = "nothing by a mode of another",
};

static const uint8_t zero_realm[16] = MASTARIK_ZERO_REALM, another_realm[16] = {17};
static uint64_t kinds[KINDS];

static bool has_foreign_zero(const struct input *in)
{
    mastarik_record record = {0};
    while (mastarik_next_record(in->list, in->list_length, &record))
        if (record.entry.kind >= MASTARIK_FOREIGN_USER &&
            memcmp(record.entry.realm, zero_realm, sizeof zero_realm) == 0)
            return true;
    return false;
}

static void count_by_list(const struct input *in, mastarik_answer local)
{
    static const enum kind by_record[] = {
        [MASTARIK_USER_OBJ] = OWNER,  [MASTARIK_GROUP_OBJ] = GROUP_OBJ, [MASTARIK_OTHER_OBJ] = OTHER,
        [MASTARIK_USER] = USER,       [MASTARIK_GROUP] = GROUP,
    };
    unsigned record = in->list[local.start];
    expect(local.length != 0 && record <= MASTARIK_GROUP && record != MASTARIK_ANY_OTHER,
           "a record for others decides about the zero realm", in);
    kinds[by_record[record]]++;
    kinds[FOREIGN] += has_foreign_zero(in);
}

static void compare_by_list(struct input *in, mastarik_answer local)
{
    if (in->list_length >= 17) {
        memcpy(in->caller.realm, in->list + 1, sizeof in->caller.realm);
        expect(same_answer(local, lockstep(RIGHTS, in)), "a list gives its default realm something else", in);
    }
    if (local.refused == 0)
        count_by_list(in, local);
}

static void compare_by_mode(struct input *in, mastarik_answer local)
{
    bool elsewhere = memcmp(in->file.realm, zero_realm, sizeof zero_realm) != 0;
    if (elsewhere) {
        expect(local.value == 0, "a mode of another realm gives the zero realm rights", in);
    } else {
        memcpy(in->caller.realm, another_realm, sizeof another_realm);
        memcpy(in->file.realm, another_realm, sizeof another_realm);
        expect(same_answer(local, lockstep(RIGHTS, in)), "a mode of the zero realm gives something else", in);
    }
    kinds[elsewhere ? MODE_ELSEWHERE : MODE] += local.refused == 0;
}

void compare_local(struct input *in)
{
    memcpy(in->caller.realm, zero_realm, sizeof zero_realm);
    mastarik_answer local = lockstep(RIGHTS, in);
    if (in->file.by_mode)
        compare_by_mode(in, local);
    else
        compare_by_list(in, local);
}

unsigned local_print_kinds(void)
{
    unsigned never = 0;
    printf("rights of the zero realm:");
    for (enum kind kind = 0; kind < KINDS; kind++) {
        printf("%s %s x %" PRIu64, kind ? "," : "", kind_names[kind], kinds[kind]);
        never += kinds[kind] == 0;
    }
    printf("\n");
    return never;
}
