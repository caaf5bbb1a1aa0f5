/* The calls by side and number. */
#include "calls.h"

#include "by_hand.h"

struct calls {
    mastarik_answer (*check)(const uint8_t *, size_t);
    mastarik_answer (*rights)(const uint8_t *, size_t, const uint32_t *, size_t, mastarik_caller, mastarik_file);
    mastarik_answer (*needs)(uint16_t, uint8_t);
    mastarik_answer (*new_list)(const uint8_t *, uint8_t, uint8_t, uint8_t, uint8_t *, size_t);
    mastarik_answer (*put_entry)(const uint8_t *, size_t, mastarik_entry, uint8_t *, size_t);
    mastarik_answer (*drop_entry)(const uint8_t *, size_t, mastarik_entry, uint8_t *, size_t);
    mastarik_answer (*fill)(uint8_t *, size_t);
    mastarik_answer (*ask)(const uint8_t *, size_t, mastarik_claim, const uint8_t *, size_t, const uint32_t *, size_t,
                           mastarik_caller, mastarik_file, uint8_t *, size_t);
    mastarik_answer (*grant)(uint8_t *, size_t, mastarik_claim, const uint8_t *, size_t, const uint32_t *, size_t,
                             mastarik_caller, mastarik_file);
    mastarik_answer (*grant_widest)(uint8_t *, size_t, mastarik_claim, const uint8_t *, size_t, const uint32_t *,
                                    size_t, mastarik_caller, mastarik_file);
    mastarik_answer (*give_back)(uint8_t *, size_t, uint16_t, uint64_t, uint16_t);
    mastarik_answer (*drop_host)(uint8_t *, size_t, uint16_t);
    mastarik_answer (*audit)(const uint8_t *, size_t);
};

static const struct calls calls_of[SIDES] = {
    [LIBRARY] = {mastarik_check, mastarik_rights, mastarik_needs, mastarik_new_list, mastarik_put_entry,
                 mastarik_drop_entry, mastarik_fill, mastarik_ask, mastarik_grant, mastarik_grant_widest,
                 mastarik_return, mastarik_drop_host, mastarik_audit},
    [BY_HAND] = {by_hand_check, by_hand_rights, by_hand_needs, by_hand_new_list, by_hand_put_entry, by_hand_drop_entry,
                 by_hand_fill, by_hand_ask, by_hand_grant, by_hand_grant_widest, by_hand_return, by_hand_drop_host,
                 by_hand_audit},
};

mastarik_answer make_call(enum side side, enum call call, const struct input *in, const struct lent *at)
{
    const struct calls *calls = &calls_of[side];
    switch (call) {
    case CHECK:
        return calls->check(at->list, in->list_length);
    case RIGHTS:
        return calls->rights(at->list, in->list_length, at->groups, in->group_count, in->caller, in->file);
    case NEEDS:
        return calls->needs(in->types, in->file.dir);
    case NEW_LIST:
        return calls->new_list(in->entry.realm, in->objects[0], in->objects[1], in->objects[2], at->out,
                               in->out_length);
    case PUT_ENTRY:
        return calls->put_entry(at->list, in->list_length, in->entry, at->out, in->out_length);
    case DROP_ENTRY:
        return calls->drop_entry(at->list, in->list_length, in->entry, at->out, in->out_length);
    case FILL:
        return calls->fill(at->table, in->table_length);
    case ASK:
        return calls->ask(at->table, in->table_length, in->claim, at->list, in->list_length, at->groups,
                          in->group_count, in->caller, in->file, at->out, in->out_length);
    case GRANT:
        return calls->grant(at->table, in->table_length, in->claim, at->list, in->list_length, at->groups,
                            in->group_count, in->caller, in->file);
    case GRANT_WIDEST:
        return calls->grant_widest(at->table, in->table_length, in->claim, at->list, in->list_length, at->groups,
                                   in->group_count, in->caller, in->file);
    case RETURN:
        return calls->give_back(at->table, in->table_length, in->host, in->number, in->types);
    case DROP_HOST:
        return calls->drop_host(at->table, in->table_length, in->host);
    default:
        return calls->audit(at->table, in->table_length);
    }
}
