/* The easy calls by number. */
#include "easy.h"

/* The length that NULL is lent with: that of a table, and more than a list and groups may have. */
enum { MADE_UP = MASTARIK_SLOT_SIZE * 200 };

static size_t told(size_t length)
{
    return length ? length : MADE_UP;
}

mastarik_answer make_easy_call(enum call call, const struct input *in, const struct lent *at)
{
    const uint8_t *list = in->list_length ? at->list : NULL;
    const uint32_t *groups = in->group_count ? at->groups : NULL;
    uint8_t *table = in->table_length ? at->table : NULL, *out = in->out_length ? at->out : NULL;
    size_t list_length = told(in->list_length), table_length = told(in->table_length), room = told(in->out_length);
    mastarik_access access = {list, list_length, groups, told(in->group_count), in->caller, in->file};
    switch (call) {
    case CHECK:
        return mastarik_easy_check(list, list_length);
    case RIGHTS:
        return mastarik_easy_rights(&access);
    case NEEDS:
        return mastarik_needs(in->types, in->file.dir);
    case NEW_LIST:
        return mastarik_new_list(in->entry.realm, in->objects[0], in->objects[1], in->objects[2], out, room);
    case PUT_ENTRY:
        return mastarik_easy_put_entry(list, list_length, in->entry, out, room);
    case DROP_ENTRY:
        return mastarik_easy_drop_entry(list, list_length, in->entry, out, room);
    case FILL:
        return mastarik_easy_fill(table, table_length);
    case ASK:
        return mastarik_easy_ask(table, table_length, in->claim, &access, out, room);
    case GRANT:
        return mastarik_easy_grant(table, table_length, in->claim, &access);
    case GRANT_WIDEST:
        return mastarik_easy_grant_widest(table, table_length, in->claim, &access);
    case RETURN:
        return mastarik_easy_return(table, table_length, in->host, in->number, in->types);
    case DROP_HOST:
        return mastarik_easy_drop_host(table, table_length, in->host);
    default:
        return mastarik_easy_audit(table, table_length);
    }
}
