/* A case server's morning in C++: a list built from nothing, two hosts that want one file, and who holds it then. An
 * answer that is not the expected one ends the program with 1. C++11, with the C library's headers alone.
 */
#include <mastarik.h>
#include <stdio.h>
#include <stdlib.h>
#include <string.h>

namespace {

enum : uint16_t { DESK = 1, MILL = 2, VISITOR = 3 };
enum : uint32_t { DESK_USER = 9, MILL_USER = 8, LAB_GROUP = 4 };

const uint8_t lab[16] = {17};
const uint8_t case_1[12] = {1};

/* Gives a call's value; ends the program where it was not refused, or done, as expected. */
uint64_t settle(const char *what, mastarik_answer answer, uint32_t expected = 0)
{
    printf("%s: %s\n", what, mastarik_refusal_text(answer.refused));
    if (answer.refused != expected) {
        printf("expected: %s\n", mastarik_refusal_text(expected));
        exit(EXIT_FAILURE);
    }
    return answer.value;
}

void expect(const char *what, uint64_t found, uint64_t expected)
{
    if (found == expected)
        return;
    printf("%s: expected %llu, found %llu\n", what, static_cast<unsigned long long>(expected),
           static_cast<unsigned long long>(found));
    exit(EXIT_FAILURE);
}

/* Prints the name of each bit of a set of rights or types. */
template <typename Set> void print_set(Set set, const char *(*name)(Set))
{
    const char *comma = "";
    for (unsigned bit = 1; bit <= set; bit <<= 1) {
        if (!(set & bit))
            continue;
        printf("%s%s", comma, name(static_cast<Set>(bit)));
        comma = ", ";
    }
    printf(set ? "\n" : "none\n");
}

/* The list of a case: an edit writes a second buffer, which becomes the list unless the edit is refused. */
struct List {
    uint8_t bytes[MASTARIK_LIST_LIMIT];
    size_t length;

    void put(const char *what, uint8_t kind, uint32_t id, uint8_t rights, uint32_t refused = 0)
    {
        uint8_t edited[MASTARIK_LIST_LIMIT];
        mastarik_entry entry = {};
        entry.kind = kind;
        entry.id = id;
        entry.rights = rights;
        mastarik_answer answer = mastarik_easy_put_entry(bytes, length, entry, edited, sizeof edited);
        settle(what, answer, refused);
        if (answer.refused)
            return;
        length = answer.value;
        memcpy(bytes, edited, length);
    }
};

List list;
uint8_t table[MASTARIK_SLOT_SIZE * (1 + 4)];

mastarik_access access_of(mastarik_caller caller)
{
    mastarik_access access = {};
    access.list = list.bytes;
    access.list_length = list.length;
    access.caller = caller;
    access.file.owner = DESK_USER;
    access.file.group = LAB_GROUP;
    return access;
}

mastarik_access access_of(uint32_t user)
{
    mastarik_caller caller = {};
    memcpy(caller.realm, lab, sizeof lab);
    caller.user = user;
    return access_of(caller);
}

mastarik_claim claim_of(uint16_t host, uint16_t types, uint64_t first, uint64_t last)
{
    mastarik_claim claim = {types, host, {}, first, last};
    memcpy(claim.file, case_1, sizeof case_1);
    return claim;
}

void build_list()
{
    list.length = settle("new list", mastarik_new_list(lab, 63, MASTARIK_READ, 0, list.bytes, sizeof list.bytes));
    list.put("put the mill, no mask yet", MASTARIK_USER, MILL_USER, MASTARIK_READ, MASTARIK_MASK_MISSING);
    list.put("put the mask", MASTARIK_MASK_OBJ, 0, MASTARIK_READ | MASTARIK_WRITE);
    list.put("put the mill", MASTARIK_USER, MILL_USER, MASTARIK_READ);
    mastarik_record record = {};
    size_t records = 0;
    while (mastarik_next_record(list.bytes, list.length, &record)) {
        printf("  %s at %zu: ", mastarik_kind_name(record.entry.kind), record.place);
        print_set(record.entry.rights, mastarik_right_name);
        records++;
    }
    expect("records", records, 6);
}

/* The desk writes; the mill wants to read the half of it, and the desk gives back what is in the way. */
void share_the_case()
{
    mastarik_access desk = access_of(DESK_USER), mill = access_of(MILL_USER);
    mastarik_claim editing = claim_of(DESK, MASTARIK_DATA_READ | MASTARIK_DATA_WRITE, 0, 999);
    mastarik_claim milling = claim_of(MILL, MASTARIK_DATA_READ | MASTARIK_OPEN_SHARED, 500, 999);
    settle("fill", mastarik_easy_fill(table, sizeof table));
    settle("the desk's grant", mastarik_easy_grant(table, sizeof table, editing, &desk));
    settle("the mill's grant", mastarik_easy_grant(table, sizeof table, milling, &mill), MASTARIK_CONFLICT);
    uint8_t out[MASTARIK_CALL_BACK_SIZE * 4];
    uint64_t count = settle("ask", mastarik_easy_ask(table, sizeof table, milling, &mill, out, sizeof out));
    expect("in the way", count, 1);
    for (size_t k = 0; k < count; k++) {
        mastarik_call_back back = mastarik_call_back_at(out, k);
        printf("  call back of host %d: ", back.host);
        print_set(back.types, mastarik_type_name);
        settle("return", mastarik_easy_return(table, sizeof table, back.host, back.number, back.types));
    }
    expect("number", settle("the mill's grant", mastarik_easy_grant(table, sizeof table, milling, &mill)), 2);
}

/* Nobody's caller gets nothing: no any_other stands in the list. */
void turn_away_a_visitor()
{
    mastarik_caller nobody = MASTARIK_ANONYMOUS;
    mastarik_access visitor = access_of(nobody);
    mastarik_claim reading = claim_of(VISITOR, MASTARIK_DATA_READ, 0, 0);
    expect("rights", settle("the visitor's rights", mastarik_easy_rights(&visitor)), 0);
    expect("needs", settle("what it needs", mastarik_needs(reading.types, visitor.file.dir)), MASTARIK_READ);
    settle("the visitor's grant", mastarik_easy_grant(table, sizeof table, reading, &visitor), MASTARIK_RIGHT_MISSING);
}

size_t print_holders()
{
    size_t held = 0;
    mastarik_token token;
    for (size_t slot = 0; slot < mastarik_slot_count(sizeof table); slot++) {
        if (!mastarik_token_at(table, sizeof table, slot, &token) || memcmp(token.claim.file, case_1, sizeof case_1))
            continue;
        printf("  host %d, token %llu: ", token.claim.host, static_cast<unsigned long long>(token.number));
        print_set(token.claim.types, mastarik_type_name);
        held++;
    }
    return held;
}

} // namespace

int main()
{
    expect("version", mastarik_version(), MASTARIK_VERSION);
    build_list();
    share_the_case();
    turn_away_a_visitor();
    printf("who holds case 1:\n");
    expect("holders", print_holders(), 2);
    expect("freed", settle("drop the mill", mastarik_easy_drop_host(table, sizeof table, MILL)), 1);
    expect("holders", print_holders(), 1);
    expect("audit", settle("audit", mastarik_easy_audit(table, sizeof table)), 1);
    return EXIT_SUCCESS;
}
