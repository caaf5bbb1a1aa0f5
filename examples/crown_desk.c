/* A crown desk's day at a case server: each line printed tells what a call answered. An answer that is not the expected
 * one ends the program with 1, so the day is a test as well.
 */
#include <inttypes.h>
#include <mastarik.h>
#include <stdio.h>
#include <stdlib.h>
#include <string.h>

/* The lab's realm, and another. */
#define LAB 17, 17, 17, 17, 17, 17, 17, 17, 17, 17, 17, 17, 17, 17, 17, 17
#define ELSEWHERE 34, 34, 34, 34, 34, 34, 34, 34, 34, 34, 34, 34, 34, 34, 34, 34

/* Case 1 is the crown's: its design, then its notes, then its scan, of 20 pieces. Cases 2 to 11 are others. */
enum { CROWN = 1, LAST_CASE = 11, DESIGN_LAST = 49999, NOTES_FIRST = 50000, NOTES_LAST = 50999 };
enum { SCAN_FIRST = 51000, PIECE_SIZE = 1000, LAST_PIECE = 20 };

/* The design station's twelve tokens leave some slots to the others. */
enum { SLOTS = 16, SLOTS_LEFT = SLOTS - 12 };
enum { READ_WRITE = MASTARIK_READ | MASTARIK_WRITE, ALL_RIGHTS = 63 };
enum { TO_MILL = MASTARIK_DATA_READ | MASTARIK_OPEN_SHARED, TO_EDIT = MASTARIK_DATA_READ | MASTARIK_DATA_WRITE };

/* A host, and who is logged in at it. */
struct station {
    const char *name;
    uint16_t host;
    mastarik_caller caller;
    uint32_t groups[1];
    size_t group_count;
};

typedef mastarik_answer edit_call(const uint8_t *, size_t, mastarik_entry, uint8_t *, size_t);

/* The mill is in group 4 by its further groups; the visiting designer has the crown desk's number in another realm; the
 * copying job is started on the server itself.
 */
static const struct station design_station = {"design station", 1, {{LAB}, 7, 6}, {0}, 0};
static const struct station mill = {"mill", 2, {{LAB}, 8, 6}, {4}, 1};
static const struct station crown_desk = {"crown desk", 3, {{LAB}, 9, 4}, {0}, 0};
static const struct station visitor = {"visiting designer", 4, {{ELSEWHERE}, 9, 6}, {0}, 0};
static const struct station copying_job = {"copying job", 5, {MASTARIK_ZERO_REALM, 8, 4}, {0}, 0};
static const struct station *const stations[] = {&design_station, &mill, &crown_desk, &visitor, &copying_job};

/* Every case is the crown desk's, owner 9 and group 4, and one list guards them all, this one once it is built. */
static const mastarik_file case_file = {.owner = 9, .group = 4};
static const uint8_t case_list[] = {
    MASTARIK_DEFAULT_REALM, LAB,
    MASTARIK_USER_OBJ, 15,
    MASTARIK_GROUP_OBJ, 5,
    MASTARIK_OTHER_OBJ, 4,
    MASTARIK_MASK_OBJ, 3,
    MASTARIK_USER, 0, 0, 0, 7, 7,
};
static uint8_t list[MASTARIK_LIST_LIMIT];
static size_t list_length;
static uint8_t table[MASTARIK_SLOT_SIZE * (1 + SLOTS)];

/* Ends the program where an answer is not the expected one. */
static void expect(const char *what, uint64_t found, uint64_t expected)
{
    if (found != expected) {
        fflush(stdout);
        fprintf(stderr, "\ncrown_desk: %s: expected %" PRIu64 ", found %" PRIu64 "\n", what, expected, found);
        exit(1);
    }
}

/* What a station is judged by. */
static mastarik_access access_of(const struct station *who)
{
    return (mastarik_access){
        .list = list,
        .list_length = list_length,
        .groups = who->groups,
        .group_count = who->group_count,
        .caller = who->caller,
        .file = case_file,
    };
}

static const char *right_name(uint16_t right)
{
    return mastarik_right_name((uint8_t)right);
}

/* Prints a set of rights or of types: the name of each bit. */
static void print_set(uint64_t set, const char *(*name)(uint16_t))
{
    const char *comma = "";
    for (unsigned bit = 1; bit <= set; bit <<= 1) {
        if (set & bit) {
            printf("%s%s", comma, name((uint16_t)bit));
            comma = ", ";
        }
    }
}

/* Puts or drops an entry. An edit writes a second buffer, which becomes the list unless the edit is refused. */
static void edit(edit_call *call, uint8_t kind, uint32_t id, uint8_t rights, uint32_t refused)
{
    uint8_t edited[sizeof list];
    mastarik_entry entry = {kind, rights, {ELSEWHERE}, id};
    mastarik_answer answer = call(list, list_length, entry, edited, sizeof edited);
    expect("refusal of an edit", answer.refused, refused);
    if (refused != 0) {
        printf("refused with %" PRIu32 ", %s, at place %" PRIu64 ".\n", refused, mastarik_refusal_text(refused),
               answer.detail);
        return;
    }
    list_length = answer.value;
    memcpy(list, edited, list_length);
    printf("the list has %zu bytes.\n", list_length);
}

/* Prints a user's rights on a case, and the deciding record: a part of the list, its rights in its last byte. */
static void show_rights(const char *time, const struct station *who, uint64_t rights)
{
    mastarik_access access = access_of(who);
    mastarik_answer answer = mastarik_easy_rights(&access);
    expect("refusal of rights", answer.refused, 0);
    expect("rights", answer.value, rights);
    printf("%s  The %s's rights are %" PRIu64, time, who->name, answer.value);
    if (answer.length == 0) {
        printf(": no record decides.\n");
        return;
    }
    const uint8_t *record = list + answer.start;
    printf(" by the record of %zu bytes at place %zu:", answer.length, answer.start);
    for (size_t i = 0; i < answer.length; i++) {
        printf(" %d", record[i]);
    }
    printf(".\n       It says ");
    print_set(record[answer.length - 1], right_name);
    int is_masked = record[0] != MASTARIK_USER_OBJ && record[0] != MASTARIK_OTHER_OBJ;
    printf("; %s ", is_masked ? "the mask leaves" : "unmasked, it gives");
    print_set(answer.value, right_name);
    printf(".\n");
}

/* Expects a call's refusal, or 0; a refusal is printed, and must have left every byte of the table as it was. */
static void settle(const char *what, mastarik_answer answer, uint32_t refused, const uint8_t *before)
{
    expect(what, answer.refused, refused);
    if (refused != 0) {
        expect("change by a refusal", memcmp(before, table, sizeof table) != 0, 0);
        printf("refused with %" PRIu32 ", %s; the table's %zu bytes are as they were.\n", refused,
               mastarik_refusal_text(refused), sizeof table);
    }
}

static mastarik_claim claim_of(const struct station *who, uint16_t types, uint8_t number, uint64_t first, uint64_t last)
{
    return (mastarik_claim){.types = types, .host = who->host, .file = {[11] = number}, .first = first, .last = last};
}

static void print_token(uint64_t number, uint64_t first, uint64_t last, uint16_t types)
{
    printf("token %" PRIu64 ", bytes %" PRIu64 " to %" PRIu64 ", ", number, first, last);
    print_set(types, mastarik_type_name);
    printf(".\n");
}

/* Claims a token for a station, and prints it or the refusal. */
static uint64_t grant(const struct station *who, mastarik_claim claim, uint32_t refused)
{
    uint8_t before[sizeof table];
    memcpy(before, table, sizeof table);
    mastarik_access access = access_of(who);
    mastarik_answer answer = mastarik_easy_grant(table, sizeof table, claim, &access);
    settle("refusal of a grant", answer, refused, before);
    if (refused == 0) {
        print_token(answer.value, claim.first, claim.last, claim.types);
    }
    return answer.value;
}

/* Claims a token over the widest range that holds the claim's, expects it to be from first on, and prints it. */
static uint64_t grant_widest(const struct station *who, mastarik_claim claim, uint64_t first)
{
    mastarik_access access = access_of(who);
    mastarik_answer answer = mastarik_easy_grant_widest(table, sizeof table, claim, &access);
    expect("refusal of a widest grant", answer.refused, 0);
    expect("first byte of a widest grant", answer.first, first);
    expect("last byte of a widest grant", answer.last, UINT64_MAX);
    print_token(answer.value, answer.first, answer.last, claim.types);
    return answer.value;
}

/* Returns types of a station's token, and prints that it is done or the refusal. */
static void give_back(const struct station *who, uint64_t number, uint16_t types, uint32_t refused)
{
    uint8_t before[sizeof table];
    memcpy(before, table, sizeof table);
    mastarik_answer answer = mastarik_easy_return(table, sizeof table, who->host, number, types);
    settle("refusal of a return", answer, refused, before);
    if (refused == 0) {
        printf("done.\n");
    }
}

/* Asks what is in the way of a claim, and prints it: of so many tokens, these types. Answers the first one's number. */
static uint64_t ask(const struct station *who, mastarik_claim claim, uint64_t count, uint16_t types)
{
    uint8_t entries[MASTARIK_CALL_BACK_SIZE * SLOTS];
    mastarik_access access = access_of(who);
    mastarik_answer answer = mastarik_easy_ask(table, sizeof table, claim, &access, entries, sizeof entries);
    expect("refusal of an ask", answer.refused, 0);
    expect("tokens in the way", answer.value, count);
    printf("%" PRIu64 " in all.", count);
    for (uint64_t i = 0; i < count; i++) {
        mastarik_call_back back = mastarik_call_back_at(entries, i);
        printf(" Of token %" PRIu64 " at the %s: ", back.number, stations[back.host - 1]->name);
        print_set(back.types, mastarik_type_name);
        printf(".");
        expect("types to call back", back.types, types);
    }
    printf("\n");
    return mastarik_call_back_at(entries, 0).number;
}

static void switch_off(const char *time, const struct station *who, uint64_t slots)
{
    mastarik_answer answer = mastarik_easy_drop_host(table, sizeof table, who->host);
    expect("slots of a host", answer.value, slots);
    printf("%s  The %s's host is switched off; slots freed: %" PRIu64 ".\n", time, who->name, answer.value);
}

/* Expects the list as it is to be by day, with nobody's visit in it. */
static void expect_case_list(void)
{
    expect("length of the list", list_length, sizeof case_list);
    expect("change of the list", memcmp(list, case_list, sizeof case_list) != 0, 0);
}

/* The list begins without mask_obj and user records; the first of these wants the mask to be there. */
static void open_the_case(void)
{
    const uint8_t lab[16] = {LAB};
    list_length = mastarik_new_list(lab, 15, 5, 4, list, sizeof list).value;
    expect("refusal of the list", mastarik_easy_check(list, list_length).refused, 0);
    printf("08:00  The crown desk opens case 1, a crown; its list of %zu bytes passes the check.\n", list_length);
    printf("08:01  User 7, the designer, is put with read, write, execute: ");
    edit(mastarik_easy_put_entry, MASTARIK_USER, 7, 7, MASTARIK_MASK_MISSING);
    printf("08:02  mask_obj is put with read, write: ");
    edit(mastarik_easy_put_entry, MASTARIK_MASK_OBJ, 0, READ_WRITE, 0);
    printf("08:03  User 7 is put once more: ");
    edit(mastarik_easy_put_entry, MASTARIK_USER, 7, 7, 0);
    expect_case_list();
    show_rights("08:05", &crown_desk, 15);
    show_rights("08:05", &design_station, READ_WRITE);
    show_rights("08:05", &mill, MASTARIK_READ);
}

/* The design station comes to hold twelve tokens: the crown's design, its notes, and ten other cases. */
static void design_the_crown(void)
{
    expect("refusal of fill", mastarik_easy_fill(table, sizeof table).refused, 0);
    printf("08:10  The table of tokens is filled: %zu bytes, %d free slots.\n", sizeof table, SLOTS);
    printf("08:20  The design station opens the crown's design: ");
    grant(&design_station, claim_of(&design_station, TO_MILL | TO_EDIT, CROWN, 0, DESIGN_LAST), 0);
    printf("08:21  It takes notes on the crown: ");
    grant(&design_station, claim_of(&design_station, TO_EDIT, CROWN, NOTES_FIRST, NOTES_LAST), 0);
    for (uint8_t number = CROWN + 1; number <= LAST_CASE; number++) {
        printf("08:30  It takes up case %d: ", number);
        grant(&design_station, claim_of(&design_station, TO_EDIT, number, 0, DESIGN_LAST), 0);
    }
}

static mastarik_claim piece_of_scan(const struct station *who, uint16_t types, int piece)
{
    uint64_t first = SCAN_FIRST + PIECE_SIZE * (uint64_t)(piece - 1);
    return claim_of(who, types, CROWN, first, first + PIECE_SIZE - 1);
}

/* A token for each piece soon takes every slot; one widest grant serves for all. It begins after the notes, which the
 * design station may write, and is in the way of a write to any piece.
 */
static void read_the_scan(void)
{
    uint64_t tokens[SLOTS_LEFT];
    for (int i = 0; i < SLOTS_LEFT; i++) {
        printf("09:00  The crown desk reads piece %d of the crown's scan: ", i + 1);
        tokens[i] = grant(&crown_desk, piece_of_scan(&crown_desk, MASTARIK_DATA_READ, i + 1), 0);
    }
    mastarik_claim next = piece_of_scan(&crown_desk, MASTARIK_DATA_READ, SLOTS_LEFT + 1);
    printf("09:01  It wants piece %d of %d: ", SLOTS_LEFT + 1, LAST_PIECE);
    grant(&crown_desk, next, MASTARIK_NO_FREE_SLOT);
    for (int i = 0; i < SLOTS_LEFT; i++) {
        printf("09:02  It returns token %" PRIu64 ": ", tokens[i]);
        give_back(&crown_desk, tokens[i], MASTARIK_DATA_READ, 0);
    }
    printf("09:03  It wants that piece once more, and the widest range around it: ");
    uint64_t token = grant_widest(&crown_desk, next, SCAN_FIRST);
    printf("09:20  Tokens in the design station's way, should it write piece %d: ", LAST_PIECE);
    ask(&design_station, piece_of_scan(&design_station, MASTARIK_DATA_WRITE, LAST_PIECE), 1, MASTARIK_DATA_READ);
    printf("09:30  The whole scan is read with one token; the crown desk returns it: ");
    give_back(&crown_desk, token, MASTARIK_DATA_READ, 0);
}

/* Of the twelve tokens one is in the way, and of that one the write alone; once it is returned the mill is served. */
static uint64_t move_the_seating(void)
{
    mastarik_claim design = claim_of(&mill, TO_MILL, CROWN, 0, DESIGN_LAST);
    printf("10:40  The seating moves from four o'clock to noon, and the mill wants the whole design: ");
    grant(&mill, design, MASTARIK_CONFLICT);
    printf("10:41  Tokens in the mill's way: ");
    uint64_t in_the_way = ask(&mill, design, 1, MASTARIK_DATA_WRITE);
    printf("10:42  Called back, the design station returns that one type: ");
    give_back(&design_station, in_the_way, MASTARIK_DATA_WRITE, 0);
    printf("10:42  It returns it a second time: ");
    give_back(&design_station, in_the_way, MASTARIK_DATA_WRITE, MASTARIK_TYPE_LACKING);
    printf("10:43  The mill is served, and the crown mills at once: ");
    uint64_t token = grant(&mill, design, 0);
    design = claim_of(&crown_desk, MASTARIK_DATA_WRITE | MASTARIK_OPEN_EXCLUSIVE, CROWN, 0, DESIGN_LAST);
    printf("10:44  Tokens in the crown desk's way, should it write and open it alone: ");
    ask(&crown_desk, design, 2, TO_MILL);
    return token;
}

/* While the crown mills nobody but its owner may write: the mask sees to it, whatever a record says. */
static void receive_the_visitor(mastarik_claim design)
{
    printf("11:00  mask_obj is put with read alone, for as long as the crown mills: ");
    edit(mastarik_easy_put_entry, MASTARIK_MASK_OBJ, 0, MASTARIK_READ, 0);
    show_rights("11:05", &visitor, 0);
    printf("11:10  foreign_user 9, the visiting designer, is put with all rights: ");
    edit(mastarik_easy_put_entry, MASTARIK_FOREIGN_USER, 9, ALL_RIGHTS, 0);
    show_rights("11:10", &visitor, MASTARIK_READ);
    printf("11:11  The visiting designer wants to write the design: ");
    grant(&visitor, design, MASTARIK_RIGHT_MISSING);
}

/* A wider mask gives the right; the read that the design station kept is in the way until its host is dropped. */
static void let_the_visitor_write(mastarik_claim design)
{
    printf("12:30  mask_obj is put with read, write: ");
    edit(mastarik_easy_put_entry, MASTARIK_MASK_OBJ, 0, READ_WRITE, 0);
    show_rights("12:30", &visitor, READ_WRITE);
    printf("12:31  The visiting designer wants to write the design: ");
    grant(&visitor, design, MASTARIK_CONFLICT);
    printf("12:31  Tokens in the visiting designer's way: ");
    ask(&visitor, design, 1, MASTARIK_DATA_READ);
    switch_off("12:40", &design_station, 12);
    printf("12:41  The visiting designer wants to write the design: ");
    grant(&visitor, design, 0);
}

/* The zero realm counts as the lab's, so group_obj serves the job, which is in group 4. */
static void copy_the_case(void)
{
    show_rights("17:30", &copying_job, MASTARIK_READ);
    printf("17:31  The copying job reads the crown's design: ");
    mastarik_claim design = claim_of(&copying_job, MASTARIK_DATA_READ, CROWN, 0, DESIGN_LAST);
    uint64_t token = grant(&copying_job, design, 0);
    printf("17:40  It returns token %" PRIu64 ": ", token);
    give_back(&copying_job, token, MASTARIK_DATA_READ, 0);
}

int main(void)
{
    mastarik_claim redesign = claim_of(&visitor, MASTARIK_DATA_WRITE, CROWN, 0, DESIGN_LAST);
    open_the_case();
    design_the_crown();
    read_the_scan();
    uint64_t token = move_the_seating();
    receive_the_visitor(redesign);
    printf("11:50  The crown is milled, to be seated at noon; the mill returns token %" PRIu64 " whole: ", token);
    give_back(&mill, token, TO_MILL, 0);
    let_the_visitor_write(redesign);
    printf("17:00  foreign_user 9 is dropped: ");
    edit(mastarik_easy_drop_entry, MASTARIK_FOREIGN_USER, 9, 0, 0);
    expect_case_list();
    switch_off("17:00", &visitor, 1);
    copy_the_case();
    expect("audit", mastarik_easy_audit(table, sizeof table).value, 1);
    printf("18:00  Audit says yes.\n");
    return 0;
}
