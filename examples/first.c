/* A first program: one token for the owner of a file that a mode guards. */
#include <mastarik.h>
#include <stdio.h>

int main(void)
{
    static uint8_t table[MASTARIK_SLOT_SIZE * (1 + 8)]; /* 8 slots */
    const mastarik_access access = {
        .caller = {.realm = {17}, .user = 9, .group = 4},                            /* user 9 of realm 17 0 0 .. */
        .file = {.owner = 9, .group = 4, .by_mode = 1, .realm = {17}, .mode = 0640}, /* so no list is lent */
    };
    /* host 1 wants to write bytes 0 to 99 of file 1 0 0 .. */
    const mastarik_claim claim = {.types = MASTARIK_DATA_WRITE, .host = 1, .file = {1}, .first = 0, .last = 99};
    if (mastarik_version() != MASTARIK_VERSION)
        return 1;
    mastarik_easy_fill(table, sizeof table);
    mastarik_answer answer = mastarik_easy_grant(table, sizeof table, claim, &access);
    printf("refused %u, token %llu\n", answer.refused, (unsigned long long)answer.value);
    if (answer.refused)
        printf("%s\n", mastarik_refusal_text(answer.refused));
    return answer.refused != 0;
}
