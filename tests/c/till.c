/* The till in C of docs/TILL.md, as it stands there (scripts/snippets takes it out). Linked with the whole library, so
 * that its house tabulation is compared with the library's, entry by entry, and its rule of the hash with the call. */
#define main page_main
#include "page_till.c"
#undef main
#include <string.h>
#include "pinorange.h"

/* Whether the rule gives what the library gives, for some cards at every station and in tables of any size. */
static int rule_holds(void) {
    uint32_t card = 1, first, second;
    for (uint32_t i = 0; i < 200000; i++) {
        uint32_t r = i % PINORANGE_MAX_SLOTS + 1, station = i / 7 % (PINORANGE_MAX_STATION + 1);
        card = card * 1664525u + 1013904223u;
        if (pinorange_hashes(tabulation, PINORANGE_TABULATION_LENGTH, r, station, card, &first, &second)
            == PINORANGE_BLANK_KEY)
            continue;
        if (pocket(0, r, station, card) != first || pocket(1, r, station, card) != second)
            return 0;
    }
    return 1;
}

int main(void) {
    static uint16_t house[PINORANGE_TABULATION_LENGTH];
    if (page_main() != 0 || pinorange_house(house, PINORANGE_TABULATION_LENGTH) != PINORANGE_DONE) {
        printf("FAILED: the till's main\n");
        return 1;
    }
    if (memcmp(house, tabulation, sizeof house) != 0) {
        printf("FAILED: the rule gives another tabulation\n");
        return 1;
    }
    if (!rule_holds()) {
        printf("FAILED: the rule gives another pocket than the library\n");
        return 1;
    }
    return 0;
}
