/* The head in C of docs/C.md, as it stands there (scripts/snippets takes it out): each of its functions is run, and
 * what it prints is compared with the cards that were added. */
#include <stdarg.h>
#include <stdint.h>
#include <stdio.h>
#include <string.h>

/* What the page's code prints. */
static char printed[1 << 17];
static size_t used;

static int record(const char *format, ...) {
    va_list values;
    va_start(values, format);
    used += (size_t)vsnprintf(printed + used, sizeof printed - used, format, values);
    va_end(values);
    return 0;
}

#define printf record
#define main page_main
#include "page_head.c"
#undef main
#undef printf

static unsigned failures;

static void expect(int holds, const char *what) {
    if (!holds) {
        printf("FAILED: %s\n", what);
        failures++;
    }
}

static void forget(void) {
    used = 0;
    printed[0] = 0;
}

/* How often a text stands in what was printed. */
static unsigned times(const char *text) {
    unsigned count = 0;
    for (const char *at = strstr(printed, text); at; at = strstr(at + 1, text))
        count++;
    return count;
}

static void list_cards(void) {
    forget();
    list_seated();
    list_stashed();
}

/* Adds cards, more than there are pockets for in places, and expects each that was accepted in the listing once. */
static void listed_once(void) {
    enum { CARDS = 1700 };
    static uint32_t cards[CARDS];
    uint32_t count = 0, card = 0;
    for (uint32_t i = 0; i < CARDS; i++) {
        card = card * 1664525u + 1013904223u;
        if (insert_plainly(card, i % 8) == PINORANGE_DONE)
            cards[count++] = card;
    }
    expect(count > 1400 && memory.words[3] > 0, "many cards are listed, and the drawer is in use");
    list_cards();
    expect(times("\n") == memory.words[2] && memory.words[2] == count + 1, "the listing has a line for each card");
    for (uint32_t i = 0; i < count; i++) {
        char text[32];
        snprintf(text, sizeof text, "card %u,", (unsigned)cards[i]);
        if (times(text) != 1)
            expect(0, text);
    }
}

/* A file that is refused: what is printed, and that the list stays, down to the last word. */
static void not_loaded(const char *file, const char *said) {
    static uint32_t before[PINORANGE_WORDS(R, S)];
    memcpy(before, memory.words, sizeof before);
    forget();
    expect(!load_file(file) && strcmp(printed, said) == 0, said);
    expect(memcmp(before, memory.words, sizeof before) == 0, "a file that is refused leaves the list");
}

/* Head office's files: each line that is at fault is found. */
static void files(void) {
    static char text[32 * (MOST + 1)];
    size_t length = 0;
    forget();
    expect(load_file("410010,3\n410025,0\n4294967295,7\n") && used == 0, "a file of three cards");
    expect(memory.words[2] == 3 && price_of_sale(410025) == 1749, "it is the list then");
    list_cards();
    expect(times("\n") == 3 && times("card 4294967295, tier 7") == 1, "each card is listed once");
    not_loaded("410010,3\n410025,0\n9,0\n", "refused with 5, line 3\n");
    not_loaded("410010,3\n410025,8\n", "refused with 9, line 2\n");
    not_loaded("410010,3\n410025,0\n410011,3\n", "refused with 14, line 3\n");
    not_loaded("410010,3\n410010,3\n", "refused with 14, line 2\n");
    not_loaded("410010,3\n410013,3\n410025,0\n", "refused with 13, line 2\n");
    not_loaded("410010,3\n410025\n", "line 2 is not card,tier, or one too many\n");
    not_loaded("410010,3\n\n", "line 2 is not card,tier, or one too many\n");
    not_loaded("410010,3", "line 1 is not card,tier, or one too many\n");
    not_loaded("4294967296,0\n", "line 1 is not card,tier, or one too many\n");
    not_loaded("18446744073709551626,0\n", "line 1 is not card,tier, or one too many\n");
    for (uint32_t i = 0; i < MOST; i++)
        length += (size_t)snprintf(text + length, sizeof text - length, "%u,0\n", (unsigned)(10 * i + 10));
    not_loaded(text, "the list is too small for these cards\n");
    snprintf(text + length, sizeof text - length, "4294967295,0\n");
    not_loaded(text, "line 2113 is not card,tier, or one too many\n");
    expect(load_file("") && memory.words[2] == 0, "an empty file is an empty list");
    expect(load_file("410019,5\n") && memory.words[2] == 1, "a file of one card");
}

/* A damaged list is saved but for what was spoiled, whatever became of heading and tabulation. */
static void saves(void) {
    static uint32_t before[PINORANGE_WORDS(R, S)];
    uint32_t first, second_slot, cards = memory.words[2];
    memcpy(before, memory.words, sizeof before);
    forget();
    expect(save_list() && memcmp(before, memory.words, sizeof before) == 0, "a list that is not damaged is saved as it is");
    memset(memory.tabulation, 0, sizeof memory.tabulation);
    memset(memory.words, 0xff, 5 * sizeof *memory.words);
    expect(save_list() && memcmp(before, memory.words, sizeof before) == 0, "nor do heading and tabulation matter");
    expect(times("; 0 pockets") == 2, "nothing is lost");
    pinorange_hashes(memory.tabulation, PINORANGE_TABULATION_LENGTH, R, STATION, 410019, &first, &second_slot);
    memory.words[PINORANGE_SLOT(R, 0, first)] = memory.words[PINORANGE_SLOT(R, 1, second_slot)] = 4;
    forget();
    expect(save_list() && price_of_sale(410019) == 0, "what was spoiled is gone");
    expect(times("; 2 pockets") == 1 && memory.words[2] >= cards - 2 && memory.words[2] < cards, "and is told");
    expect(pinorange_list_check(&list) == PINORANGE_DONE, "the list is one again");
    for (size_t i = 5; i < PINORANGE_WORDS(R, S); i++)
        memory.words[i] = 3;
    forget();
    expect(!save_list() && strcmp(printed, "nothing to save: 15\n") == 0, "no card is left");
}

/* Stolen cards: a card that was reported buys nothing, another issue of it does; and the list moves to other words. */
static void stolen_cards(void) {
    static uint32_t fewer_words[4], other_words[1024];
    const struct pinorange_stolen_list fewer = PINORANGE_STOLEN_LIST(memory.tabulation, fewer_words, STATION);
    const struct pinorange_stolen_list other = PINORANGE_STOLEN_LIST(memory.tabulation, other_words, STATION + 1);
    struct pinorange_sale sale;
    uint32_t reported;
    memset(stolen_words, 0x5a, sizeof stolen_words);
    expect(lay_stolen() == PINORANGE_DONE && stolen_words[0] == 0 && stolen_words[1023] == 0, "an empty stolen list");
    expect(nozzle_lift(410017, &sale) && sale.price == 1699, "nothing was reported");
    expect(report_stolen(410017) == PINORANGE_DONE && report_stolen(410017) == PINORANGE_KEY_PRESENT, "a report");
    expect(!nozzle_lift(410017, &sale), "a stolen card buys nothing");
    expect(replace_card(410017, 410018, 3) == PINORANGE_DONE && nozzle_lift(410018, &sale), "a new issue does");
    expect(report_stolen(410018) == PINORANGE_DONE && !nozzle_lift(410018, &sale), "until it is stolen, too");
    expect(!nozzle_lift(733001, &sale) && !nozzle_lift(9, &sale), "a card that is not listed, and no card");
    for (uint32_t i = 0; i < 3; i++)
        expect(report_stolen(500000 + 10 * i) == PINORANGE_DONE, "other reports");
    expect(move_stolen(&fewer, stolen_words, 1024) == PINORANGE_TABLE_FULL, "five cards do not fit into four slots");
    expect(move_stolen(&other, stolen_words, 1024) == PINORANGE_DONE, "the list moves");
    expect(pinorange_stolen_list_check(&other) == PINORANGE_DONE, "and is one at the other station");
    expect(pinorange_stolen_list_lookup(&other, 410018, &reported) == PINORANGE_DONE && reported, "with its cards");
    expect(pinorange_stolen_list_lookup(&other, 410019, &reported) == PINORANGE_DONE && !reported, "and no other");
    expect(replace_card(410018, 410017, 3) == PINORANGE_DONE, "the card list as it was");
}

int main(void) {
    expect(page_main() == 0, "the head's main");
    expect(strcmp(printed, "410017 is listed at tier 3\n") == 0, "what it prints");
    list_cards();
    expect(strcmp(printed, "card 410017, tier 3\n") == 0, "a lone card is listed once");
    expect(price_of_sale(410017) == 1699 && price_of_sale(410018) == 0, "the price of a sale");
    stolen_cards();
    forget();
    expect(show_trail(410017) == 0 && strcmp(printed, "410017\n") == 0, "the trail of a lone card");
    expect(replace_card(410018, 410019, 5) == PINORANGE_KEY_ABSENT, "a card that is not listed is not replaced");
    expect(replace_card(410017, 410019, 5) == PINORANGE_DONE, "a card is replaced");
    expect(price_of_sale(410017) == 0 && price_of_sale(410019) == 1749, "by another issue at another tier");
    files();
    listed_once();
    saves();
    printf("head.c: %u failures\n", failures);
    return failures != 0;
}
