/* More cards than fit: which of them are refused hangs on the order, so that heads which are fed in other orders
 * differ, though each lists as many. What keeps them alike: one order on all heads, or the cards that one head
 * accepted, which fit in every order, and in one call. All cards in one call are refused together. Exits with 0 when
 * the lists differ and are equal as pinorange.h says. */
#include "pinorange_list.h"

#include <stdio.h>
#include <string.h>

enum { R = 64, S = 2, STATION = 17, CARDS = 140, WORDS = PINORANGE_WORDS(R, S) };

static struct PINORANGE_MEMORY(R, S) memory;
static const struct pinorange_list list = PINORANGE_LIST(memory);
static unsigned failures;

static void expect(int holds, const char *what)
{
    if (!holds) {
        printf("FAILED: %s\n", what);
        failures++;
    }
}

/* Ascending with the number: no two are issues of one card. */
static uint32_t card_of(uint32_t i)
{
    return 410017u + 3770u * i;
}

/* The i-th card of an order: ascending, descending, or by steps that come to each card once. */
static uint32_t in_order(uint32_t order, uint32_t i)
{
    return order == 0 ? i : order == 1 ? CARDS - 1 - i : (i * 51 + order) % CARDS;
}

/* Feeds those cards that are wanted in an order to an empty list, notes which are accepted, and gives how many are
 * not. */
static uint32_t feed(uint32_t order, const unsigned char *wanted, unsigned char *accepted)
{
    uint32_t refused = 0;
    expect(pinorange_list_init(&list, R, S, STATION) == PINORANGE_DONE, "init");
    for (uint32_t i = 0; i < CARDS; i++) {
        uint32_t card = in_order(order, i);
        uint32_t answer = wanted[card] ? pinorange_list_insert(&list, card_of(card), card % 8) : PINORANGE_DONE;
        expect(answer == PINORANGE_DONE || answer == PINORANGE_STASH_FULL, "insert");
        accepted[card] = wanted[card] && answer == PINORANGE_DONE;
        refused += answer != PINORANGE_DONE;
    }
    return refused;
}

/* The cards that are wanted, in one call. */
static uint32_t load(const unsigned char *wanted)
{
    static uint32_t input[2 * CARDS];
    size_t length = 0;
    for (uint32_t card = 0; card < CARDS; card++)
        if (wanted[card]) {
            input[length++] = card_of(card);
            input[length++] = card % 8;
        }
    return pinorange_list_bulk_load(&list, R, S, STATION, input, length);
}

int main(void)
{
    static unsigned char all[CARDS], accepted[CARDS], again[CARDS];
    static uint32_t first[WORDS];
    uint32_t refused, others = 0;
    memset(all, 1, sizeof all);
    expect(pinorange_house(memory.tabulation, PINORANGE_TABULATION_LENGTH) == PINORANGE_DONE, "house");
    refused = feed(0, all, accepted);
    expect(refused > 0, "some cards do not fit");
    memcpy(first, memory.words, sizeof first);
    expect(feed(0, all, again) == refused && memcmp(first, memory.words, sizeof first) == 0, "one order, one list");
    for (uint32_t order = 1; order < 6; order++) {
        expect(feed(order, all, again) == refused, "every order lists as many");
        others += memcmp(first, memory.words, sizeof first) != 0;
        expect(feed(order, accepted, again) == 0, "what was accepted once fits in every order");
        expect(memcmp(first, memory.words, sizeof first) == 0, "and makes the same list");
    }
    expect(others > 0, "another order makes another list");
    expect(load(all) == PINORANGE_STASH_FULL && memcmp(first, memory.words, sizeof first) == 0,
           "all cards in one call are refused, and the list stays");
    memset(memory.words, 0x5a, sizeof memory.words);
    expect(load(all) == PINORANGE_STASH_FULL && memory.words[7] == 0x5a5a5a5a, "whatever the words are");
    expect(load(accepted) == PINORANGE_DONE && memcmp(first, memory.words, sizeof first) == 0,
           "those that were accepted make the same list in one call");
    printf("over_full.c: %u failures; %u of %u cards refused; %u of 5 other orders make another list\n", failures,
           (unsigned)refused, (unsigned)CARDS, (unsigned)others);
    return failures != 0;
}
