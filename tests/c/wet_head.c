/* A head that got wet: a list is laid, some of its words are changed, and what is left is salvaged into a second area.
 * Shows in words what was damaged, what is saved, what is gone and what is new; docs/BENCH.md has what it prints. Then
 * the list is set right by the record of the cards, and is what it was, word for word. Exits with 0 when all that it
 * says is so. */
#include "pinorange_list.h"

#include <stdio.h>
#include <string.h>

enum { R = 8, S = 2, STATION = 17, WORDS = PINORANGE_WORDS(R, S), SPOTS = 2 * R + S, CARDS = 13 };

/* The record of the cards, ascending, each with its tier: as head office holds them. */
static const uint32_t record[2 * CARDS] = {
    410010, 3, 410025, 0, 410033, 1, 410041, 5, 410058, 2, 410066, 7, 410074, 4,
    733001, 7, 733019, 3, 733027, 0, 733035, 6, 733043, 1, 733050, 2};

static struct PINORANGE_MEMORY(R, S) memory;
static const struct pinorange_list list = PINORANGE_LIST(memory);
static uint32_t wet[WORDS];    /* what comes off the head */
static uint32_t before[WORDS]; /* what it was, to compare */
static unsigned failures;

static void expect(int holds, const char *what)
{
    if (!holds) {
        printf("FAILED: %s\n", what);
        failures++;
    }
}

/* Where a slot or a place begins, all of them counted in word order. */
static uint32_t spot(uint32_t i)
{
    return i < 2 * R ? PINORANGE_SLOT(R, i / R, i % R) : PINORANGE_PLACE(R, i - 2 * R);
}

/* In how many slots of the list a card sits, and where the last of them begins. */
static uint32_t sits(uint32_t card, uint32_t *at)
{
    uint32_t times = 0;
    for (uint32_t i = 0; i < 2 * R; i++)
        if (before[spot(i)] == card) {
            *at = spot(i);
            times++;
        }
    return times;
}

/* Where a card begins that sits in so many slots: the first such of the record, the second, and so on. */
static uint32_t seated(uint32_t times, uint32_t which)
{
    uint32_t at = 0;
    for (uint32_t i = 0; i < CARDS; i++)
        if (sits(record[2 * i], &at) == times && which-- == 0)
            return at;
    expect(0, "there is such a card");
    return spot(0);
}

/* Where a word stands, as the bench says it. */
static void print_place(uint32_t at)
{
    static const char *const of_slot[] = {"card", "next number", "tier"}, *const of_place[] = {"card", "tier"};
    if (at < spot(0)) {
        printf("heading, word %u", (unsigned)at);
    } else if (at < spot(2 * R)) {
        uint32_t slot = (at - spot(0)) / 3;
        printf("pocket %u.%u, %s", (unsigned)(slot / R), (unsigned)(slot % R), of_slot[(at - spot(0)) % 3]);
    } else {
        uint32_t behind = at - spot(2 * R);
        printf("drawer place %u, %s", (unsigned)(behind / 2), of_place[behind % 2]);
    }
}

/* The water changes a word. */
static void change(uint32_t at, uint32_t value)
{
    printf("  ");
    print_place(at);
    printf(": %u became %u\n", (unsigned)wet[at], (unsigned)value);
    wet[at] = value;
}

static void get_wet(void)
{
    uint32_t first = seated(1, 0), place = spot(2 * R + 1);
    change(2, 4294967295u);            /* how many cards there are: it has no say */
    change(first + 1, 0);              /* a next number: it has none either */
    change(first, wet[first] ^ 4096);  /* a card becomes a number that may not sit there */
    change(seated(1, 1) + 2, 200);     /* a tier that is none */
    change(seated(1, 2), 3);           /* a number that is no card */
    change(seated(2, 0), 0);           /* a card that sits in its other pocket, too */
    change(place, wet[place] + 1);     /* another issue of a card, which nobody can tell from the right one */
}

/* Where a card stands in the record; CARDS if it does not. */
static uint32_t in_record(uint32_t card)
{
    uint32_t i = 0;
    while (i < CARDS && record[2 * i] != card)
        i++;
    return i;
}

/* Sets the list right: what is not in the record is withdrawn, what is missing is added. */
static void set_right(void)
{
    uint32_t others[SPOTS], count = 0;
    for (uint32_t i = 0; i < SPOTS; i++) {
        uint32_t card = memory.words[spot(i)];
        if (card != 0 && in_record(card) == CARDS)
            others[count++] = card;
    }
    for (uint32_t i = 0; i < count; i++)
        if (pinorange_list_remove(&list, others[i]) == PINORANGE_DONE) /* 7 where it sat in both its pockets */
            printf("  not in the record, withdrawn: %u\n", (unsigned)others[i]);
    for (uint32_t i = 0; i < CARDS; i++) {
        uint32_t answer = pinorange_list_insert(&list, record[2 * i], record[2 * i + 1]);
        if (answer == PINORANGE_DONE)
            printf("  gone, added again: %u at tier %u\n", (unsigned)record[2 * i], (unsigned)record[2 * i + 1]);
        else
            expect(answer == PINORANGE_KEY_PRESENT, "a card that is saved has its tier");
    }
}

int main(void)
{
    uint32_t lost = 0, answer;
    expect(pinorange_house(memory.tabulation, PINORANGE_TABULATION_LENGTH) == PINORANGE_DONE, "house");
    expect(pinorange_list_bulk_load(&list, R, S, STATION, record, 2 * CARDS) == PINORANGE_DONE, "the list is laid");
    memcpy(before, memory.words, sizeof before);
    memcpy(wet, before, sizeof wet);
    printf("%u cards are listed, %u of them in the drawer. Then the head gets wet:\n", (unsigned)before[2],
           (unsigned)before[3]);
    get_wet();

    memcpy(memory.words, wet, sizeof wet);
    answer = pinorange_list_check(&list);
    printf("A check answers %u: this is no list any more.\n", (unsigned)answer);
    expect(answer == PINORANGE_NOT_CANONICAL, "the damage is found");

    answer = pinorange_list_salvage(&list, wet, WORDS, &lost);
    printf("A salvage answers %u: %u cards are saved, %u pockets or places hold what is no card.\n", (unsigned)answer,
           (unsigned)memory.words[2], (unsigned)lost);
    expect(answer == PINORANGE_DONE && lost == 3, "what is saved, and what is lost");
    answer = pinorange_list_check(&list);
    printf("A check of what is saved answers %u. Beside the record of the cards:\n", (unsigned)answer);
    expect(answer == PINORANGE_DONE && memory.words[2] < CARDS, "what is saved is a list");
    set_right();
    expect(memcmp(before, memory.words, sizeof before) == 0, "the list is what it was");
    printf("Now the list is what it was before the water, word for word.\n");

    for (uint32_t i = spot(0); i < WORDS; i++)
        wet[i] = 3;
    answer = pinorange_list_salvage(&list, wet, WORDS, &lost);
    printf("Had all behind the heading become 3, a salvage would answer %u: no card is left.\n", (unsigned)answer);
    expect(answer == PINORANGE_NONE_COUNTS && lost == 3, "nothing is left");
    expect(memcmp(before, memory.words, sizeof before) == 0, "and the list stays");
    return failures != 0;
}
