/* Twelve pump heads with a card list and a stolen-card list each. Reports of stolen cards reach every head in another
 * order, some of them twice, among customers who lift a nozzle: a head asks the stolen list first, then the card list,
 * and only then opens a sale. In the end all stolen lists are compared word by word, as a station console does. Exits
 * with 0 when they are alike, after each head has told every card as it must; when a head that missed a report differs,
 * and is alike once it came; and when a head whose words were changed notices it, takes no report, and is alike again
 * after its list was laid from the record. */
#include "pinorange_stolen.h"

#include <stdio.h>
#include <string.h>

enum { HEADS = 12, R = 64, S = 8, STATION = 77, CARDS = 60, STOLEN = 40, SLOTS = 54 };

static uint16_t tabulation[PINORANGE_TABULATION_LENGTH];
static uint32_t scratch[PINORANGE_SCRATCH(R, S)];
static struct pinorange_counters counters;

static struct head {
    uint32_t words[PINORANGE_WORDS(R, S)];
    uint32_t stolen[SLOTS];
} heads[HEADS];

static unsigned failures;
static unsigned sales, refused, unlisted; /* what nozzle lifts came to */

static void expect(const char *what, uint32_t got, uint32_t wanted)
{
    if (got != wanted) {
        printf("%s: %u, expected %u\n", what, (unsigned)got, (unsigned)wanted);
        failures++;
    }
}

static struct pinorange_list list_of(struct head *head)
{
    struct pinorange_list list = {tabulation, PINORANGE_TABULATION_LENGTH, head->words, PINORANGE_WORDS(R, S),
                                  scratch, PINORANGE_SCRATCH(R, S), &counters};
    return list;
}

static struct pinorange_stolen_list stolen_of(struct head *head)
{
    struct pinorange_stolen_list stolen = PINORANGE_STOLEN_LIST(tabulation, head->stolen, STATION);
    return stolen;
}

/* The cards that are listed, at all heads. Of every fifth an earlier issue was lost before. */
static uint32_t card(uint32_t i)
{
    return 410000u + 37u * i / 10u * 10u + 5u;
}

/* The cards that are reported stolen, STOLEN of them: listed ones, earlier issues of listed ones, two of one card, and
 * cards of other stations. */
static uint32_t stolen(uint32_t i)
{
    switch (i % 4) {
    case 0:
        return card(i);
    case 1:
        return card(i) - 1;
    case 2:
        return card(i - 1) - 2;
    default:
        return 4000000000u + 1000003u * i;
    }
}

static int was_reported(uint32_t number, uint32_t reports)
{
    for (uint32_t i = 0; i < reports; i++)
        if (stolen(i) == number)
            return 1;
    return 0;
}

/* What a head does at nozzle lift: whether it sells, and then the record of the sale. */
static int nozzle_lift(struct head *head, uint32_t number, struct pinorange_sale *sale)
{
    static const int32_t steps[PINORANGE_STEPS] = {0, -5, -10, -15, -20, -25, 15, -120};
    const struct pinorange_list list = list_of(head);
    const struct pinorange_stolen_list reports = stolen_of(head);
    struct pinorange_found found;
    uint32_t reported;
    if (pinorange_stolen_list_lookup(&reports, number, &reported) != PINORANGE_DONE || reported)
        return 0; /* keep the card */
    if (pinorange_list_lookup(&list, number, &found) != PINORANGE_DONE || !found.listed)
        return 0;
    return pinorange_list_open_sale(&list, number, 1799, steps, sale) == PINORANGE_DONE;
}

/* A customer with each card that is listed, with the issue before it, and with each that is ever reported. The head was
 * given all reports, or none. */
static void serve(struct head *head, uint32_t reports)
{
    struct pinorange_sale sale;
    for (uint32_t i = 0; i < CARDS; i++) {
        int is_reported = was_reported(card(i), reports);
        expect("a listed card", nozzle_lift(head, card(i), &sale), !is_reported);
        if (is_reported)
            refused++;
        else
            sales += pinorange_close_sale(&sale) > 0 && sale.key == card(i);
        expect("an issue that is not listed", nozzle_lift(head, card(i) - 1, &sale), 0);
        unlisted++;
    }
    for (uint32_t i = 0; i < STOLEN; i++) {
        const struct pinorange_stolen_list list = stolen_of(head);
        uint32_t told = 77;
        expect("lookup", pinorange_stolen_list_lookup(&list, stolen(i), &told), PINORANGE_DONE);
        expect("whether it was reported", told, reports > 0);
    }
}

/* Which report a head gets as its i-th: each goes round in steps of its own, which share no divisor with STOLEN. */
static uint32_t order(uint32_t head, uint32_t i)
{
    static const uint32_t steps[HEADS] = {1, 3, 7, 9, 11, 13, 17, 19, 21, 27, 33, 39};
    return (head + steps[head] * i) % STOLEN;
}

static void lay(struct head *head)
{
    const struct pinorange_list list = list_of(head);
    const struct pinorange_stolen_list reports = stolen_of(head);
    memset(head, 0x5a, sizeof *head);
    expect("init", pinorange_list_init(&list, R, S, STATION), PINORANGE_DONE);
    expect("init", pinorange_stolen_list_init(&reports), PINORANGE_DONE);
    for (uint32_t i = 0; i < CARDS; i++)
        expect("insert", pinorange_list_insert(&list, card(i), i % 8), PINORANGE_DONE);
}

/* A report reaches a head; then it reaches it again. */
static void report(struct head *head, uint32_t number)
{
    const struct pinorange_stolen_list reports = stolen_of(head);
    expect("report", pinorange_stolen_list_insert(&reports, number), PINORANGE_DONE);
    expect("report again", pinorange_stolen_list_insert(&reports, number), PINORANGE_KEY_PRESENT);
    expect("no card", pinorange_stolen_list_insert(&reports, number % 10), PINORANGE_BLANK_KEY);
}

static int is_alike(const struct head *one, const struct head *other)
{
    return memcmp(one->stolen, other->stolen, sizeof one->stolen) == 0;
}

/* How many slots of two heads differ. */
static uint32_t differences(const struct head *one, const struct head *other)
{
    uint32_t count = 0;
    for (uint32_t i = 0; i < SLOTS; i++)
        count += one->stolen[i] != other->stolen[i];
    return count;
}

/* Every card sits by the rule: from its pocket in rack 0, by the head's own number of slots and station, to just before
 * the slot where it is there are smaller cards alone. */
static void expect_rule(const struct head *head)
{
    uint32_t cards = 0;
    for (uint32_t at = 0; at < SLOTS; at++) {
        uint32_t number = head->stolen[at], slot, unused, steps;
        if (number == 0)
            continue;
        cards++;
        expect("hashes", pinorange_hashes(tabulation, PINORANGE_TABULATION_LENGTH, SLOTS, STATION, number, &slot,
                                          &unused), PINORANGE_DONE);
        for (steps = 0; slot != at && steps < SLOTS; steps++) {
            expect("a smaller card before it", head->stolen[slot] != 0 && head->stolen[slot] < number, 1);
            slot = (slot + 1) % SLOTS;
        }
        expect("it is on its way", slot, at);
    }
    expect("every card sits once", cards, STOLEN);
}

/* A head that missed the last report differs, and is alike once it came. */
static void missed(struct head *late)
{
    const struct pinorange_stolen_list reports = stolen_of(late);
    expect("init", pinorange_stolen_list_init(&reports), PINORANGE_DONE);
    for (uint32_t i = 0; i + 1 < STOLEN; i++)
        report(late, stolen(i));
    expect("a report is missing", is_alike(late, &heads[0]), 0);
    report(late, stolen(STOLEN - 1));
    expect("it came", is_alike(late, &heads[0]), 1);
}

/* A word is changed, each in turn: another number in a slot, none, or one below 10. The head takes no report then,
 * unless the words are the list of another set; in any case they stay, and the list is laid again from the record. */
static void damaged(struct head *head)
{
    const struct pinorange_stolen_list reports = stolen_of(head);
    uint32_t noticed = 0;
    for (uint32_t i = 0; i < SLOTS; i++) {
        struct head before;
        uint32_t answer;
        head->stolen[i] = head->stolen[i] == 0 ? 4100 + i : i % 3 ? 3 + i % 7 : 0;
        before = *head;
        answer = pinorange_stolen_list_check(&reports);
        expect("0 or 4", answer == PINORANGE_DONE || answer == PINORANGE_NOT_CANONICAL, 1);
        expect("a check changes nothing", is_alike(head, &before), 1);
        if (answer == PINORANGE_NOT_CANONICAL) {
            noticed++;
            expect("no report is taken", pinorange_stolen_list_insert(&reports, 733001), PINORANGE_NOT_CANONICAL);
            expect("nothing is written", is_alike(head, &before), 1);
        }
        expect("it differs", differences(head, &heads[0]), 1);
        expect("init", pinorange_stolen_list_init(&reports), PINORANGE_DONE);
        for (uint32_t n = 0; n < STOLEN; n++)
            expect("from the record", pinorange_stolen_list_insert(&reports, stolen(n)), PINORANGE_DONE);
        expect("as it was", is_alike(head, &heads[0]), 1);
    }
    expect("most damage is noticed", noticed > SLOTS / 2, 1);
}

/* Reports until every slot is filled, and one more. */
static void fill(struct head *head)
{
    const struct pinorange_stolen_list reports = stolen_of(head);
    for (uint32_t i = STOLEN; i < SLOTS; i++)
        expect("up to the last slot", pinorange_stolen_list_insert(&reports, 900000 + 7 * i), PINORANGE_DONE);
    expect("every slot is filled", pinorange_stolen_list_insert(&reports, 5000), PINORANGE_TABLE_FULL);
    expect("listed all the same", pinorange_stolen_list_insert(&reports, stolen(3)), PINORANGE_KEY_PRESENT);
    expect("a list as any", pinorange_stolen_list_check(&reports), PINORANGE_DONE);
    serve(head, STOLEN);
}

int main(void)
{
    expect("house", pinorange_house(tabulation, PINORANGE_TABULATION_LENGTH), PINORANGE_DONE);
    for (uint32_t h = 0; h < HEADS; h++) {
        lay(&heads[h]);
        serve(&heads[h], 0);
        for (uint32_t i = 0; i < STOLEN; i++)
            report(&heads[h], stolen(order(h, i)));
        serve(&heads[h], STOLEN);
    }
    for (uint32_t h = 1; h < HEADS; h++)
        expect("heads are alike, word by word", differences(&heads[0], &heads[h]), 0);
    expect_rule(&heads[0]);
    expect("some cards were sold to, some kept", sales > 0 && refused > 0 && unlisted > 0, 1);
    missed(&heads[1]);
    damaged(&heads[2]);
    fill(&heads[3]);
    printf("stolen.c: %u heads, %u stolen cards in %u slots; %u sales, %u refused to stolen cards; %u failures\n",
           (unsigned)HEADS, (unsigned)STOLEN, (unsigned)SLOTS, sales, refused, failures);
    return failures != 0;
}
