/* Two pump heads with different pasts: one loads a promotion and cancels it, mends a card's tier, and replaces a card
 * that was made again, while customers with such cards are filling up; the other never saw any of it. Their lists are
 * compared word by word, as a station console does. Exits with 0 when they are alike, and when a third head with
 * another set differs, a fourth with other tiers, a fifth at another station, though it has the first one's cards and
 * tiers, and a sixth with the earlier issue of a card; when a seventh, which was sent the whole list at once, is like
 * the first; and when every sale is closed at the price of its opening. */
#include "pinorange.h"

#include <stdio.h>
#include <string.h>

#define R 64u
#define S 8u
#define STATION 77u

struct head {
    uint32_t words[PINORANGE_WORDS(R, S)];
    struct pinorange_counters counters;
};

static uint16_t tabulation[PINORANGE_TABULATION_LENGTH];
static uint32_t scratch[PINORANGE_SCRATCH(R, S)];
static int failures;

static void expect(const char *what, uint32_t got, uint32_t wanted)
{
    if (got != wanted) {
        printf("%s: %u, expected %u\n", what, (unsigned)got, (unsigned)wanted);
        failures++;
    }
}

static void lay(struct head *h, uint32_t station)
{
    memset(h, 0x5a, sizeof *h);
    h->counters.done = h->counters.refused = 0;
    expect("init", pinorange_init(h->words, PINORANGE_WORDS(R, S), R, S, station, &h->counters), PINORANGE_DONE);
}

static uint32_t add(struct head *h, uint32_t key, uint32_t tier)
{
    return pinorange_insert(tabulation, PINORANGE_TABULATION_LENGTH, h->words, PINORANGE_WORDS(R, S), scratch,
                            PINORANGE_SCRATCH(R, S), &h->counters, key, tier);
}

static uint32_t withdraw(struct head *h, uint32_t key)
{
    return pinorange_remove(tabulation, PINORANGE_TABULATION_LENGTH, h->words, PINORANGE_WORDS(R, S), scratch,
                            PINORANGE_SCRATCH(R, S), &h->counters, key);
}

static uint32_t check(const struct head *h)
{
    return pinorange_check(tabulation, PINORANGE_TABULATION_LENGTH, h->words, PINORANGE_WORDS(R, S), scratch,
                           PINORANGE_SCRATCH(R, S));
}

/* Looks a card up: its tier must be this one, or it must not be listed (77, which stands there before). */
static void expect_tier(const char *what, const struct head *h, uint32_t key, uint32_t wanted)
{
    uint32_t listed = 9, tier = 77;
    expect(what, pinorange_lookup(tabulation, PINORANGE_TABULATION_LENGTH, h->words, PINORANGE_WORDS(R, S), key, &listed, &tier),
           PINORANGE_DONE);
    expect(what, listed, wanted != 77);
    expect(what, tier, wanted);
}

/* The price of a litre is 179.9 cents and the step of the card's tier, in tenths of a cent. */
#define BASE 1799u
static const int32_t steps[PINORANGE_STEPS] = {0, -5, -10, -15, -20, -25, 15, -120};

static uint32_t nozzle_lift(const struct head *h, uint32_t key, struct pinorange_sale *sale)
{
    return pinorange_open_sale(tabulation, PINORANGE_TABULATION_LENGTH, h->words, PINORANGE_WORDS(R, S), key, BASE, steps, PINORANGE_STEPS, sale);
}

/* Opens a sale: its record must hold this card, tier and price. */
static struct pinorange_sale expect_sale(const char *what, const struct head *h, uint32_t key, uint32_t tier, uint32_t price)
{
    struct pinorange_sale sale = {7, 77, 777};
    expect(what, nozzle_lift(h, key, &sale), PINORANGE_DONE);
    expect(what, sale.key, key);
    expect(what, sale.tier, tier);
    expect(what, sale.price, price);
    return sale;
}

/* Opens no sale, since the card is not listed: the record must stay as it was. */
static void expect_no_sale(const char *what, const struct head *h, uint32_t key)
{
    struct pinorange_sale sale = {7, 77, 777};
    expect(what, nozzle_lift(h, key, &sale), PINORANGE_KEY_ABSENT);
    expect(what, sale.key, 7);
    expect(what, sale.tier, 77);
    expect(what, sale.price, 777);
}

/* The regular cards: number and tier. */
static uint32_t number(uint32_t card)
{
    return card * 7919u;
}

static uint32_t tier_of(uint32_t card)
{
    return card % 8;
}

/* The promotion's cards: as all cards, no two of one first part. */
static uint32_t promoted(uint32_t card)
{
    return 900000u + 10 * card;
}

/* A regular card that was made again, and the number that it had before: the same but for its last digit. */
#define REMADE 7u
static uint32_t earlier(void)
{
    uint32_t issue = number(REMADE) - 2;
    expect("first part", PINORANGE_FIRST_PART(issue), PINORANGE_FIRST_PART(number(REMADE)));
    return issue;
}

/* Adds a regular card to a head that has the earlier issue of the one that was made again. */
static uint32_t add_earlier(struct head *h, uint32_t card)
{
    return add(h, card == REMADE ? earlier() : number(card), tier_of(card));
}

/* Replaces the card that was made again. While the earlier issue is listed, the new one cannot be added, whatever its
 * tier, and is not listed: there is nothing to look up, to withdraw or to sell to. */
static void replace(struct head *h)
{
    for (uint32_t tier = 0; tier <= PINORANGE_MAX_TIER; tier++)
        expect("other issue", add(h, number(REMADE), tier), PINORANGE_OTHER_ISSUE);
    expect_tier("the new issue is not listed", h, number(REMADE), 77);
    expect("the new issue is not listed", withdraw(h, number(REMADE)), PINORANGE_KEY_ABSENT);
    expect_no_sale("no sale of the new issue", h, number(REMADE));
    expect_tier("the earlier issue stays", h, earlier(), tier_of(REMADE));
    expect("withdrawn", withdraw(h, earlier()), PINORANGE_DONE);
    expect("replaced", add(h, number(REMADE), tier_of(REMADE)), PINORANGE_DONE);
}

/* A head that is sent the whole list, whatever its words were; then one with two issues of a card in it, which is
 * refused as a whole. The cards' numbers ascend. */
static void load(struct head *h)
{
    uint32_t input[2 * 60];
    memset(h, 0x5a, sizeof *h);
    h->counters.done = h->counters.refused = 0;
    for (uint32_t card = 1; card <= 60; card++) {
        input[2 * card - 2] = number(card);
        input[2 * card - 1] = tier_of(card);
    }
    for (uint32_t times = 0; times < 2; times++) {
        uint32_t answer = pinorange_bulk_load(tabulation, PINORANGE_TABULATION_LENGTH, h->words, PINORANGE_WORDS(R, S),
                                              scratch, PINORANGE_SCRATCH(R, S), &h->counters, R, S, STATION, input,
                                              2 * 60);
        expect("the whole list", answer, times ? PINORANGE_OTHER_ISSUE : PINORANGE_DONE);
        input[2 * REMADE - 4] = earlier(); /* in the place of the card before it */
    }
    expect("done", h->counters.done, 1);
    expect("refused", h->counters.refused, 1);
}

int main(void)
{
    static struct head one, two, three, four, five, six, seven;
    struct pinorange_sale promotion, regular, later, replaced;
    uint32_t offset = 9, length = 9, moved = 0;

    expect("house", pinorange_house(tabulation, PINORANGE_TABULATION_LENGTH), PINORANGE_DONE);
    lay(&one, STATION);
    lay(&two, STATION);
    lay(&three, STATION);
    lay(&four, STATION);
    lay(&five, STATION + 1);
    lay(&six, STATION);

    /* head one: the regular cards, ascending */
    for (uint32_t card = 1; card <= 60; card++)
        expect("add", add(&one, number(card), tier_of(card)), PINORANGE_DONE);

    /* head two: a promotion first, the regular cards descending, then the promotion cancelled; refused calls in between */
    for (uint32_t card = 1; card <= 20; card++)
        expect("promotion", add(&two, promoted(card), 7), PINORANGE_DONE);
    for (uint32_t card = 60; card >= 1; card--)
        expect("add", card == 5 ? add(&two, number(card), 2) : add_earlier(&two, card), PINORANGE_DONE);
    expect("listed", add(&two, number(1), tier_of(1)), PINORANGE_KEY_PRESENT);
    expect("blank", add(&two, 0, 0), PINORANGE_BLANK_KEY);
    expect("blank, without a first part", add(&two, 9, 0), PINORANGE_BLANK_KEY);
    expect("wrong tier", add(&two, number(1), PINORANGE_MAX_TIER + 1), PINORANGE_WRONG_TIER);

    /* a customer with a card of the promotion, one with card 5, and one with the earlier issue of a card lift their
     * nozzles at head two; then the promotion is cancelled */
    promotion = expect_sale("nozzle lift, promotion", &two, promoted(1), 7, 1679);
    replaced = expect_sale("nozzle lift, earlier issue", &two, earlier(), 7, 1679);
    regular = expect_sale("nozzle lift", &two, number(5), 2, 1789);
    for (uint32_t card = 1; card <= 20; card++)
        expect("cancelled", withdraw(&two, promoted(card)), PINORANGE_DONE);
    expect("not listed", withdraw(&two, promoted(1)), PINORANGE_KEY_ABSENT);
    expect_no_sale("no sale of a cancelled card", &two, promoted(1));
    expect("hang-up, promotion", pinorange_close_sale(&promotion), 1679);

    /* card 5 came to head two at tier 2: an add with the right tier is refused and leaves it; withdrawn and added again it has the right one */
    expect("other tier", add(&two, number(5), tier_of(5)), PINORANGE_OTHER_TIER);
    expect_tier("the tier stays", &two, number(5), 2);
    expect("withdrawn", withdraw(&two, number(5)), PINORANGE_DONE);
    expect_tier("not listed", &two, number(5), 77);
    expect("added again", add(&two, number(5), tier_of(5)), PINORANGE_DONE);
    later = expect_sale("nozzle lift at the right tier", &two, number(5), 5, 1774);

    replace(&two);
    expect_no_sale("no sale of the earlier issue", &two, earlier());
    expect("hang-up, earlier issue", pinorange_close_sale(&replaced), 1679);

    /* head three: one card fewer; head four: every card, one of them at another tier; head five: as head one, at the next
     * station; head six: the earlier issue of a card */
    for (uint32_t card = 1; card <= 60; card++) {
        if (card < 60)
            expect("add", add(&three, number(card), tier_of(card)), PINORANGE_DONE);
        expect("add", add(&four, number(card), card == 60 ? 0 : tier_of(card)), PINORANGE_DONE);
        expect("add", add(&five, number(card), tier_of(card)), PINORANGE_DONE);
        expect("add", add_earlier(&six, card), PINORANGE_DONE);
    }

    /* two sales of card 5 are open at head two, and none at head one */
    if (memcmp(one.words, two.words, sizeof one.words) != 0) {
        printf("two heads with the same cards at the same tiers differ\n");
        failures++;
    }
    load(&seven);
    if (memcmp(one.words, seven.words, sizeof one.words) != 0) {
        printf("a head that was sent the whole list differs\n");
        failures++;
    }
    if (memcmp(one.words, three.words, sizeof one.words) == 0) {
        printf("two heads with different cards are alike\n");
        failures++;
    }
    if (memcmp(one.words, four.words, sizeof one.words) == 0) {
        printf("two heads with the same cards at different tiers are alike\n");
        failures++;
    }
    if (memcmp(one.words, six.words, sizeof one.words) == 0) {
        printf("two heads with different issues of a card are alike\n");
        failures++;
    }
    /* head five: its own station, the same number of cards, and cards in other slots */
    expect("station", one.words[4], STATION);
    expect("another station", five.words[4], STATION + 1);
    expect("cards", five.words[2], one.words[2]);
    for (size_t i = 5; i < PINORANGE_WORDS(R, S); i++)
        moved += one.words[i] != five.words[i];
    if (moved == 0) {
        printf("the cards sit alike at two stations\n");
        failures++;
    }
    for (uint32_t card = 1; card <= 60; card++)
        expect_tier("at another station", &five, number(card), tier_of(card));
    /* with the other's station in word 4 the words are the image of no set, and with none at all they are no list */
    five.words[4] = STATION;
    expect("the other's station", check(&five), PINORANGE_NOT_CANONICAL);
    five.words[4] = PINORANGE_MAX_STATION + 1;
    expect("no station", check(&five), PINORANGE_WRONG_SHAPE);
    expect("no station", add(&five, 10, 0), PINORANGE_WRONG_SHAPE);
    five.words[4] = STATION + 1;
    expect("its own station", check(&five), PINORANGE_DONE);
    expect("init at no station", pinorange_init(five.words, PINORANGE_WORDS(R, S), R, S, PINORANGE_MAX_STATION + 1,
                                                &five.counters), PINORANGE_WRONG_SHAPE);
    expect("the words stay", check(&five), PINORANGE_DONE);

    expect("hang-up", pinorange_close_sale(&regular), 1789);
    expect("hang-up at the right tier", pinorange_close_sale(&later), 1774);
    expect("check", check(&two), PINORANGE_DONE);
    for (uint32_t card = 1; card <= 60; card++)
        expect_tier("lookup", &two, number(card), tier_of(card));
    expect_tier("cancelled", &two, promoted(1), 77);
    expect_tier("another tier", &four, number(60), 0);
    expect("stash", pinorange_stash(two.words, PINORANGE_WORDS(R, S), &offset, &length), PINORANGE_DONE);
    expect("stash offset", offset, 5 + 6 * R);
    expect("stash length", length, 2 * two.words[3]);
    expect("done", two.counters.done, 105);
    expect("refused", two.counters.refused, 15);
    for (size_t i = 0; i < PINORANGE_SCRATCH(R, S); i++)
        expect("scratch", scratch[i], 0);

    printf("two_heads.c: %d failures; both heads hold %u cards, %u of them in the stash; at another station %u words "
           "differ; sales closed at %u with a cancelled card, at %u and %u with one whose tier was mended\n", failures,
           (unsigned)two.words[2], (unsigned)two.words[3], (unsigned)moved, (unsigned)promotion.price,
           (unsigned)regular.price, (unsigned)later.price);
    return failures != 0;
}
