/* A head that looks cards up while a change is under way, and that a reset in the middle of one leaves with a whole
 * list: it has the words twice, makes a change in the bank that is not in use, and then swaps. Here an interrupt that
 * looks all cards up comes at every instruction of a change (the processor's single step), and at some of them the
 * change is given up, as by a reset. What a head needs of it ends with `restore`. Exits with 0 when all answers are
 * right. */
#define _GNU_SOURCE
#include "pinorange_list.h"

#include <setjmp.h>
#include <signal.h>
#include <stdio.h>
#include <string.h>
#include <ucontext.h>

enum { R = 4, S = 1, STATION = 17, WORDS = PINORANGE_WORDS(R, S) };

/* Tabulation, scratch and counters are for both banks: there is one change at a time, and lookups borrow no scratch. */
static struct PINORANGE_MEMORY(R, S) memory;
static uint32_t second_words[WORDS];
static struct pinorange_list banks[2] = {PINORANGE_LIST(memory), PINORANGE_LIST(memory)};
/* Which bank lookups go to. It stands beside the words, in memory that a reset leaves. */
static volatile sig_atomic_t in_use;

static uint32_t start(void)
{
    uint32_t answer = pinorange_house(memory.tabulation, PINORANGE_TABULATION_LENGTH);
    banks[1].words = second_words;
    in_use = 0;
    return answer == PINORANGE_DONE ? pinorange_list_init(&banks[0], R, S, STATION) : answer;
}

/* The bank for a change: it has the words of the one in use. */
static const struct pinorange_list *copied(void)
{
    const struct pinorange_list *from = &banks[in_use], *to = &banks[!in_use];
    memcpy(to->words, from->words, from->words_length * sizeof *from->words);
    return to;
}

/* Swaps if the change was done: one store, after all of the words, so that an interrupt finds the old list or the new.
 * For another core it is a release store, which that core's load acquires; and the next change waits until every lookup
 * that began in the bank which it will write has ended. */
static uint32_t swapped(uint32_t answer)
{
    if (answer == PINORANGE_DONE)
        in_use = !in_use;
    return answer;
}

static uint32_t add(uint32_t card, uint32_t tier)
{
    return swapped(pinorange_list_insert(copied(), card, tier));
}

static uint32_t withdraw(uint32_t card)
{
    return swapped(pinorange_list_remove(copied(), card));
}

/* A whole list: there is nothing to copy, since what the other bank holds has no say. */
static uint32_t load(const uint32_t *input, size_t input_length)
{
    return swapped(pinorange_list_bulk_load(&banks[!in_use], R, S, STATION, input, input_length));
}

/* On 4: what is left of the bank in use goes into the other one, which has the length that it needs. */
static uint32_t save(uint32_t *lost)
{
    return swapped(pinorange_list_salvage(&banks[!in_use], banks[in_use].words, WORDS, lost));
}

static uint32_t look_up(uint32_t card, struct pinorange_found *found)
{
    return pinorange_list_lookup(&banks[in_use], card, found);
}

/* After a reset: the bank in use is whole, whatever the other is. The scratch may hold card numbers. */
static uint32_t resume(void)
{
    memset(memory.scratch, 0, sizeof memory.scratch);
    return pinorange_list_check(&banks[in_use]);
}

/* The words as bytes, the low one first, for a file or another processor. */
static void dump(unsigned char *bytes)
{
    for (uint32_t i = 0; i < 4 * WORDS; i++)
        bytes[i] = (unsigned char)(banks[in_use].words[i / 4] >> 8 * (i % 4));
}

/* Takes them up again, if they are a list of this size and station under this tabulation. */
static uint32_t restore(const unsigned char *bytes)
{
    const struct pinorange_list *to = &banks[!in_use];
    memset(to->words, 0, WORDS * sizeof *to->words);
    for (uint32_t i = 0; i < 4 * WORDS; i++)
        to->words[i / 4] |= (uint32_t)bytes[i] << 8 * (i % 4);
    if (to->words[0] != R || to->words[1] != S || to->words[4] != STATION)
        return PINORANGE_WRONG_SHAPE;
    return swapped(pinorange_list_check(to));
}

/* What follows tries it. The cards, and which of them each bank lists: tier + 1, or 0. A change is of one card, or a
 * load of as many of the first ones. */
enum { CARDS = 14 };
enum kind { WITHDRAW, ADD, LOAD };
static unsigned char tiers[2][CARDS];
static uint32_t input[2 * CARDS];
static unsigned failures;
static volatile unsigned long interrupts, wrong, give_up_at;
static volatile uint32_t left_out; /* a card that the interrupt does not look up; CARDS for none */
static sigjmp_buf reset;

static uint32_t card_of(uint32_t i)
{
    return 410017u + 370u * i;
}

static void expect(int holds, const char *what)
{
    if (!holds) {
        printf("FAILED: %s\n", what);
        failures++;
    }
}

static int is_right(const struct pinorange_list *list, const unsigned char *listed, uint32_t i)
{
    struct pinorange_found found = {0, 0};
    uint32_t answer = pinorange_list_lookup(list, card_of(i), &found);
    return answer == PINORANGE_DONE && found.listed == (listed[i] > 0) && (!listed[i] || found.tier + 1 == listed[i]);
}

/* Looks all cards up. */
static void interrupt(int number)
{
    (void)number;
    for (uint32_t i = 0; i < CARDS; i++)
        wrong += i != left_out && !is_right(&banks[in_use], tiers[in_use], i);
    if (++interrupts == give_up_at)
        siglongjmp(reset, 1);
}

/* From the return of this handler an interrupt comes after each instruction; that of `stop_stepping` ends it. */
static void begin_stepping(int number, siginfo_t *info, void *context)
{
    (void)number;
    (void)info;
    ((ucontext_t *)context)->uc_mcontext.gregs[REG_EFL] |= 0x100;
}

static void stop_stepping(int number, siginfo_t *info, void *context)
{
    (void)number;
    (void)info;
    ((ucontext_t *)context)->uc_mcontext.gregs[REG_EFL] &= ~(greg_t)0x100;
}

static void set_handlers(void)
{
    struct sigaction action;
    memset(&action, 0, sizeof action);
    action.sa_handler = interrupt;
    sigaction(SIGTRAP, &action, 0);
    action.sa_flags = SA_SIGINFO;
    action.sa_sigaction = begin_stepping;
    sigaction(SIGUSR1, &action, 0);
    action.sa_sigaction = stop_stepping;
    sigaction(SIGUSR2, &action, 0);
}

/* What the bank that is not in use will list after a change: written before the swap, as its words are. */
static void note(uint32_t i, enum kind kind)
{
    if (kind == LOAD) {
        memset(tiers[!in_use], 0, CARDS);
        for (uint32_t card = 0; card < i; card++)
            tiers[!in_use][card] = (unsigned char)(card % 8 + 1);
    } else {
        memcpy(tiers[!in_use], tiers[in_use], CARDS);
        tiers[!in_use][i] = kind == ADD ? (unsigned char)(i % 8 + 1) : 0;
    }
}

/* A change with an interrupt at each instruction, up to the one at which it is given up: then there is no answer. */
static int step_through(uint32_t i, enum kind kind, unsigned long until, uint32_t *answer)
{
    interrupts = 0;
    give_up_at = until;
    note(i, kind);
    if (sigsetjmp(reset, 1))
        return 0;
    raise(SIGUSR1);
    *answer = kind == LOAD ? load(input, 2 * i) : kind == ADD ? add(card_of(i), i % 8) : withdraw(card_of(i));
    raise(SIGUSR2);
    return 1;
}

/* Gives a change up at some of its instructions, other ones for each card, each time with a reset behind it, until it
 * comes to its end or is given up behind the swap. */
static unsigned change(uint32_t i, enum kind kind)
{
    uint32_t answer = PINORANGE_DONE, before[WORDS];
    unsigned resets = 0;
    sig_atomic_t bank = in_use;
    memcpy(before, banks[bank].words, sizeof before);
    while (in_use == bank && !step_through(i, kind, 1 + 97 * i + 1801 * resets, &answer)) {
        resets++;
        expect(resume() == PINORANGE_DONE, "the list after a reset");
        expect(memcmp(before, banks[bank].words, sizeof before) == 0, "a change writes no word of the bank in use");
    }
    expect(in_use != bank || answer == PINORANGE_STASH_FULL, "a change is done, or the card does not fit");
    return resets;
}

static void expect_all(const char *what)
{
    for (uint32_t i = 0; i < CARDS; i++)
        expect(is_right(&banks[in_use], tiers[in_use], i), what);
}

/* Whole lists of some cards and of all, which do not fit; one with a fault; and an empty one. */
static unsigned loads(void)
{
    unsigned resets = 0;
    for (uint32_t i = 0; i < CARDS; i++) {
        input[2 * i] = card_of(i);
        input[2 * i + 1] = i % 8;
    }
    for (uint32_t i = 3; i <= 2 * R; i++)
        resets += change(i, LOAD);
    expect(banks[in_use].words[2] > R, "a list of some cards was laid");
    resets += change(CARDS, LOAD);
    expect(load(input, 3) == PINORANGE_NOT_RISING, "a list with a fault");
    expect_all("a lookup after lists were laid");
    return resets + change(0, LOAD);
}

/* Lays lists; then adds all cards, withdraws some of them, and adds these again. */
static unsigned session(void)
{
    unsigned resets;
    left_out = CARDS;
    resets = loads();
    for (uint32_t i = 0; i < CARDS; i++)
        resets += change(i, ADD);
    for (uint32_t i = 0; i < CARDS; i += 4)
        if (tiers[in_use][i])
            resets += change(i, WITHDRAW) + change(i, ADD);
    expect_all("a lookup after the session");
    return resets;
}

/* The same interrupts, and the change in the bank in use: how many lookups of the other cards are wrong then. */
static unsigned long without_banks(void)
{
    wrong = give_up_at = 0;
    for (left_out = 0; left_out < CARDS; left_out++) {
        raise(SIGUSR1);
        if (tiers[in_use][left_out])
            pinorange_list_remove(&banks[in_use], card_of(left_out));
        raise(SIGUSR2);
        pinorange_list_insert(&banks[in_use], card_of(left_out), left_out % 8);
    }
    return wrong;
}

/* A dump brings the list back; one that was changed, or is of another station, does not, and the list stays. */
static void dumps(void)
{
    unsigned char bytes[4 * WORDS];
    struct pinorange_found found = {0, 0};
    dump(bytes);
    expect(start() == PINORANGE_DONE && look_up(card_of(0), &found) == PINORANGE_DONE && !found.listed, "a new start");
    bytes[4 * PINORANGE_SLOT(R, 0, 0) + 4] ^= 1; /* a next number */
    expect(restore(bytes) == PINORANGE_NOT_CANONICAL, "a dump with a wrong word");
    bytes[4 * PINORANGE_SLOT(R, 0, 0) + 4] ^= 1;
    bytes[16] ^= 1;
    expect(restore(bytes) == PINORANGE_WRONG_SHAPE, "a dump of another station");
    bytes[16] ^= 1;
    expect(look_up(card_of(0), &found) == PINORANGE_DONE && !found.listed, "what is not taken up leaves the list");
    memcpy(tiers[!in_use], tiers[0], CARDS);
    expect(restore(bytes) == PINORANGE_DONE, "a dump");
    expect_all("a lookup after a dump was taken up");
}

/* A damaged bank: what is left is in use then, where anything is, and else the bank stays in use. */
static void damages(void)
{
    uint32_t lost = 77, cards = banks[in_use].words[2], gone = 0, answer;
    uint32_t *slot = &banks[in_use].words[PINORANGE_SLOT(R, 0, 0)];
    sig_atomic_t bank = in_use;
    while (slot[0] == 0)
        slot += 3;
    for (uint32_t i = 0; i < CARDS; i++)
        if (card_of(i) == slot[0])
            gone = i;
    slot[0] = 5;
    expect(pinorange_list_check(&banks[in_use]) == PINORANGE_NOT_CANONICAL, "a damaged bank");
    memcpy(tiers[!in_use], tiers[in_use], CARDS);
    expect(save(&lost) == PINORANGE_DONE && in_use != bank && lost == 1, "what is left of it");
    cards -= banks[in_use].words[2]; /* none, if that card sits in its other slot, too */
    if (cards > 0)
        tiers[in_use][gone] = 0;
    expect_all("a lookup after a salvage");
    answer = add(card_of(gone), gone % 8);
    expect(answer == (cards > 0 ? PINORANGE_DONE : PINORANGE_KEY_PRESENT), "the card is added again");
    for (uint32_t i = 5; i < WORDS; i++)
        banks[in_use].words[i] %= 10;
    bank = in_use;
    expect(save(&lost) == PINORANGE_NONE_COUNTS && in_use == bank && lost == 1, "a bank of which nothing is left");
}

int main(void)
{
    unsigned resets;
    unsigned long steps, torn;
    expect(start() == PINORANGE_DONE, "start");
    set_handlers();
    resets = session();
    steps = interrupts;
    expect(wrong == 0, "a lookup during a change");
    expect(resets > CARDS && steps > 1000, "interrupts and resets came");
    memcpy(tiers[!in_use], tiers[in_use], CARDS);
    torn = without_banks();
    expect(torn > 0, "without banks lookups during a change go wrong");
    dumps();
    damages();
    printf("two_banks.c: %u failures; %u resets, %lu interrupts in the last change; without banks %lu wrong lookups\n",
           failures, resets, steps, torn);
    return failures != 0;
}
