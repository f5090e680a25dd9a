/* What the largest dictionary costs in memory, with one open sale and the largest stolen-card list beside it, added up
 * and held to a pump head's 128 KiB. The words, scratch and tabulation, the steps of the prices, the record of a sale
 * and the words of the stolen-card list are as long as the headers say; the stack is measured: every call runs on a
 * stack that was painted before, and what is painted afterwards was not used. The longest trail that there is, of 2,048
 * keys, has a painted stack of its own: its steps are calls in calls, so that it could take more the longer it is. So
 * has a bulk load, of the keys that the inserts before it listed, a salvage, of their words, damaged, and so have the
 * calls on the stolen-card list. A salvage needs the words twice: the sum with a second area is printed besides, and
 * the largest r with which it fits. The code's size comes in as CODE_BYTES (tests/run takes it from `size`). Exits with
 * 0 when all fits, the longest trail's stack is below TRAIL_STACK_BYTES, every sale was closed at its price, the bulk
 * load laid the words that the inserts left, and the salvages and the stolen-card list gave what they must. */
#define _GNU_SOURCE
#include "pinorange_stolen.h"

#include <pthread.h>
#include <stdio.h>
#include <stdlib.h>
#include <string.h>

#define R PINORANGE_MAX_SLOTS
#define S PINORANGE_MAX_PLACES
#define STATION PINORANGE_MAX_STATION
#define HEAD_BYTES 131072u
#define STACK_BYTES (256 * 1024)
#define TRAIL_STACK_BYTES 4096u
#define PAINT 0xA5

static uint32_t words[PINORANGE_WORDS(R, S)];
static uint32_t scratch[PINORANGE_SCRATCH(R, S)];
static uint16_t tabulation[PINORANGE_TABULATION_LENGTH];
static struct pinorange_counters counters;
static uint32_t accepted, other_tier, other_issue;
static uint32_t trail[2 * R], longest, short_answer;
static const int32_t steps[PINORANGE_STEPS] = {-500, -10, 0, 10, 20, 30, 40, 500};
static struct pinorange_sale sale;
static uint32_t sales, closed_right;
/* A bulk load's input, with all keys and with those that fit; and the words that the inserts left. Not counted: a head
 * that is sent its list has it in a buffer of its own, or where it is kept. */
static uint32_t input[2 * 1800], input_length, all_input[2 * 1800], inserted[PINORANGE_WORDS(R, S)];
static uint32_t loaded_answer, full_answer, odd_answer;
/* A second area, and damaged words. What the salvages answered: of a list, of a damaged one, of one without a key. */
static uint32_t target[PINORANGE_WORDS(R, S)], wet[PINORANGE_WORDS(R, S)], whole_lost, wet_lost, saved;
static uint32_t whole_answer, wet_answer, none_answer;
/* The largest stolen-card list, and how many of its calls gave what they must. */
static uint32_t stolen[PINORANGE_MAX_SLOTS], reports, reported_right, stolen_refusals;

static unsigned char *base; /* where the calls' own stack begins: a local of the function that calls them */

_Static_assert(sizeof words == 25108, "the words of the largest dictionary");
_Static_assert(sizeof scratch == 51200, "the scratch of the largest dictionary");
_Static_assert(sizeof tabulation == 5120, "a tabulation");
_Static_assert(sizeof stolen == 4096, "the words of the largest stolen-card list");

static int by_key(const void *one, const void *other)
{
    uint32_t first = *(const uint32_t *)one, second = *(const uint32_t *)other;
    return (first > second) - (first < second);
}

/* What the words list, as an input; and all 1,800 keys, as another. The words are kept, and spoiled. */
static void take_input(void)
{
    for (uint32_t i = 1; i <= 1800; i++) {
        uint32_t key = i * 2654435761u, listed = 0, tier = 0;
        pinorange_lookup(tabulation, PINORANGE_TABULATION_LENGTH, words, PINORANGE_WORDS(R, S), key, &listed, &tier);
        all_input[2 * i - 2] = key;
        all_input[2 * i - 1] = i % 8;
        if (listed) {
            input[input_length++] = key;
            input[input_length++] = tier;
        }
    }
    qsort(input, input_length / 2, 2 * sizeof *input, by_key);
    qsort(all_input, 1800, 2 * sizeof *all_input, by_key);
    memcpy(inserted, words, sizeof words);
    memset(words, 0x5a, sizeof words);
}

static uint32_t load(const uint32_t *list, size_t length)
{
    return pinorange_bulk_load(tabulation, PINORANGE_TABULATION_LENGTH, words, PINORANGE_WORDS(R, S), scratch,
                               PINORANGE_SCRATCH(R, S), &counters, R, S, STATION, list, length);
}

/* Bulk loads alone: one with more keys than fit, one that is done, and one with a word too few. */
static void *bulk_loads(void *unused)
{
    unsigned char local;
    base = &local;
    full_answer = load(all_input, 2 * 1800);
    loaded_answer = load(input, input_length);
    odd_answer = load(input, input_length - 1);
    return unused;
}

/* Whether the bulk loads were what they must be, and left the words of the inserts. */
static int is_loaded(void)
{
    return full_answer == PINORANGE_STASH_FULL && loaded_answer == PINORANGE_DONE && odd_answer == PINORANGE_NOT_RISING
           && memcmp(words, inserted, sizeof words) == 0;
}

static uint32_t salvage(const uint32_t *from, uint32_t *lost)
{
    return pinorange_salvage(tabulation, PINORANGE_TABULATION_LENGTH, from, PINORANGE_WORDS(R, S), target,
                             PINORANGE_WORDS(R, S), scratch, PINORANGE_SCRATCH(R, S), lost);
}

/* Every 50th word of the list turned over, but for r, s and station. */
static void get_wet(void)
{
    memcpy(wet, words, sizeof wet);
    for (size_t i = 5; i < PINORANGE_WORDS(R, S); i += 50)
        wet[i] = ~wet[i];
}

/* Salvages alone: of the list, of the damaged one, and of words in which no number is a key. */
static void *salvages(void *unused)
{
    static uint32_t none[PINORANGE_WORDS(R, S)] = {R, S, 0, 0, STATION, 9};
    unsigned char local;
    base = &local;
    whole_answer = salvage(words, &whole_lost);
    whole_answer |= memcmp(target, words, sizeof words) != 0;
    wet_answer = salvage(wet, &wet_lost);
    saved = target[2];
    none_answer = salvage(none, &whole_lost);
    return unused;
}

/* Whether the salvages were what they must be: no more first parts are gone than words were changed. */
static int is_saved(void)
{
    return whole_answer == PINORANGE_DONE && whole_lost == 0 && wet_answer == PINORANGE_DONE && wet_lost > 0
           && saved < words[2] && saved + PINORANGE_WORDS(R, S) / 50 >= words[2]
           && none_answer == PINORANGE_NONE_COUNTS;
}

static uint32_t report(uint32_t key, uint32_t station)
{
    return pinorange_stolen_insert(tabulation, PINORANGE_TABULATION_LENGTH, stolen, PINORANGE_MAX_SLOTS, station, key);
}

/* The calls on a stolen-card list alone: filled to the last slot, with each refusal, and every key looked up and as
 * many others. */
static void *stolen_calls(void *unused)
{
    unsigned char local;
    base = &local;
    pinorange_stolen_init(stolen, PINORANGE_MAX_SLOTS);
    for (uint32_t i = 1; i <= PINORANGE_MAX_SLOTS; i++)
        reports += report(i * 2654435761u, STATION) == PINORANGE_DONE;
    for (uint32_t i = 1; i <= 2 * PINORANGE_MAX_SLOTS; i++) {
        uint32_t told = 77;
        pinorange_stolen_lookup(tabulation, PINORANGE_TABULATION_LENGTH, stolen, PINORANGE_MAX_SLOTS, STATION,
                                i * 2654435761u, &told);
        reported_right += told == (i <= PINORANGE_MAX_SLOTS);
    }
    stolen_refusals += report(2654435761u, STATION) == PINORANGE_KEY_PRESENT;
    stolen_refusals += report(10, STATION) == PINORANGE_TABLE_FULL;
    stolen_refusals += report(9, STATION) == PINORANGE_BLANK_KEY;
    stolen_refusals += report(10, STATION + 1) == PINORANGE_WRONG_SHAPE;
    stolen_refusals += report(10, 0) == PINORANGE_NOT_CANONICAL;
    return unused;
}

/* Whether the stolen-card list gave what it must. */
static int is_stolen_right(void)
{
    return reports == PINORANGE_MAX_SLOTS && reported_right == 2 * PINORANGE_MAX_SLOTS && stolen_refusals == 5;
}

/* Sales of all keys, of those that are in the set and of those that are not; each that is opened is closed. */
static void open_and_close(void)
{
    for (uint32_t i = 1; i <= 1800; i++)
        if (pinorange_open_sale(tabulation, PINORANGE_TABULATION_LENGTH, words, PINORANGE_WORDS(R, S), i * 2654435761u, 1799, steps, PINORANGE_STEPS, &sale)
            == PINORANGE_DONE) {
            sales++;
            closed_right += pinorange_close_sale(&sale) == (uint32_t)(1799 + steps[i % 8]);
        }
}

/* Inserts of another issue of some keys: of a smaller one where the last digit is 9, else of the next larger. */
static void insert_others(void)
{
    for (uint32_t i = 1; i <= 1800; i += 16) {
        uint32_t key = i * 2654435761u, other = 10 * PINORANGE_FIRST_PART(key) + (key + 1) % 10;
        other_issue += pinorange_insert(tabulation, PINORANGE_TABULATION_LENGTH, words, PINORANGE_WORDS(R, S), scratch,
                                        PINORANGE_SCRATCH(R, S), &counters, other, i % 8) == PINORANGE_OTHER_ISSUE;
    }
}

/* Every call but the trail and the bulk load, the changes up to a full stash: with cycles, with full components, with
 * refusals. */
static void *other_calls(void *unused)
{
    uint32_t listed, tier, offset, length, table0, table1;
    unsigned char local;
    base = &local;
    pinorange_house(tabulation, PINORANGE_TABULATION_LENGTH);
    pinorange_init(words, PINORANGE_WORDS(R, S), R, S, STATION, &counters);
    for (uint32_t i = 1; i <= 1800; i++)
        accepted += pinorange_insert(tabulation, PINORANGE_TABULATION_LENGTH, words, PINORANGE_WORDS(R, S), scratch, PINORANGE_SCRATCH(R, S),
                                     &counters, i * 2654435761u, i % 8) == PINORANGE_DONE;
    open_and_close();
    for (uint32_t i = 1; i <= 1800; i += 16)
        other_tier += pinorange_insert(tabulation, PINORANGE_TABULATION_LENGTH, words, PINORANGE_WORDS(R, S), scratch, PINORANGE_SCRATCH(R, S),
                                       &counters, i * 2654435761u, 7 - i % 8) == PINORANGE_OTHER_TIER;
    insert_others();
    for (uint32_t i = 1; i <= 1800; i += 16)
        pinorange_remove(tabulation, PINORANGE_TABULATION_LENGTH, words, PINORANGE_WORDS(R, S), scratch, PINORANGE_SCRATCH(R, S), &counters,
                         i * 2654435761u);
    pinorange_check(tabulation, PINORANGE_TABULATION_LENGTH, words, PINORANGE_WORDS(R, S), scratch, PINORANGE_SCRATCH(R, S));
    pinorange_lookup(tabulation, PINORANGE_TABULATION_LENGTH, words, PINORANGE_WORDS(R, S), 50, &listed, &tier);
    pinorange_stash(words, PINORANGE_WORDS(R, S), &offset, &length);
    pinorange_hashes(tabulation, PINORANGE_TABULATION_LENGTH, R, STATION, 50, &table0, &table1);
    return unused;
}

/* The keys of the cycle below, by their first parts: ascending with them, and of all issues. */
static uint32_t on_cycle(uint32_t first_part)
{
    return 10 * first_part + first_part % 10;
}

/* Lays words whose 2 R keys, first parts 1 to 2 R, are one cycle through all slots: first part p has the slots p / 2
 * and (p + 1) / 2, modulo R, and so one in common with the one before it and the other with the one behind it. The root
 * is the first key, and the trail of the second goes up to the last key and round to the root. The lowest byte counts
 * by the stretches for stations, the next one by its own. */
static void lay_cycle(void)
{
    struct pinorange_counters own = {0, 0};
    memset(tabulation, 0, sizeof tabulation);
    for (uint32_t byte = 0; byte < 256; byte++) {
        uint32_t turned = (byte + STATION) % 256;
        tabulation[1024 + turned] = (uint16_t)(byte / 2);
        tabulation[1280 + 1024 + turned] = (uint16_t)((byte + 1) / 2);
        tabulation[256 + byte] = tabulation[1280 + 256 + byte] = (uint16_t)(128 * byte);
    }
    pinorange_init(words, PINORANGE_WORDS(R, S), R, S, STATION, &own);
    for (uint32_t part = 1; part <= 2 * R; part++)
        pinorange_insert(tabulation, PINORANGE_TABULATION_LENGTH, words, PINORANGE_WORDS(R, S), scratch,
                         PINORANGE_SCRATCH(R, S), &own, on_cycle(part), part % 8);
}

/* The trail of the second key on the words of lay_cycle: refused with one word too few, then done. */
static void *longest_trail(void *unused)
{
    unsigned char local;
    base = &local;
    short_answer = pinorange_trail(tabulation, PINORANGE_TABULATION_LENGTH, words, PINORANGE_WORDS(R, S), scratch,
                                   PINORANGE_SCRATCH(R, S), on_cycle(2), trail, 2 * R - 1, &longest);
    pinorange_trail(tabulation, PINORANGE_TABULATION_LENGTH, words, PINORANGE_WORDS(R, S), scratch,
                    PINORANGE_SCRATCH(R, S), on_cycle(2), trail, 2 * R, &longest);
    return unused;
}

/* Whether the longest trail was what it must be: all 2 R keys, the first last. */
static int is_longest(void)
{
    for (uint32_t i = 0; i < 2 * R; i++)
        if (trail[i] != on_cycle((i + 1) % (2 * R) + 1))
            return 0;
    return longest == 2 * R && short_answer == PINORANGE_SHORT_TRAIL;
}

/* The bytes of stack that these calls use: from the caller's locals down to the last byte that lost its paint. */
static size_t stack_of(void *(*calls)(void *))
{
    pthread_attr_t attributes;
    pthread_t thread;
    unsigned char *stack = aligned_alloc(4096, STACK_BYTES);
    size_t left = 0;
    if (!stack || pthread_attr_init(&attributes) || pthread_attr_setstack(&attributes, stack, STACK_BYTES))
        exit(2);
    memset(stack, PAINT, STACK_BYTES);
    if (pthread_create(&thread, &attributes, calls, NULL) || pthread_join(thread, NULL))
        exit(2);
    while (left < STACK_BYTES && stack[left] == PAINT)
        left++;
    pthread_attr_destroy(&attributes);
    left = (size_t)(base - stack) - left;
    free(stack);
    return left;
}

/* A second area and the number that a salvage tells. */
#define SECOND (sizeof target + sizeof wet_lost)

/* The largest r with which they fit beside the rest: each slot less, one in each table, is 24 bytes of words less,
 * twice, and 48 of scratch. */
static uint32_t fitting(size_t sum)
{
    uint32_t r = R;
    while (sum + SECOND - (R - r) * (2 * 24 + 48) > HEAD_BYTES)
        r--;
    return r;
}

int main(void)
{
    size_t other_stack = stack_of(other_calls), load_stack, salvage_stack, stolen_stack, trail_stack, stack, sum, bare;
    uint32_t refused = counters.refused;
    int loaded;
    take_input();
    load_stack = stack_of(bulk_loads);
    loaded = is_loaded();
    get_wet();
    salvage_stack = stack_of(salvages);
    stolen_stack = stack_of(stolen_calls);
    loaded = loaded && is_saved() && is_stolen_right();
    lay_cycle();
    trail_stack = stack_of(longest_trail);
    stack = other_stack < load_stack ? load_stack : other_stack;
    stack = stack < salvage_stack ? salvage_stack : stack;
    stack = stack < stolen_stack ? stolen_stack : stack;
    stack = stack < trail_stack ? trail_stack : stack;
    /* The stack is the deepest of all calls, the longest trail among them. The words of a trail are not counted: the caller lends them on the bench only, where
     * somebody asks why a key sits where it sits. */
    sum = CODE_BYTES + sizeof words + sizeof scratch + sizeof tabulation + sizeof counters + sizeof steps + sizeof sale
          + sizeof stolen + stack;

    printf("code and constants %u\nwords %zu\nscratch %zu\ntabulation %zu\ncounters %zu\nsteps %zu\nsale %zu\n"
           "stolen-card list %zu\nstack %zu\n", CODE_BYTES, sizeof words, sizeof scratch, sizeof tabulation,
           sizeof counters, sizeof steps, sizeof sale, sizeof stolen, stack);
    printf("stack of the longest trail %zu\nstack of a bulk load %zu\nstack of a salvage %zu\nstack of the calls on "
           "the stolen-card list %zu\nstack of the other calls %zu\n", trail_stack, load_stack, salvage_stack,
           stolen_stack, other_stack);
    bare = sum - sizeof stolen - stack + (trail_stack < other_stack ? other_stack : trail_stack);
    printf("with a second area %zu; it fits with r = %u, without the stolen-card list with r = %u\n", sum + SECOND,
           (unsigned)fitting(sum), (unsigned)fitting(bare));
    printf("memory.c: %zu of %u bytes; %u keys accepted, %u calls refused, %u of them for another tier, %u for another "
           "issue; the longest trail has %u keys; %u sales; %u keys in one call; %u of %u saved; %u reported stolen\n",
           sum, HEAD_BYTES, (unsigned)accepted, (unsigned)refused, (unsigned)other_tier, (unsigned)other_issue,
           (unsigned)longest, (unsigned)sales, (unsigned)input_length / 2, (unsigned)saved, (unsigned)input_length / 2,
           (unsigned)reports);
    return sum > HEAD_BYTES || trail_stack >= TRAIL_STACK_BYTES || !is_longest() || accepted < 1200 || other_tier == 0
           || other_issue == 0 || refused == other_tier + other_issue || sales != accepted || closed_right != sales
           || !loaded || input_length < 2400;
}
