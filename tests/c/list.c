/* The inline calls of pinorange_list.h and pinorange_stolen.h beside the plain ones, for C99, C11 and C++11: two card
 * lists, and two stolen-card lists, with memory of their own go through one session, with every refusal in it, and
 * after each call answers, words, scratch, counters and out-parameters must be the same. With PINORANGE_CHECKED each
 * check must fire, on the piece that is wrong and on no other. tests/headers compiles and runs it both ways. Exits with
 * 0 when all holds. */
#ifdef PINORANGE_CHECKED
static void failed(const char *piece, const char *what);
#define PINORANGE_FAILED(piece, what) failed(piece, what)
#endif
#include "pinorange_stolen.h"

#include <setjmp.h>
#include <stdio.h>
#include <string.h>

enum { R = 8, S = 2, STATION = 17, KEYS = 40 };

static struct PINORANGE_MEMORY(R, S) ours, plain;
static const struct pinorange_list whole = PINORANGE_LIST(ours);
static const int32_t steps[PINORANGE_STEPS] = {-30, -20, -10, 0, 10, 20, 30, 40};
/* The words of the stolen-card lists, which share the tabulations. */
enum { SLOTS = 8 };
static uint32_t our_stolen[SLOTS], plain_stolen[SLOTS];
static const struct pinorange_stolen_list stolen = PINORANGE_STOLEN_LIST(ours.tabulation, our_stolen, STATION);
/* The numbers that a call answers, 0 to the last. */
enum { ANSWERS = 17 };
static unsigned calls, failures, seen[ANSWERS];

static void expect(int holds, const char *what)
{
    if (!holds) {
        printf("FAILED: %s\n", what);
        failures++;
    }
}

/* The answers of both calls, and all memory that either list has. */
static void same(const char *what, uint32_t answer, uint32_t plain_answer)
{
    calls++;
    seen[answer < ANSWERS ? answer : 0]++;
    expect(answer == plain_answer && answer < ANSWERS, what);
    expect(memcmp(&ours, &plain, sizeof ours) == 0, what);
    expect(memcmp(our_stolen, plain_stolen, sizeof our_stolen) == 0, what);
}

/* The pieces of the plain list, as long as those of `list`. */
#define BOOK plain.tabulation, list->tabulation_length
#define WORDS plain.words, list->words_length
#define SHEET plain.scratch, list->scratch_length

static void insert(const struct pinorange_list *list, uint32_t key, uint32_t tier)
{
    ours.scratch[3] = plain.scratch[3] = 99; /* so that it shows that the scratch was lent */
    same("insert", pinorange_list_insert(list, key, tier),
         pinorange_insert(BOOK, WORDS, SHEET, &plain.counters, key, tier));
}

static void take_out(const struct pinorange_list *list, uint32_t key)
{
    ours.scratch[3] = plain.scratch[3] = 99;
    same("remove", pinorange_list_remove(list, key), pinorange_remove(BOOK, WORDS, SHEET, &plain.counters, key));
}

static void check(const struct pinorange_list *list)
{
    ours.scratch[3] = plain.scratch[3] = 99;
    same("check", pinorange_list_check(list), pinorange_check(BOOK, WORDS, SHEET));
}

static void look_up(const struct pinorange_list *list, uint32_t key)
{
    struct pinorange_found found = {77, 78};
    uint32_t listed = 77, tier = 78;
    same("lookup", pinorange_list_lookup(list, key, &found), pinorange_lookup(BOOK, WORDS, key, &listed, &tier));
    expect(found.listed == listed && found.tier == tier, "what a lookup tells");
}

static void view(const struct pinorange_list *list)
{
    struct pinorange_stretch stretch = {77, 78};
    uint32_t offset = 77, length = 78;
    same("stash", pinorange_list_stash(list, &stretch), pinorange_stash(WORDS, &offset, &length));
    expect(stretch.offset == offset && stretch.length == length, "what a stash view tells");
}

static void trail(const struct pinorange_list *list, uint32_t key, size_t length)
{
    uint32_t keys[2 * R] = {7}, plain_keys[2 * R] = {7}, count = 77;
    struct pinorange_trail_keys told = {keys, length, 77};
    same("trail", pinorange_list_trail(list, key, &told),
         pinorange_trail(BOOK, WORDS, SHEET, key, plain_keys, length, &count));
    expect(told.count == count && memcmp(keys, plain_keys, sizeof keys) == 0, "what a trail tells");
}

static void sell(const struct pinorange_list *list, uint32_t key, uint32_t base)
{
    struct pinorange_sale sale = {1, 2, 3}, plain_sale = {1, 2, 3};
    same("sale", pinorange_list_open_sale(list, key, base, steps, &sale),
         pinorange_open_sale(BOOK, WORDS, key, base, steps, PINORANGE_STEPS, &plain_sale));
    expect(memcmp(&sale, &plain_sale, sizeof sale) == 0, "the record of a sale");
}

static void lay(const struct pinorange_list *list, uint32_t r, uint32_t s, uint32_t station)
{
    same("init", pinorange_list_init(list, r, s, station), pinorange_init(WORDS, r, s, station, &plain.counters));
}

static void load(const struct pinorange_list *list, uint32_t r, uint32_t s, uint32_t station, const uint32_t *input,
                 size_t length)
{
    ours.scratch[3] = plain.scratch[3] = 99;
    same("bulk load", pinorange_list_bulk_load(list, r, s, station, input, length),
         pinorange_bulk_load(BOOK, WORDS, SHEET, &plain.counters, r, s, station, input, length));
}

/* Whole lists: of inputs of all lengths, of which the odd ones are refused, and of inputs with a fault; with sizes and
 * station in their places and exchanged. The last is laid. */
static void load_all(const struct pinorange_list *list)
{
    static const uint32_t keys[] = {410010, 1, 410025, 0, 733001, 7, 733010, 3};
    static const uint32_t wrong[][4] = {{9, 1, 20, 0}, {10, 8, 20, 0}, {20, 0, 10, 0}, {10, 0, 11, 0},
                                        {1, 410010, 0, 410025}}; /* tier and key exchanged */
    static uint32_t many[2 * (2 * R + S + 1)];
    size_t i;
    for (i = 0; i < sizeof wrong / sizeof *wrong; i++)
        load(list, R, S, STATION, wrong[i], 4);
    for (i = 0; i < sizeof many / sizeof *many; i += 2)
        many[i] = 10 * (uint32_t)i + 10; /* one more than there are slots and places */
    load(list, R, S, STATION, many, sizeof many / sizeof *many);
    load(list, S, R, STATION, keys, 8);
    load(list, R, STATION, S, keys, 8);
    load(list, R, S, PINORANGE_MAX_STATION + 1, keys, 8);
    for (i = 0; i <= 8; i++)
        load(list, R, S, STATION, keys, i);
}

static void salvage(const struct pinorange_list *list, const uint32_t *damaged, size_t length)
{
    uint32_t lost = 77, plain_lost = 77;
    ours.scratch[3] = plain.scratch[3] = 99;
    same("salvage", pinorange_list_salvage(list, damaged, length, &lost),
         pinorange_salvage(BOOK, damaged, length, WORDS, SHEET, &plain_lost));
    expect(lost == plain_lost, "what a salvage tells");
}

/* Salvages of other words into the list: of words that are too short or too long for it, of some in which no number is a
 * key, and of damaged ones, of which two keys are left, and one number is lost. */
static void salvage_all(const struct pinorange_list *list)
{
    static uint32_t damaged[PINORANGE_WORDS(R, S) + 1];
    static const uint32_t keys[] = {410010, 1, 410025, 0, 733001, 7};
    struct pinorange_counters own = {0, 0};
    expect(pinorange_bulk_load(plain.tabulation, whole.tabulation_length, damaged, whole.words_length, plain.scratch,
                               whole.scratch_length, &own, R, S, STATION, keys, 6) == PINORANGE_DONE, "damaged words");
    damaged[2] = damaged[3] = 99;
    damaged[PINORANGE_PLACE(R, 0)] = 9;
    salvage(list, damaged, whole.words_length - 1);
    salvage(list, damaged, whole.words_length + 1);
    salvage(list, damaged, whole.words_length);
    memset(damaged + 5, 0, sizeof damaged - 5 * sizeof *damaged);
    damaged[5] = 8;
    salvage(list, damaged, whole.words_length);
    damaged[5] = 0;
    damaged[PINORANGE_PLACE(R, 1)] = 410017;
    damaged[PINORANGE_PLACE(R, 1) + 1] = 3;
    damaged[PINORANGE_SLOT(R, 1, 3)] = 1;
    salvage(list, damaged, whole.words_length);
}

/* A stolen-card list laid, a key reported and looked up, and the words checked. */
static void lay_stolen(const struct pinorange_stolen_list *list)
{
    same("stolen init", pinorange_stolen_list_init(list), pinorange_stolen_init(plain_stolen, list->words_length));
}

static void report(const struct pinorange_stolen_list *list, uint32_t key)
{
    same("stolen insert", pinorange_stolen_list_insert(list, key),
         pinorange_stolen_insert(plain.tabulation, list->tabulation_length, plain_stolen, list->words_length,
                                 list->station, key));
}

static void look_for(const struct pinorange_stolen_list *list, uint32_t key)
{
    uint32_t reported = 77, plain_reported = 77;
    same("stolen lookup", pinorange_stolen_list_lookup(list, key, &reported),
         pinorange_stolen_lookup(plain.tabulation, list->tabulation_length, plain_stolen, list->words_length,
                                 list->station, key, &plain_reported));
    expect(reported == plain_reported, "what a stolen lookup tells");
}

/* What a check answers: of a plain insert without a key, which is refused with 5 where all is right. */
static void check_stolen(const struct pinorange_stolen_list *list)
{
    uint32_t answer = pinorange_stolen_insert(plain.tabulation, list->tabulation_length, plain_stolen,
                                              list->words_length, list->station, 0);
    same("stolen check", pinorange_stolen_list_check(list), answer == PINORANGE_BLANK_KEY ? PINORANGE_DONE : answer);
}

static void ask_stolen(const struct pinorange_stolen_list *list, uint32_t key)
{
    report(list, key);
    report(list, key);
    look_for(list, key);
    look_for(list, key + 1);
    report(list, key % 10);
    look_for(list, key % 10);
    check_stolen(list);
}

/* Stolen cards: filled up to refusals; with wrong memory, with a station that is none or another one, and tampered
 * with. */
static void stolen_session(void)
{
    struct pinorange_stolen_list list = stolen;
    uint32_t i;
    our_stolen[3] = plain_stolen[3] = 99;
    lay_stolen(&stolen);
    expect(our_stolen[3] == 0, "a stolen-card list is laid");
    for (i = 0; i <= SLOTS; i++)
        ask_stolen(&stolen, 410017 + 7 * i);
    list.tabulation_length--;
    ask_stolen(&list, 410017);
    list = stolen;
    list.words_length = 0;
    ask_stolen(&list, 410017);
    lay_stolen(&list);
    list = stolen;
    list.station = PINORANGE_MAX_STATION + 1;
    ask_stolen(&list, 410017);
    list.station = STATION + 1;
    ask_stolen(&list, 410018);
    our_stolen[5] = plain_stolen[5] = 9;
    ask_stolen(&stolen, 410017);
    lay_stolen(&stolen);
    list.station = STATION;
    ask_stolen(&list, 410018);
}

/* Every call about one key, so that each refusal comes that it can get on this list. */
static void ask_all(const struct pinorange_list *list, uint32_t key)
{
    insert(list, key, 8);
    insert(list, key, key % 8);
    insert(list, key, key % 8);
    insert(list, key, (key + 1) % 8);
    insert(list, key + 1, 3);
    look_up(list, key);
    trail(list, key, 2 * R);
    trail(list, key, 0);
    sell(list, key, 1000);
    sell(list, key, 0);
    view(list);
    check(list);
}

static uint32_t key_of(uint32_t i)
{
    return i * 26544357u / 10u * 10u;
}

/* Every call on a list with one piece that is too short, and on one whose words were tampered with. */
static void wrong_lists(void)
{
    struct pinorange_list list = whole;
    list.tabulation_length--;
    ask_all(&list, key_of(1));
    load_all(&list);
    salvage_all(&list);
    list = whole;
    list.words_length--;
    ask_all(&list, key_of(1));
    lay(&list, R, S, STATION);
    load_all(&list);
    salvage_all(&list);
    list = whole;
    list.scratch_length--;
    ask_all(&list, key_of(1));
    take_out(&list, key_of(1));
    load_all(&list);
    salvage_all(&list);
    ours.words[3] = plain.words[3] = S + 1;
    ask_all(&whole, key_of(1));
}

/* Laid, filled up to refusals, asked, emptied, and laid in ways that are refused. */
static void session(void)
{
    uint32_t i;
    lay(&whole, R, S, STATION);
    lay(&whole, R, S, STATION);
    expect(ours.counters.done == 2 && ours.counters.refused == 0, "init leaves the counters, and moves them on");
    for (i = 0; i < KEYS; i++)
        ask_all(&whole, key_of(i));
    expect(ours.words[2] > R && ours.words[3] == S, "many keys are listed, and the stash is full");
    for (i = 0; i < KEYS; i += 2)
        take_out(&whole, key_of(i));
    lay(&whole, S, R, STATION);
    lay(&whole, R, STATION, S);
    lay(&whole, R, S, PINORANGE_MAX_STATION + 1);
    load_all(&whole);
    expect(ours.words[2] == 4 && ours.words[4] == STATION, "four keys are loaded");
    look_up(&whole, 733010);
    wrong_lists();
    expect(ours.words[2] == 4, "no load and no salvage with wrong memory is laid");
    salvage_all(&whole);
    expect(ours.words[2] == 1 && ours.words[4] == STATION, "one key is saved");
    look_up(&whole, 410017);
    load_all(&whole);
    check(&whole);
    stolen_session();
    for (i = 0; i < ANSWERS; i++)
        expect(seen[i] > 0, "every number was answered");
}

/* The version: the library's function with the first number in its name answers it. */
#define JOINED(name, number) name##number
#define OF_VERSION(name, number) JOINED(name, number)
#define VERSION_OF_LIBRARY OF_VERSION(pinorange_version_, PINORANGE_VERSION_MAJOR)
#ifdef __cplusplus
extern "C"
#endif
uint32_t VERSION_OF_LIBRARY(void);

#ifdef PINORANGE_CHECKED
static jmp_buf back;
static const char *failed_piece, *failed_what;

static void failed(const char *piece, const char *what)
{
    failed_piece = piece;
    failed_what = what;
    longjmp(back, 1);
}

/* One call with a piece that is wrong: the check must name it, and the library must not be called. */
#define EXPECT_CHECK(call, piece, what) \
    do { \
        static struct PINORANGE_MEMORY(R, S) before; \
        static uint32_t stolen_before[SLOTS]; \
        memcpy(&before, &ours, sizeof before); \
        memcpy(stolen_before, our_stolen, sizeof stolen_before); \
        failed_piece = failed_what = "nothing"; \
        if (!setjmp(back)) \
            (void)(call); \
        calls++; \
        expect(strcmp(failed_piece, piece) == 0 && strcmp(failed_what, what) == 0, #call ": " piece " " what); \
        expect(memcmp(&before, &ours, sizeof before) == 0, #call ": nothing is written"); \
        expect(memcmp(stolen_before, our_stolen, sizeof stolen_before) == 0, #call ": nothing is written"); \
    } while (0)

/* All calls on one wrong list. */
#define EXPECT_CHECKS(list, piece, what) \
    do { \
        struct pinorange_found some_found; \
        struct pinorange_stretch some_stretch; \
        struct pinorange_sale some_sale; \
        uint32_t some_keys[2 * R]; \
        struct pinorange_trail_keys some_trail = {some_keys, 2 * R, 0}; \
        static const uint32_t some_input[2] = {410017, 3}; \
        EXPECT_CHECK(pinorange_list_init(list, R, S, STATION), piece, what); \
        EXPECT_CHECK(pinorange_list_bulk_load(list, R, S, STATION, some_input, 2), piece, what); \
        EXPECT_CHECK(pinorange_list_insert(list, 410017, 3), piece, what); \
        EXPECT_CHECK(pinorange_list_remove(list, 410017), piece, what); \
        EXPECT_CHECK(pinorange_list_check(list), piece, what); \
        EXPECT_CHECK(pinorange_list_lookup(list, 410017, &some_found), piece, what); \
        EXPECT_CHECK(pinorange_list_stash(list, &some_stretch), piece, what); \
        EXPECT_CHECK(pinorange_list_trail(list, 410017, &some_trail), piece, what); \
        EXPECT_CHECK(pinorange_list_salvage(list, some_input, 2, some_keys), piece, what); \
        EXPECT_CHECK(pinorange_list_open_sale(list, 410017, 1000, steps, &some_sale), piece, what); \
    } while (0)

/* Memory that is off by a byte. It is only looked at, never used. */
#define ASKEW(type, memory) ((type *)(void *)((char *)(memory) + 1))

static void wrong_pieces(void)
{
    struct pinorange_list list = whole;
    EXPECT_CHECKS((const struct pinorange_list *)0, "list", "is null");
    list.tabulation = 0;
    EXPECT_CHECKS(&list, "tabulation", "is null");
    list.tabulation = ASKEW(uint16_t, ours.tabulation);
    EXPECT_CHECKS(&list, "tabulation", "is not aligned");
    list = whole;
    list.words = 0;
    EXPECT_CHECKS(&list, "words", "is null");
    list.words = ASKEW(uint32_t, ours.words);
    EXPECT_CHECKS(&list, "words", "is not aligned");
    list.words = ours.scratch;
    EXPECT_CHECKS(&list, "scratch", "overlaps another piece");
    list = whole;
    list.scratch = 0;
    EXPECT_CHECKS(&list, "scratch", "is null");
    list.scratch = ASKEW(uint32_t, ours.scratch);
    EXPECT_CHECKS(&list, "scratch", "is not aligned");
    list = whole;
    list.scratch_length++; /* over the counters, which stand behind it */
    EXPECT_CHECKS(&list, "counters", "overlaps another piece");
    list = whole;
    list.counters = 0;
    EXPECT_CHECKS(&list, "counters", "is null");
    list.counters = ASKEW(struct pinorange_counters, plain.words);
    EXPECT_CHECKS(&list, "counters", "is not aligned");
    list.counters = (struct pinorange_counters *)(void *)&ours.words[PINORANGE_WORDS(R, S) - 1];
    EXPECT_CHECKS(&list, "counters", "overlaps another piece");
}

/* What a call is handed besides the list. */
static void wrong_arguments(void)
{
    struct pinorange_trail_keys keys = {0, 2 * R, 0};
    struct pinorange_sale sale;
    uint32_t lost;
    int32_t *in_words = (int32_t *)(void *)ours.words;
    EXPECT_CHECK(pinorange_list_bulk_load(&whole, R, S, STATION, 0, 0), "input", "is null");
    EXPECT_CHECK(pinorange_list_bulk_load(&whole, R, S, STATION, ASKEW(uint32_t, plain.words), 2), "input",
                 "is not aligned");
    EXPECT_CHECK(pinorange_list_bulk_load(&whole, R, S, STATION, &ours.words[5], 2), "input",
                 "overlaps another piece");
    EXPECT_CHECK(pinorange_list_bulk_load(&whole, R, S, STATION, ours.scratch, 2), "input", "overlaps another piece");
    EXPECT_CHECK(pinorange_list_bulk_load(&whole, R, S, STATION, &ours.counters.refused, 1), "input",
                 "overlaps another piece");
    EXPECT_CHECK(pinorange_list_lookup(&whole, 410017, 0), "found", "is null");
    EXPECT_CHECK(pinorange_list_lookup(&whole, 410017, ASKEW(struct pinorange_found, plain.words)), "found",
                 "is not aligned");
    EXPECT_CHECK(pinorange_list_lookup(&whole, 410017, (struct pinorange_found *)(void *)&ours.words[5]), "found",
                 "overlaps another piece");
    EXPECT_CHECK(pinorange_list_stash(&whole, 0), "stretch", "is null");
    EXPECT_CHECK(pinorange_list_stash(&whole, (struct pinorange_stretch *)(void *)&ours.scratch[5]), "stretch",
                 "overlaps another piece");
    EXPECT_CHECK(pinorange_list_trail(&whole, 410017, 0), "trail", "is null");
    EXPECT_CHECK(pinorange_list_trail(&whole, 410017, &keys), "keys", "is null");
    keys.keys = ours.scratch;
    EXPECT_CHECK(pinorange_list_trail(&whole, 410017, &keys), "keys", "overlaps another piece");
    keys.keys = &keys.count;
    EXPECT_CHECK(pinorange_list_trail(&whole, 410017, &keys), "keys", "overlaps another piece");
    EXPECT_CHECK(pinorange_list_salvage(&whole, 0, 0, &lost), "damaged", "is null");
    EXPECT_CHECK(pinorange_list_salvage(&whole, ASKEW(uint32_t, plain.words), 5, &lost), "damaged", "is not aligned");
    EXPECT_CHECK(pinorange_list_salvage(&whole, ours.words, whole.words_length, &lost), "damaged",
                 "overlaps another piece");
    EXPECT_CHECK(pinorange_list_salvage(&whole, ours.scratch, whole.words_length, &lost), "damaged",
                 "overlaps another piece");
    EXPECT_CHECK(pinorange_list_salvage(&whole, plain.words, whole.words_length, 0), "lost", "is null");
    EXPECT_CHECK(pinorange_list_salvage(&whole, plain.words, whole.words_length, ASKEW(uint32_t, plain.scratch)),
                 "lost", "is not aligned");
    EXPECT_CHECK(pinorange_list_salvage(&whole, plain.words, whole.words_length, &plain.words[whole.words_length - 1]),
                 "lost", "overlaps another piece");
    EXPECT_CHECK(pinorange_list_salvage(&whole, plain.words, whole.words_length, &ours.counters.done), "lost",
                 "overlaps another piece");
    EXPECT_CHECK(pinorange_list_open_sale(&whole, 410017, 1000, 0, &sale), "steps", "is null");
    EXPECT_CHECK(pinorange_list_open_sale(&whole, 410017, 1000, in_words, &sale), "steps", "overlaps another piece");
    EXPECT_CHECK(pinorange_list_open_sale(&whole, 410017, 1000, steps, 0), "sale", "is null");
    EXPECT_CHECK(pinorange_list_open_sale(&whole, 410017, 1000, steps, (struct pinorange_sale *)(void *)ours.words),
                 "sale", "overlaps another piece");
}

/* All calls on one wrong stolen-card list. */
#define EXPECT_STOLEN_CHECKS(list, piece, what) \
    do { \
        uint32_t some_reported; \
        EXPECT_CHECK(pinorange_stolen_list_init(list), piece, what); \
        EXPECT_CHECK(pinorange_stolen_list_insert(list, 410017), piece, what); \
        EXPECT_CHECK(pinorange_stolen_list_check(list), piece, what); \
        EXPECT_CHECK(pinorange_stolen_list_lookup(list, 410017, &some_reported), piece, what); \
    } while (0)

static void wrong_stolen_pieces(void)
{
    struct pinorange_stolen_list list = stolen;
    EXPECT_STOLEN_CHECKS((const struct pinorange_stolen_list *)0, "stolen list", "is null");
    list.tabulation = 0;
    EXPECT_STOLEN_CHECKS(&list, "tabulation", "is null");
    list.tabulation = ASKEW(uint16_t, ours.tabulation);
    EXPECT_STOLEN_CHECKS(&list, "tabulation", "is not aligned");
    list = stolen;
    list.words = 0;
    EXPECT_STOLEN_CHECKS(&list, "words", "is null");
    list.words = ASKEW(uint32_t, our_stolen);
    EXPECT_STOLEN_CHECKS(&list, "words", "is not aligned");
    list.words = (uint32_t *)(void *)&ours.tabulation[PINORANGE_TABULATION_LENGTH - 2];
    EXPECT_STOLEN_CHECKS(&list, "words", "overlaps another piece");
    EXPECT_CHECK(pinorange_stolen_list_lookup(&stolen, 410017, 0), "reported", "is null");
    EXPECT_CHECK(pinorange_stolen_list_lookup(&stolen, 410017, ASKEW(uint32_t, plain.words)), "reported",
                 "is not aligned");
    EXPECT_CHECK(pinorange_stolen_list_lookup(&stolen, 410017, &our_stolen[SLOTS - 1]), "reported",
                 "overlaps another piece");
    EXPECT_CHECK(pinorange_stolen_list_lookup(&stolen, 410017, (uint32_t *)(void *)ours.tabulation), "reported",
                 "overlaps another piece");
}

/* Pieces that only touch, and pieces of no length, are lent as they should be. */
static void touching(void)
{
    struct pinorange_list list = whole;
    struct pinorange_stolen_list touched;
    if (setjmp(back)) {
        expect(0, failed_piece);
        return;
    }
    list.scratch = ours.words + 1;
    list.scratch_length = 0;
    expect(pinorange_list_check(&list) == PINORANGE_SHORT_SCRATCH, "a piece of no length overlaps nothing");
    list = whole;
    list.words_length = 1;
    list.scratch = ours.words + 1;
    list.scratch_length = 1;
    expect(pinorange_list_check(&list) == PINORANGE_WRONG_SHAPE, "pieces that touch do not overlap");
    list = whole;
    list.scratch_length -= 2;
    expect(pinorange_list_bulk_load(&list, R, S, STATION, &ours.scratch[list.scratch_length], 2)
           == PINORANGE_SHORT_SCRATCH, "an input that touches the scratch does not overlap it");
    expect(pinorange_list_bulk_load(&whole, R, S, STATION, &ours.words[5], 0) == PINORANGE_DONE,
           "an input of no length overlaps nothing");
    expect(pinorange_list_salvage(&whole, plain.words, whole.words_length - 1, &plain.words[whole.words_length - 1])
           == PINORANGE_WRONG_SHAPE, "a number that touches the damaged words does not overlap them");
    touched = stolen;
    touched.words_length--;
    expect(pinorange_stolen_list_lookup(&touched, 410017, &our_stolen[SLOTS - 1]) == PINORANGE_DONE,
           "a number that touches the words of a stolen-card list does not overlap them");
}
#endif

int main(void)
{
    expect(VERSION_OF_LIBRARY() == PINORANGE_VERSION_MAJOR, "the version of the library");
    expect(whole.words_length == PINORANGE_WORDS(R, S) && whole.scratch_length == PINORANGE_SCRATCH(R, S)
           && whole.tabulation_length == PINORANGE_TABULATION_LENGTH, "the lengths of a list");
    expect(pinorange_house(ours.tabulation, whole.tabulation_length) == PINORANGE_DONE, "house");
    memcpy(plain.tabulation, ours.tabulation, sizeof plain.tabulation);
    session();
#ifdef PINORANGE_CHECKED
    lay(&whole, R, S, STATION);
    insert(&whole, 410017, 3);
    wrong_pieces();
    wrong_arguments();
    wrong_stolen_pieces();
    touching();
#endif
    printf("list.c: %u calls, %u failures\n", calls, failures);
    return failures != 0;
}
