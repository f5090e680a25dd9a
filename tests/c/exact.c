/* Every call on memory from malloc that is exactly as long as the call is told, from no word to one too many, with
 * scratch that was never written, and with targets of bulk loads and salvages, sheets for trails and records of sales
 * that were not either. Run under a memory checker (tests/run does) it shows what no comparison of words can: that
 * nothing is read or written outside the lent ends, that no answer and no word depends on what the scratch, the target
 * or the record held, nor those of a salvage on the counts and the next numbers of its words, and that a bulk load and
 * a salvage write every word of their target, a trail every word of its sheet, and an opening every field of its
 * record; and so of stolen-card lists. Exits with 0 when the answers, the trails, the prices and the lists are as
 * expected, too. */
#include "pinorange_stolen.h"

#include <stdio.h>
#include <stdlib.h>
#include <string.h>

static uint16_t house[PINORANGE_TABULATION_LENGTH];
static unsigned char accepted[4096]; /* of key_of(i) in the session that runs */
static unsigned long calls;
static int failures;

static void *lend(size_t bytes)
{
    void *memory = malloc(bytes); /* not written: the checker knows these bytes as undefined */
    if (!memory) {
        printf("no memory\n");
        exit(2);
    }
    return memory;
}

static uint16_t *lend_book(size_t length)
{
    uint16_t *book = lend(length * sizeof *book);
    for (size_t i = 0; i < length; i++)
        book[i] = house[i % PINORANGE_TABULATION_LENGTH];
    return book;
}

static void expect(const char *what, uint32_t got, uint32_t wanted)
{
    calls++;
    if (got != wanted) {
        printf("%s: %u, expected %u\n", what, (unsigned)got, (unsigned)wanted);
        failures++;
    }
}

static void expect_zeros(const char *what, const uint32_t *memory, size_t length)
{
    for (size_t i = 0; i < length; i++)
        if (memory[i] != 0) {
            printf("%s: word %zu is not zero\n", what, i);
            failures++;
        }
}

/* The keys of a session, far apart: no two of them are issues of one first part. */
static uint32_t key_of(uint32_t i)
{
    return i * 2654435761u;
}

/* Another issue of a key: of the same first part, smaller or larger. */
static uint32_t other_issue(uint32_t key)
{
    uint32_t other = key % 10 < 5 ? key + 1 : key - 1;
    expect("the first part of another issue", PINORANGE_FIRST_PART(other), PINORANGE_FIRST_PART(key));
    return other;
}

/* A tier that stands for a removal. */
#define OUT UINT32_MAX

/* Insert with a tier (or remove, if that is OUT) with a scratch of its own of this length, which must be zeros afterwards. */
static uint32_t change(const uint16_t *book, size_t book_length, uint32_t *words, size_t length, size_t room, uint32_t key, uint32_t tier)
{
    struct pinorange_counters counters = {0, 0};
    uint32_t *scratch = lend(room * sizeof *scratch);
    uint32_t answer = tier == OUT ? pinorange_remove(book, book_length, words, length, scratch, room, &counters, key)
                                  : pinorange_insert(book, book_length, words, length, scratch, room, &counters, key, tier);
    expect_zeros("scratch", scratch, room);
    if (counters.done + counters.refused != 1) {
        printf("the counters did not move by one\n");
        failures++;
    }
    free(scratch);
    return answer;
}

/* A bulk load with a scratch of its own of this length, which must be zeros afterwards, and with an input of its own of
 * exactly its length, which must stay. */
static uint32_t load(const uint16_t *book, size_t book_length, uint32_t *words, size_t length, size_t room,
                     const uint32_t laid[3], const uint32_t *list, size_t list_length)
{
    struct pinorange_counters counters = {0, 0};
    uint32_t *scratch = lend(room * sizeof *scratch), *input = lend(list_length * sizeof *input), answer;
    if (list_length > 0)
        memcpy(input, list, list_length * sizeof *input);
    answer = pinorange_bulk_load(book, book_length, words, length, scratch, room, &counters, laid[0], laid[1], laid[2],
                                 input, list_length);
    expect_zeros("scratch", scratch, room);
    expect("the input stays", list_length == 0 || memcmp(input, list, list_length * sizeof *input) == 0, 1);
    expect("done", counters.done, answer == PINORANGE_DONE);
    expect("refused", counters.refused, answer != PINORANGE_DONE);
    free(input);
    free(scratch);
    return answer;
}

/* What a trail or a sale is asked of: a tabulation, words, and how long the scratch is, which a sale does not need. */
struct board {
    const uint16_t *book;
    size_t book_length;
    const uint32_t *words;
    size_t length;
    size_t room;
};

/* A change of the words of a board, which it may only read. */
static uint32_t change_on(const struct board *board, uint32_t *words, uint32_t key, uint32_t tier)
{
    return change(board->book, board->book_length, words, board->length, board->room, key, tier);
}

static uint32_t look_up(const struct board *board, uint32_t key, uint32_t *listed, uint32_t *tier)
{
    return pinorange_lookup(board->book, board->book_length, board->words, board->length, key, listed, tier);
}

/* A trail with a scratch of its own, which must be zeros afterwards. */
static uint32_t ask(const struct board *board, uint32_t key, uint32_t *trail, size_t trail_length, uint32_t *count)
{
    uint32_t *scratch = lend(board->room * sizeof *scratch);
    uint32_t answer = pinorange_trail(board->book, board->book_length, board->words, board->length, scratch, board->room, key, trail, trail_length, count);
    expect_zeros("scratch", scratch, board->room);
    free(scratch);
    return answer;
}

/* The trail of a key on a sheet that was never written: it must have these keys, and zeros behind them. */
static void expect_trail(const char *what, const struct board *board, uint32_t key, size_t trail_length, const uint32_t *keys, uint32_t wanted)
{
    uint32_t *trail = lend(trail_length * sizeof *trail), count = 77;
    expect(what, ask(board, key, trail, trail_length, &count), PINORANGE_DONE);
    expect(what, count, wanted);
    for (size_t i = 0; i < wanted; i++)
        expect(what, trail[i], keys[i]);
    expect_zeros(what, trail + wanted, trail_length - wanted);
    free(trail);
}

/* A trail that is refused: its sheet and its count must stay. */
static void expect_refusal(const char *what, const struct board *board, uint32_t key, size_t trail_length, uint32_t wanted)
{
    uint32_t *trail = lend(trail_length * sizeof *trail), count = 77;
    for (size_t i = 0; i < trail_length; i++)
        trail[i] = 1000 + (uint32_t)i;
    expect(what, ask(board, key, trail, trail_length, &count), wanted);
    expect(what, count, 77);
    for (size_t i = 0; i < trail_length; i++)
        expect(what, trail[i], 1000 + (uint32_t)i);
    free(trail);
}

/* The steps of the tiers, and a few too many to lend. */
static const int32_t all_steps[] = {-30, -20, -10, 0, 10, 20, 30, 40, 50, 60, 70, 80};
#define ALL_STEPS (sizeof all_steps / sizeof *all_steps)

/* Opens a sale with steps of its own, as many as are lent, which must stay. */
static uint32_t open_sale(const struct board *board, uint32_t key, uint32_t base, size_t steps_length, struct pinorange_sale *sale)
{
    int32_t *steps = lend(steps_length * sizeof *steps);
    uint32_t answer;
    memcpy(steps, all_steps, steps_length * sizeof *steps);
    answer = pinorange_open_sale(board->book, board->book_length, board->words, board->length, key, base, steps, steps_length, sale);
    expect("the steps stay", memcmp(steps, all_steps, steps_length * sizeof *steps) == 0, 1);
    free(steps);
    return answer;
}

/* A sale over a record that was never written: it must hold the key, this tier and this price, at which it is closed. */
static void expect_sale(const char *what, const struct board *board, uint32_t key, uint32_t base, uint32_t tier, uint32_t price)
{
    struct pinorange_sale *sale = lend(sizeof *sale);
    expect(what, open_sale(board, key, base, PINORANGE_STEPS, sale), PINORANGE_DONE);
    expect(what, sale->key, key);
    expect(what, sale->tier, tier);
    expect(what, sale->price, price);
    expect(what, pinorange_close_sale(sale), price);
    expect("closed again", pinorange_close_sale(sale), price);
    free(sale);
}

/* A sale that is refused: over a record that was never written, on which the answer must not depend, and over a record that must stay. */
static void expect_no_sale(const char *what, const struct board *board, uint32_t key, uint32_t base, size_t steps_length, uint32_t wanted)
{
    struct pinorange_sale *sale = lend(sizeof *sale);
    expect(what, open_sale(board, key, base, steps_length, sale), wanted);
    *sale = (struct pinorange_sale){1001, 1002, 1003};
    expect(what, open_sale(board, key, base, steps_length, sale), wanted);
    expect(what, sale->key, 1001);
    expect(what, sale->tier, 1002);
    expect(what, sale->price, 1003);
    free(sale);
}

/* The key in that slot of a key where it does not sit: itself, if it sits in both. */
static uint32_t beyond(const struct board *board, uint32_t r, uint32_t key)
{
    uint32_t table0 = r, table1 = r, in0, in1;
    expect("hashes", pinorange_hashes(board->book, board->book_length, r, board->words[4], key, &table0, &table1),
           PINORANGE_DONE);
    expect("the slots are in their tables", table0 < r && table1 < r, 1);
    if (table0 >= r || table1 >= r)
        return 0; /* no key: there is no such slot to read */
    in0 = board->words[5 + 3 * table0];
    in1 = board->words[5 + 3 * (r + table1)];
    expect("a key of a trail is seated", in0 == key || in1 == key, 1);
    return in0 == key ? in1 : in0;
}

/* The trail of a key that is in the set, checked step by step: each next key is in the last one's other slot, and the
 * last is the root. That sits in both its slots, which only the smallest of a component without a cycle does; or the
 * steps lead on from it round a cycle, whose smallest key it is. Then again on a sheet that is just long enough, and on
 * one with a word less. Gives how many keys the trail has; 0 where it is refused, which is a failure. */
static uint32_t follow(const struct board *board, uint32_t r, uint32_t key)
{
    uint32_t *trail = lend(2 * r * sizeof *trail), count = 77, answer = ask(board, key, trail, 2 * r, &count);
    expect("trail", answer, PINORANGE_DONE);
    if (answer != PINORANGE_DONE) { /* the sheet was never written, and the count is none */
        free(trail);
        return 0;
    }
    expect("the trail is on its sheet", count <= 2 * r, 1);
    if (count > 2 * r)
        count = 2 * r;
    for (uint32_t i = 0; i < count; i++)
        expect("the next key", trail[i], i == 0 ? key : beyond(board, r, trail[i - 1]));
    if (count > 0) {
        uint32_t root = trail[count - 1], round = beyond(board, r, root);
        for (uint32_t steps = 0; round != root && steps < 2 * r; steps++) {
            expect("a key on the cycle is larger", round > root, 1);
            round = beyond(board, r, round);
        }
        expect("round to the root", round, root);
        expect_refusal("one word less", board, key, count - 1, PINORANGE_SHORT_TRAIL);
    }
    expect_trail("just long enough", board, key, count, trail, count);
    expect_zeros("behind the trail", trail + count, 2 * r - count);
    free(trail);
    return count;
}

/* A sale of each key of a session, where it was accepted, and none where it was not, nor of another issue; and a sale
 * of the first one, which stays open. */
static struct pinorange_sale *serve(const struct board *board, uint32_t keys)
{
    struct pinorange_sale *first = lend(sizeof *first);
    for (uint32_t i = 1; i <= keys; i++) {
        expect_no_sale("another issue", board, other_issue(key_of(i)), 1000, PINORANGE_STEPS, PINORANGE_KEY_ABSENT);
        if (accepted[i])
            expect_sale("sale", board, key_of(i), 1000, i % 8, (uint32_t)(1000 + all_steps[i % 8]));
        else
            expect_no_sale("not in the set", board, key_of(i), i % 2, i % 10, PINORANGE_KEY_ABSENT);
    }
    expect("the first key", open_sale(board, key_of(1), 500, PINORANGE_STEPS, first), PINORANGE_DONE);
    return first;
}

/* Each key of a session, where it was accepted, replaced by another issue at the same tier, and that one by the key
 * again, which brings every word back. The one that is listed keeps the other out, whatever its tier: 13. */
static void replace(const struct board *board, uint32_t *words, uint32_t keys)
{
    size_t bytes = board->length * sizeof *words;
    uint32_t *before = lend(bytes);
    memcpy(before, words, bytes);
    for (uint32_t i = 1; i <= keys; i++)
        for (uint32_t turn = 0; accepted[i] && turn < 2; turn++) {
            uint32_t out = turn ? other_issue(key_of(i)) : key_of(i), in = turn ? key_of(i) : other_issue(key_of(i));
            for (uint32_t tier = 0; tier <= PINORANGE_MAX_TIER; tier++)
                expect("another issue", change_on(board, words, in, tier), PINORANGE_OTHER_ISSUE);
            expect("wrong tier", change_on(board, words, in, PINORANGE_MAX_TIER + 1), PINORANGE_WRONG_TIER);
            expect("remove of another issue", change_on(board, words, in, OUT), PINORANGE_KEY_ABSENT);
            expect("remove", change_on(board, words, out, OUT), PINORANGE_DONE);
            expect("replace", change_on(board, words, in, i % 8), PINORANGE_DONE);
            expect("the words are other ones", memcmp(before, words, bytes) != 0, turn == 0);
        }
    free(before);
}

static int by_number(const void *one, const void *other)
{
    uint32_t first = *(const uint32_t *)one, second = *(const uint32_t *)other;
    return (first > second) - (first < second);
}

/* The keys of a session that were accepted, ascending, each with its tier. Gives how many words they are. */
static size_t listed_keys(uint32_t keys, uint32_t *list)
{
    size_t length = 0;
    for (uint32_t i = 1; i <= keys; i++)
        if (accepted[i]) {
            list[length++] = key_of(i);
            list[length++] = i % 8;
        }
    qsort(list, length / 2, 2 * sizeof *list, by_number);
    return length;
}

/* A load that must be refused: over words that were never written, on which the answer must not depend, and over words
 * that must stay. */
static void expect_no_list(const char *what, const struct board *board, const uint32_t laid[3], const uint32_t *list,
                           size_t list_length, uint32_t wanted)
{
    uint32_t *words = lend(board->length * sizeof *words);
    expect(what, load(board->book, board->book_length, words, board->length, board->room, laid, list, list_length),
           wanted);
    for (size_t i = 0; i < board->length; i++)
        words[i] = 1000 + (uint32_t)i;
    expect(what, load(board->book, board->book_length, words, board->length, board->room, laid, list, list_length),
           wanted);
    for (size_t i = 0; i < board->length; i++)
        expect(what, words[i], 1000 + (uint32_t)i);
    free(words);
}

/* The same list in one call, into words that were never written: all words must be those of the board. Then the input
 * with a fault of each kind, and with a word less. Where a key was refused, all of them together do not fit. */
static void load_whole(const struct board *board, const uint32_t laid[3], uint32_t keys)
{
    size_t bytes = board->length * sizeof *board->words, length;
    uint32_t *words = lend(bytes), *list = lend((2 * keys + 2) * sizeof *list), count = board->words[2], kept;
    length = listed_keys(keys, list);
    expect("the keys of the input", (uint32_t)length, 2 * count);
    expect("bulk load", load(board->book, board->book_length, words, board->length, board->room, laid, list, length),
           PINORANGE_DONE);
    expect("the words of a bulk load", memcmp(words, board->words, bytes) == 0, 1);
    expect_no_list("a word less", board, laid, list, length - 1, PINORANGE_NOT_RISING);
    list[length] = UINT32_MAX; /* a key of its own, without a tier; then one that is none */
    expect_no_list("a word more", board, laid, list, length + 1, PINORANGE_NOT_RISING);
    list[length] = 9;
    expect_no_list("a blank word more", board, laid, list, length + 1, PINORANGE_BLANK_KEY);
    kept = list[length - 1];
    list[length - 1] = PINORANGE_MAX_TIER + 1;
    expect_no_list("the last tier", board, laid, list, length, PINORANGE_WRONG_TIER);
    list[length - 1] = kept;
    kept = list[length - 2];
    list[length - 2] = 9;
    expect_no_list("the last key", board, laid, list, length, PINORANGE_BLANK_KEY);
    list[length - 2] = list[0];
    expect_no_list("the first key again", board, laid, list, length, PINORANGE_NOT_RISING);
    list[length - 2] = kept;
    list[length] = other_issue(kept);
    list[length + 1] = 0;
    expect_no_list("another issue of the last key", board, laid, list, length + 2,
                   list[length] > kept ? PINORANGE_OTHER_ISSUE : PINORANGE_NOT_RISING);
    for (uint32_t i = 1; i <= keys; i++)
        if (!accepted[i]) {
            list[length] = key_of(i);
            list[length + 1] = i % 8;
            qsort(list, length / 2 + 1, 2 * sizeof *list, by_number);
            expect_no_list("a key that has no place", board, laid, list, length + 2, PINORANGE_STASH_FULL);
            break;
        }
    free(list);
    free(words);
}

/* A salvage of the words of a board, with a scratch of its own, which must be zeros afterwards. */
static uint32_t salvage(const struct board *board, uint32_t *target, size_t target_length, uint32_t *lost)
{
    uint32_t *scratch = lend(board->room * sizeof *scratch), answer;
    answer = pinorange_salvage(board->book, board->book_length, board->words, board->length, target, target_length,
                               scratch, board->room, lost);
    expect_zeros("scratch", scratch, board->room);
    free(scratch);
    return answer;
}

/* A salvage over a target and a number that were never written: they must be these. */
static void expect_saved(const char *what, const struct board *board, const uint32_t *wanted, uint32_t wanted_lost)
{
    size_t bytes = board->length * sizeof *wanted;
    uint32_t *target = lend(bytes), *lost = lend(sizeof *lost), answer;
    answer = salvage(board, target, board->length, lost);
    expect(what, answer, PINORANGE_DONE);
    if (answer == PINORANGE_DONE) { /* else neither was ever written */
        expect(what, memcmp(target, wanted, bytes) == 0, 1);
        expect("lost", *lost, wanted_lost);
    }
    free(lost);
    free(target);
}

/* A salvage that is refused: over a target and a number that were never written, on which the answer must not depend,
 * and over such that must stay. */
static void expect_not_saved(const char *what, const struct board *board, size_t target_length, uint32_t wanted)
{
    uint32_t *target = lend(target_length * sizeof *target), *lost = lend(sizeof *lost);
    expect(what, salvage(board, target, target_length, lost), wanted);
    *lost = 77;
    for (size_t i = 0; i < target_length; i++)
        target[i] = 1000 + (uint32_t)i;
    expect(what, salvage(board, target, target_length, lost), wanted);
    expect(what, *lost, 77);
    for (size_t i = 0; i < target_length; i++)
        expect(what, target[i], 1000 + (uint32_t)i);
    free(lost);
    free(target);
}

/* A copy of the words of a board, of which the counts and the next numbers were never written. */
static uint32_t *copy_for_salvage(const struct board *board)
{
    uint32_t *wet = lend(board->length * sizeof *wet), r = board->words[0];
    for (size_t i = 0; i < board->length; i++) {
        int is_next = i >= 5 && i < 5 + 6 * r && (i - 5) % 3 == 1;
        if (i != 2 && i != 3 && !is_next)
            wet[i] = board->words[i];
    }
    return wet;
}

/* How often a key stands in slots and places. */
static uint32_t times(const struct board *board, uint32_t key)
{
    uint32_t r = board->words[0], s = board->words[1], count = 0;
    for (uint32_t i = 0; i < 2 * r + s; i++)
        count += board->words[i < 2 * r ? 5 + 3 * i : 5 + 6 * r + 2 * (i - 2 * r)] == key;
    return count;
}

/* Salvages of the list of a session: it gives itself, whatever its counts and next numbers are. Then one slot or place
 * after the other is spoiled, its key or its tier: what is saved is the list without that key, unless it stands in
 * another slot, too. Last, all keys are spoiled. */
static void save(const struct board *board)
{
    uint32_t r = board->words[0], s = board->words[1], *wet = copy_for_salvage(board);
    const struct board damaged = {board->book, board->book_length, wet, board->length, board->room};
    size_t bytes = board->length * sizeof *wet;
    expect_saved("an untampered list", board, board->words, 0);
    expect_saved("counts and next numbers have no say", &damaged, board->words, 0);
    for (uint32_t i = 0; i < 2 * r + s; i++) {
        size_t at = i < 2 * r ? 5 + 3 * i : 5 + 6 * r + 2 * (i - 2 * r), tier_at = at + (i < 2 * r ? 2 : 1);
        uint32_t key = wet[at], tier = wet[tier_at], *left = lend(bytes);
        memcpy(left, board->words, bytes);
        if (key != 0 && times(board, key) == 1)
            expect("remove", change_on(board, left, key, OUT), PINORANGE_DONE);
        if (key != 0) {
            wet[at] = 1 + i % 9;
            if (board->words[2] > 1)
                expect_saved("a blank key", &damaged, left, 1);
            wet[at] = key;
            wet[tier_at] = i % 2 ? PINORANGE_MAX_TIER + 1 : UINT32_MAX;
            if (board->words[2] > 1)
                expect_saved("a wrong tier", &damaged, left, 1);
            wet[tier_at] = tier;
        }
        free(left);
    }
    for (uint32_t i = 0; i < 2 * r + s; i++)
        wet[i < 2 * r ? 5 + 3 * i : 5 + 6 * r + 2 * (i - 2 * r)] = i % 10;
    expect_not_saved("no key is left", &damaged, board->length, PINORANGE_NONE_COUNTS);
    expect_not_saved("a word less", &damaged, board->length - 1, PINORANGE_WRONG_SHAPE);
    free(wet);
}

/* A dictionary filled, key i at tier i % 8, and emptied again; in between refused inserts, keys that are replaced, the
 * same list in one call, salvages, lookups, trails, sales and views. */
static void session(uint32_t r, uint32_t s, uint32_t station, uint32_t keys)
{
    size_t length = PINORANGE_WORDS(r, s), room = PINORANGE_SCRATCH(r, s);
    uint16_t *book = lend_book(PINORANGE_TABULATION_LENGTH);
    uint32_t *words = lend(length * sizeof *words);
    const struct board board = {book, PINORANGE_TABULATION_LENGTH, words, length, room};
    struct pinorange_counters counters = {0, 0};
    struct pinorange_sale *sale;
    uint32_t full = 0, empty = 0, longer = 0;

    expect("init", pinorange_init(words, length, r, s, station, &counters), PINORANGE_DONE);
    for (uint32_t i = 1; i <= keys; i++) {
        uint32_t answer = change_on(&board, words, key_of(i), i % 8);
        full += answer == PINORANGE_STASH_FULL;
        accepted[i] = answer == PINORANGE_DONE;
        expect("insert", answer, accepted[i] ? PINORANGE_DONE : PINORANGE_STASH_FULL);
    }
    for (uint32_t i = 1; i <= keys; i++) {
        expect("insert again", change_on(&board, words, key_of(i), i % 8),
               accepted[i] ? PINORANGE_KEY_PRESENT : PINORANGE_STASH_FULL);
        expect("another tier", change_on(&board, words, key_of(i), (i + 1) % 8),
               accepted[i] ? PINORANGE_OTHER_TIER : PINORANGE_STASH_FULL);
        expect("wrong tier", change_on(&board, words, key_of(i), PINORANGE_MAX_TIER + i), PINORANGE_WRONG_TIER);
        /* of a key that has no place no other issue has one: both have the same slots */
        expect("another issue", change_on(&board, words, other_issue(key_of(i)), i % 8),
               accepted[i] ? PINORANGE_OTHER_ISSUE : PINORANGE_STASH_FULL);
    }
    replace(&board, words, keys);
    load_whole(&board, (const uint32_t[]){r, s, station}, keys);
    save(&board);
    for (uint32_t i = 1; i <= 2 * keys; i++) {
        uint32_t listed = 7, tier = 77, table0, table1;
        expect("lookup", look_up(&board, other_issue(key_of(i)), &listed, &tier), PINORANGE_DONE);
        expect("another issue is not listed", listed, 0);
        expect("lookup", look_up(&board, key_of(i), &listed, &tier), PINORANGE_DONE);
        expect("hashes", pinorange_hashes(book, PINORANGE_TABULATION_LENGTH, r, station, key_of(i), &table0,
                                          &table1), PINORANGE_DONE);
        expect("listed", listed, i <= keys && accepted[i]);
        expect("tier", tier, listed ? i % 8 : 77);
        expect("table 0", table0 < r, 1);
        expect("table 1", table1 < r, 1);
    }
    for (uint32_t i = 1; i <= keys; i++)
        if (accepted[i]) {
            uint32_t count = follow(&board, r, key_of(i));
            expect_refusal("another issue", &board, other_issue(key_of(i)), 2 * r, PINORANGE_KEY_ABSENT);
            empty += count == 0;
            longer += count > 1;
        } else {
            expect_refusal("not in the set", &board, key_of(i), i % 3, PINORANGE_KEY_ABSENT);
        }
    expect("empty trails, one for each stashed key", empty, words[3]);
    expect("some trails are longer than one key", longer > 0, 1);
    sale = serve(&board, keys);
    for (uint32_t i = 1; i <= keys; i++) {
        uint32_t offset, count, answer = change_on(&board, words, key_of(i), OUT);
        expect("remove", answer, accepted[i] ? PINORANGE_DONE : PINORANGE_KEY_ABSENT);
        expect("stash", pinorange_stash(words, length, &offset, &count), PINORANGE_DONE);
        expect("the view has two words a key", count, 2 * words[3]);
        expect("the view begins at place 0, if it is empty, too", offset, PINORANGE_PLACE(r, 0));
        expect("the view ends inside", offset + count <= length, 1);
    }
    /* nothing is left: r, s, the station and zeros */
    for (size_t i = 0; i < length; i++)
        expect("word", words[i], i == 0 ? r : i == 1 ? s : i == 4 ? station : 0);
    expect_no_sale("removed", &board, key_of(1), 500, PINORANGE_STEPS, PINORANGE_KEY_ABSENT);
    expect("the sale of a key that is gone", pinorange_close_sale(sale), 480);
    free(sale);
    expect("most inserts were accepted", full < keys - keys / 3 + 1, 1);
    printf("r = %u, s = %u, station %u: %u inserts, %u of them refused with 8; %u empty trails, %u of more than one "
           "key\n", (unsigned)r, (unsigned)s, (unsigned)station, (unsigned)keys, (unsigned)full, (unsigned)empty,
           (unsigned)longer);
    free(words);
    free(book);
}

/* Sales of the keys of the test board, by hand; refusals for the price; and for the key, with causes for those that are tried behind it. */
static void test_sales(const struct board *board)
{
    struct pinorange_sale *sale = lend(sizeof *sale);
    expect_sale("170", board, 170, 100, 0, 70);
    expect_sale("1930, stashed", board, 1930, 100, 1, 80);
    expect_sale("1290", board, 1290, 100, 3, 100);
    expect_sale("650", board, 650, 100, 7, 140);
    expect_sale("the smallest price", board, 170, 31, 0, 1);
    expect_sale("the largest base", board, 650, PINORANGE_MAX_BASE, 7, PINORANGE_MAX_BASE + 40);
    for (size_t steps_length = 0; steps_length <= ALL_STEPS; steps_length++)
        if (steps_length != PINORANGE_STEPS)
            expect_no_sale("12, steps", board, 170, 100, steps_length, PINORANGE_WRONG_PRICE);
    expect_no_sale("12, price", board, 170, 30, PINORANGE_STEPS, PINORANGE_WRONG_PRICE);
    expect_no_sale("12, price", board, 170, 29, PINORANGE_STEPS, PINORANGE_WRONG_PRICE);
    expect_no_sale("12, base", board, 650, 0, PINORANGE_STEPS, PINORANGE_WRONG_PRICE);
    expect_no_sale("12, base", board, 650, PINORANGE_MAX_BASE + 1, PINORANGE_STEPS, PINORANGE_WRONG_PRICE);
    expect_no_sale("7", board, 20, 0, 0, PINORANGE_KEY_ABSENT);
    sale->price = 480; /* neither key nor tier is ever written */
    expect("closing needs the price alone", pinorange_close_sale(sale), 480);
    free(sale);
}

/* The refusals that are left, on words of the test board whose tiers are all above 7; each with causes for those that are tried behind it. */
static void test_refused_sales(const struct board *board)
{
    static const uint32_t keys[] = {170, 650, 1290, 1930};
    struct board other = *board;
    for (size_t i = 0; i < 4; i++) {
        expect_no_sale("4", board, keys[i], 100, PINORANGE_STEPS, PINORANGE_NOT_CANONICAL);
        expect_no_sale("4", board, keys[i], 0, i, PINORANGE_NOT_CANONICAL);
    }
    expect_no_sale("7", board, 20, 0, 7, PINORANGE_KEY_ABSENT);
    expect_no_sale("7, another issue", board, 171, 0, 7, PINORANGE_KEY_ABSENT);
    for (uint32_t key = 0; key < 10; key++)
        expect_no_sale("5", board, key, 0, 7, PINORANGE_BLANK_KEY);
    other.length--;
    expect_no_sale("2", &other, 0, 0, 7, PINORANGE_WRONG_SHAPE);
    other.book_length--;
    expect_no_sale("1", &other, 0, 0, 7, PINORANGE_WRONG_TABULATION);
}

/* Keys that the sound test board does not have: below 10, and other issues of its own, smaller and larger. No call
 * takes one of these for another. */
static void test_strange_keys(const struct board *board, uint32_t *words)
{
    static const uint32_t others[] = {171, 179, 651, 1291, 1939};
    for (uint32_t key = 0; key < 10; key++) {
        expect("5", change_on(board, words, key, PINORANGE_MAX_TIER + 1), PINORANGE_BLANK_KEY);
        expect("5", change_on(board, words, key, OUT), PINORANGE_BLANK_KEY);
        expect_refusal("5", board, key, 0, PINORANGE_BLANK_KEY);
        expect_no_sale("5", board, key, 0, 0, PINORANGE_BLANK_KEY);
    }
    for (size_t i = 0; i < sizeof others / sizeof *others; i++) {
        expect("13, and not 8", change_on(board, words, others[i], 1), PINORANGE_OTHER_ISSUE);
        expect("7, another issue", change_on(board, words, others[i], OUT), PINORANGE_KEY_ABSENT);
        expect_refusal("7, another issue", board, others[i], 0, PINORANGE_KEY_ABSENT);
        expect_no_sale("7, another issue", board, others[i], 0, 0, PINORANGE_KEY_ABSENT);
    }
    expect("8 for a key with the slots of 650", change_on(board, words, 10, 1), PINORANGE_STASH_FULL);
}

/* Another key in the stash of the test board, in the place of 1930: no set has these words. A sale is opened. */
static void test_stashed(const struct board *board, uint32_t *words, uint32_t key)
{
    words[29] = key;
    expect("4", change_on(board, words, 20, 0), PINORANGE_NOT_CANONICAL);
    expect("4", change_on(board, words, 170, OUT), PINORANGE_NOT_CANONICAL);
    expect_refusal("4", board, 170, 8, PINORANGE_NOT_CANONICAL);
    expect_sale("1290", board, 1290, 100, 3, 100);
    words[29] = 1930;
}

/* The keys 170, 650 and 1290 on the test board of the specification, and then 1930 in the stash: their trails by hand,
 * and every refusal of a trail, with causes for those that are tried behind it. Then their sales, which the tampering
 * with a count does not touch, and tiers above 7 do. */
static void test_board(void)
{
    static const uint32_t of_170[] = {170, 650}, of_650[] = {650}, of_1290[] = {1290, 650};
    size_t books = PINORANGE_TABULATION_LENGTH, length = PINORANGE_WORDS(4, 1), room = PINORANGE_SCRATCH(4, 1);
    uint16_t *book = lend_book(books);
    uint32_t *words = lend(length * sizeof *words);
    const struct board board = {book, books, words, length, room};
    struct pinorange_counters counters = {0, 0};

    /* entry v is v, entry 1,280 + v is v / 16, for v from 0 to 255; all others 0 */
    for (uint32_t v = 0; v < books; v++)
        book[v] = (uint16_t)(v < 256 ? v : v >= 1280 && v < 1536 ? (v - 1280) / 16 : 0);
    expect("init", pinorange_init(words, length, 4, 1, 0, &counters), PINORANGE_DONE);
    expect("insert", change(book, books, words, length, room, 1290, 3), PINORANGE_DONE);
    expect("insert", change(book, books, words, length, room, 170, 0), PINORANGE_DONE);
    expect("insert", change(book, books, words, length, room, 650, 7), PINORANGE_DONE);
    for (size_t more = 0; more <= 8; more++) {
        expect_trail("1290", &board, 1290, 2 + more, of_1290, 2);
        expect_trail("170", &board, 170, 2 + more, of_170, 2);
        expect_trail("650", &board, 650, 1 + more, of_650, 1);
    }
    expect("insert", change(book, books, words, length, room, 1930, 1), PINORANGE_DONE);
    expect_trail("1930, stashed", &board, 1930, 0, NULL, 0);
    expect_trail("1930, stashed", &board, 1930, 8, NULL, 0);
    expect_trail("1290 as before", &board, 1290, 8, of_1290, 2);

    expect_refusal("11", &board, 1290, 1, PINORANGE_SHORT_TRAIL);
    expect_refusal("11", &board, 650, 0, PINORANGE_SHORT_TRAIL);
    expect_refusal("7", &board, 20, 8, PINORANGE_KEY_ABSENT);
    expect_refusal("7", &board, 20, 0, PINORANGE_KEY_ABSENT);
    test_strange_keys(&board, words);
    test_stashed(&board, words, 1291); /* the largest on its cycle, as it must be, but 1290 has the same first part */
    test_stashed(&board, words, 9);
    words[2]++; /* tampered */
    expect_refusal("4", &board, 1290, 8, PINORANGE_NOT_CANONICAL);
    expect_refusal("4", &board, 0, 0, PINORANGE_NOT_CANONICAL);
    expect_refusal("3", &(struct board){book, books, words, length, room - 1}, 0, 0, PINORANGE_SHORT_SCRATCH);
    expect_refusal("2", &(struct board){book, books, words, length - 1, room - 1}, 0, 8, PINORANGE_WRONG_SHAPE);
    expect_refusal("1", &(struct board){book, books - 1, words, length - 1, room - 1}, 0, 8, PINORANGE_WRONG_TABULATION);
    words[4] = PINORANGE_MAX_STATION + 1;
    expect_refusal("2, station", &(struct board){book, books, words, length, room - 1}, 0, 8, PINORANGE_WRONG_SHAPE);
    expect_no_sale("2, station", &board, 0, 0, 7, PINORANGE_WRONG_SHAPE);
    words[4] = 0;
    test_sales(&board);
    for (size_t slot = 0; slot < 8; slot++)
        words[5 + 3 * slot + 2] = 8 + (uint32_t)slot;
    words[30] = UINT32_MAX;
    test_refused_sales(&board);
    free(words);
    free(book);
}

/* Bulk loads into a target of this length, with tabulation and scratch of these: of inputs of no word to six, of which
 * none too many is read. The target was never written. */
static void load_lengths(const struct board *board, const uint32_t laid[3], uint32_t shape)
{
    static const uint32_t all[] = {40, 7, 50, 0, 60, 1};
    for (size_t length = 0; length <= 6; length++) {
        uint32_t *words = lend(board->length * sizeof *words), wanted = PINORANGE_DONE;
        if (length / 2 > 2 * laid[0] + laid[1])
            wanted = PINORANGE_STASH_FULL;
        if (length % 2)
            wanted = PINORANGE_NOT_RISING;
        if (board->room < PINORANGE_SCRATCH(laid[0], laid[1]))
            wanted = PINORANGE_SHORT_SCRATCH;
        if (shape)
            wanted = shape;
        if (board->book_length != PINORANGE_TABULATION_LENGTH)
            wanted = PINORANGE_WRONG_TABULATION;
        expect("bulk load", load(board->book, board->book_length, words, board->length, board->room, laid, all, length),
               wanted);
        if (wanted == PINORANGE_DONE)
            expect("the number of keys", words[2], (uint32_t)length / 2);
        for (size_t i = 0; wanted == PINORANGE_DONE && i < board->length; i++)
            expect("every word is written", words[i] <= 255, 1);
        free(words);
    }
}

/* Salvages of an empty list into targets around its length, and of one that holds a number which is no key. */
static void salvage_lengths(const struct board *board, uint32_t shape, uint32_t r, uint32_t s)
{
    size_t length = board->length;
    uint32_t *wet = lend(length * sizeof *wet);
    const struct board spoiled = {board->book, board->book_length, wet, length, board->room};
    if (length > 0)
        memcpy(wet, board->words, length * sizeof *wet);
    if (length > 5)
        wet[5] = 9;
    for (size_t target_length = length > 0 ? length - 1 : 0; target_length <= length + 1; target_length++) {
        uint32_t wanted = target_length != length ? PINORANGE_WRONG_SHAPE : PINORANGE_DONE;
        if (!wanted && board->room < PINORANGE_SCRATCH(r, s))
            wanted = PINORANGE_SHORT_SCRATCH;
        if (shape)
            wanted = shape;
        if (board->book_length != PINORANGE_TABULATION_LENGTH)
            wanted = PINORANGE_WRONG_TABULATION;
        expect_not_saved("salvage", &spoiled, target_length, wanted ? wanted : PINORANGE_NONE_COUNTS);
        if (wanted)
            expect_not_saved("salvage", board, target_length, wanted);
        else
            expect_saved("salvage", board, board->words, 0);
    }
    free(wet);
}

/* Every length of words, scratch and tabulation around the right ones, with this number as the station: above 255 no length
 * of words is right. */
static void lengths(uint32_t r, uint32_t s, uint32_t station)
{
    size_t right = PINORANGE_WORDS(r, s), room = PINORANGE_SCRATCH(r, s);
    for (size_t length = 0; length <= right + 1; length++)
        for (int more = -1; more <= 1; more++) {
            uint32_t *words = lend(length * sizeof *words), *scratch, offset, count, listed = 7, tier = 77;
            uint16_t *book = lend_book(PINORANGE_TABULATION_LENGTH + more);
            size_t books = (size_t)(PINORANGE_TABULATION_LENGTH + more), rooms = room + (size_t)more;
            int shaped = length == right && station <= PINORANGE_MAX_STATION;
            uint32_t shape = shaped ? PINORANGE_DONE : PINORANGE_WRONG_SHAPE;
            struct pinorange_counters counters = {0, 0};
            memset(words, 0, length * sizeof *words);
            if (length > 0)
                words[0] = r;
            if (length > 1)
                words[1] = s;
            if (length > 4)
                words[4] = station;
            scratch = lend(rooms * sizeof *scratch);
            expect("check", pinorange_check(book, books, words, length, scratch, rooms),
                   more ? PINORANGE_WRONG_TABULATION : shape);
            for (int out = 0; out < 2; out++)
                expect("short or long scratch",
                       change(house, PINORANGE_TABULATION_LENGTH, words, length, rooms, length % 10, out ? OUT : 8),
                       shape ? shape : more < 0 ? PINORANGE_SHORT_SCRATCH : PINORANGE_BLANK_KEY);
            expect_refusal("trail", &(struct board){book, books, words, length, rooms}, 50, length % 3,
                           more ? PINORANGE_WRONG_TABULATION : shape ? shape : PINORANGE_KEY_ABSENT);
            expect_refusal("trail", &(struct board){house, PINORANGE_TABULATION_LENGTH, words, length, rooms}, 50,
                           length % 3, shape ? shape : more < 0 ? PINORANGE_SHORT_SCRATCH : PINORANGE_KEY_ABSENT);
            load_lengths(&(struct board){book, books, words, length, rooms}, (const uint32_t[]){r, s, station}, shape);
            load_lengths(&(struct board){house, PINORANGE_TABULATION_LENGTH, words, length, rooms},
                         (const uint32_t[]){r, s, station}, shape);
            salvage_lengths(&(struct board){book, books, words, length, rooms}, shape, r, s);
            salvage_lengths(&(struct board){house, PINORANGE_TABULATION_LENGTH, words, length, rooms}, shape, r, s);
            expect_no_sale("sale", &(struct board){book, books, words, length, rooms}, 50, 100, length % 10,
                           more ? PINORANGE_WRONG_TABULATION : shape ? shape : PINORANGE_KEY_ABSENT);
            expect("lookup", pinorange_lookup(book, books, words, length, 50, &listed, &tier),
                   more ? PINORANGE_WRONG_TABULATION : shape);
            expect("listed", listed, more || shape ? 7 : 0);
            expect("tier", tier, 77);
            expect("stash", pinorange_stash(words, length, &offset, &count), shape);
            expect("house", pinorange_house(book, books), more ? PINORANGE_WRONG_TABULATION : PINORANGE_DONE);
            free(words);
            words = lend(length * sizeof *words);
            expect("init", pinorange_init(words, length, r, s, station, &counters), shape);
            for (size_t i = 0; shaped && i < length; i++)
                expect("word", words[i], i == 0 ? r : i == 1 ? s : i == 4 ? station : 0);
            free(scratch);
            free(book);
            free(words);
        }
}

/* A lookup in a stolen-card list over a number that was never written, if it is to be done, or one that must stay. */
static void expect_reported(const struct board *board, uint32_t station, uint32_t key, uint32_t wanted, uint32_t told)
{
    uint32_t *reported = lend(sizeof *reported), answer;
    if (wanted != PINORANGE_DONE)
        *reported = told;
    answer = pinorange_stolen_lookup(board->book, board->book_length, board->words, board->length, station, key,
                                     reported);
    expect("stolen lookup", answer, wanted);
    if (answer == wanted) /* else it may never have been written */
        expect("reported", *reported, told);
    free(reported);
}

static uint32_t report(const struct board *board, uint32_t *words, uint32_t station, uint32_t key)
{
    return pinorange_stolen_insert(board->book, board->book_length, words, board->length, station, key);
}

/* A stolen-card list of so many slots, laid in words that were never written and filled to the last slot, where a word
 * may be changed; with each number that a call can answer. */
static void stolen_session(uint32_t slots, uint32_t station)
{
    uint16_t *book = lend_book(PINORANGE_TABULATION_LENGTH);
    uint32_t *words = lend(slots * sizeof *words), *before = lend(slots * sizeof *before), kept;
    const struct board board = {book, PINORANGE_TABULATION_LENGTH, words, slots, 0};
    expect("stolen init", pinorange_stolen_init(words, slots), PINORANGE_DONE);
    expect_zeros("a fresh stolen-card list", words, slots);
    for (uint32_t i = 1; i <= slots; i++) {
        expect("report", report(&board, words, station, key_of(i)), PINORANGE_DONE);
        expect("report again", report(&board, words, station, key_of(i)), PINORANGE_KEY_PRESENT);
        expect("no key", report(&board, words, station, i % 10), PINORANGE_BLANK_KEY);
    }
    expect("every slot is filled", report(&board, words, station, key_of(slots + 1)), PINORANGE_TABLE_FULL);
    for (uint32_t i = 1; i <= 2 * slots; i++) {
        expect_reported(&board, station, key_of(i), PINORANGE_DONE, i <= slots);
        expect_reported(&board, station, other_issue(key_of(i)), PINORANGE_DONE, 0);
        expect_reported(&board, station, i % 10, PINORANGE_BLANK_KEY, 77);
    }
    kept = words[slots - 1];
    words[slots - 1] = 9;
    memcpy(before, words, slots * sizeof *words);
    expect("4", report(&board, words, station, key_of(1)), PINORANGE_NOT_CANONICAL);
    expect("4, and not 5", report(&board, words, station, 0), PINORANGE_NOT_CANONICAL);
    expect("the words stay", memcmp(before, words, slots * sizeof *words) == 0, 1);
    words[slots - 1] = kept;
    expect("5, and not 4", report(&board, words, station, 0), PINORANGE_BLANK_KEY);
    free(before);
    free(words);
    free(book);
}

/* Calls on a stolen-card list of no right length, or with a tabulation or at a station that is none: nothing is read or
 * written there, and what is there stays. */
static void stolen_length(size_t length, int more, uint32_t station)
{
    size_t books = (size_t)(PINORANGE_TABULATION_LENGTH + more);
    uint16_t *book = lend_book(books);
    uint32_t *words = lend(length * sizeof *words);
    const struct board board = {book, books, words, length, 0};
    int fits = length >= 1 && length <= PINORANGE_MAX_SLOTS;
    uint32_t shape = fits && station <= PINORANGE_MAX_STATION ? PINORANGE_DONE : PINORANGE_WRONG_SHAPE;
    uint32_t wanted = more ? PINORANGE_WRONG_TABULATION : shape;
    if (!fits)
        for (size_t i = 0; i < length; i++)
            words[i] = 1000 + (uint32_t)i;
    expect("stolen init", pinorange_stolen_init(words, length), fits ? PINORANGE_DONE : PINORANGE_WRONG_SHAPE);
    expect("report", report(&board, words, station, 410017), wanted);
    for (size_t i = 0; wanted && i < length; i++)
        expect("word", words[i], fits ? 0 : 1000 + (uint32_t)i);
    expect("no key", report(&board, words, station, 9), wanted ? wanted : PINORANGE_BLANK_KEY);
    expect_reported(&board, station, 410017, wanted, wanted ? 77 : 1);
    expect_reported(&board, station, 9, wanted ? wanted : PINORANGE_BLANK_KEY, 77);
    free(words);
    free(book);
}

/* Stolen-card lists of some sizes; and all lengths at both ends of what is one. */
static void stolen_lists(void)
{
    static const uint32_t stations[] = {0, 77, PINORANGE_MAX_STATION, PINORANGE_MAX_STATION + 1, UINT32_MAX};
    stolen_session(1, 0);
    stolen_session(2, 255);
    stolen_session(40, 17);
    stolen_session(PINORANGE_MAX_SLOTS, 128);
    for (size_t i = 0; i < sizeof stations / sizeof *stations; i++)
        for (int more = -1; more <= 1; more++)
            for (size_t length = 0; length <= PINORANGE_MAX_SLOTS + 2; length++)
                if (length <= 3 || length >= PINORANGE_MAX_SLOTS - 1)
                    stolen_length(length, more, stations[i]);
}

int main(void)
{
    expect("house", pinorange_house(house, PINORANGE_TABULATION_LENGTH), PINORANGE_DONE);
    session(1, 0, 0, 4);
    session(1, 2, 255, 8);
    session(3, 1, 128, 12);
    session(16, 4, 0, 60);
    session(16, 4, 255, 60);
    session(128, 8, 77, 200);
    test_board();
    lengths(1, 0, 0);
    lengths(1, 0, 255);
    lengths(1, 0, 256);
    lengths(2, 3, 0);
    lengths(2, 3, 200);
    lengths(2, 3, UINT32_MAX);
    stolen_lists();
    printf("exact.c: %lu calls, %d failures\n", calls, failures);
    return failures != 0;
}
