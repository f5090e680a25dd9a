/* The card list as one struct of the memory that it is lent, and the calls of pinorange.h over it, as inline functions
 * for C99 and C++: so that no call can be handed two pieces of memory in each other's place.
 *
 * In the plain calls words and scratch are alike in type and stand side by side. Exchanged, an insert takes the scratch
 * for the words and answers 2, and the words, which it takes for scratch, are zeros afterwards: the whole list is gone.
 * Here the pieces are told once, and two macros tell them, so that nothing can be exchanged there either, and every
 * length is right:
 *
 *     static struct PINORANGE_MEMORY(1024, 64) memory;
 *     static const struct pinorange_list list = PINORANGE_LIST(memory);
 *
 *     pinorange_house(memory.tabulation, PINORANGE_TABULATION_LENGTH);
 *     answer = pinorange_list_init(&list, 1024, 64, station);
 *     answer = pinorange_list_insert(&list, 410017, 3);
 *
 * Each call hands on to the plain one of its name and answers what that answers; pinorange.h says what it promises, and
 * what the caller sees to. Out-parameters that are alike stand in a struct, too. What is left alike in one call shows
 * when it is exchanged: two of r, s and station (2, since the words' length fits r and s alone; unless they are equal),
 * key and tier, in the input of a bulk load, too (5, since no tier is a key). A salvage is the one call with two lists'
 * words: it writes those of the struct, and is handed the damaged ones as words to read, so that these two cannot be
 * exchanged either. pinorange_house, pinorange_hashes and pinorange_close_sale are lent no words and no scratch, and
 * have no inline call.
 *
 * With PINORANGE_CHECKED defined, for a debug build, each call first looks at all pieces of the list and at all that it
 * is handed: none is null, each is aligned, no two overlap. Where one fails PINORANGE_FAILED(piece, what) is called
 * with two texts, as "scratch" and "is null". Define it before this header is included; else it is abort() of stdlib.h.
 * It must not return: the call would go on with that memory. Without PINORANGE_CHECKED there is no check, and no C
 * library is needed. */
#ifndef PINORANGE_LIST_H
#define PINORANGE_LIST_H

#include "pinorange.h"

#if defined(PINORANGE_CHECKED) && !defined(PINORANGE_FAILED)
#include <stdlib.h>
#define PINORANGE_FAILED(piece, what) ((void)(piece), (void)(what), abort())
#endif

#ifdef __cplusplus
extern "C" {
#endif

/* A list: where its memory is and how long each piece is, in entries or words. It only points: whoever fills it keeps
 * the memory. Lists may share a tabulation, and a scratch, if no two calls run at once. Fill it by PINORANGE_LIST, or
 * by names. */
struct pinorange_list {
    const uint16_t *tabulation;
    size_t tabulation_length; /* PINORANGE_TABULATION_LENGTH */
    uint32_t *words;
    size_t words_length; /* PINORANGE_WORDS(r, s), exactly */
    uint32_t *scratch;
    size_t scratch_length; /* PINORANGE_SCRATCH(r, s), or more */
    struct pinorange_counters *counters;
};

/* The memory of one list with r slots in each table and s stash places, behind the word `struct`. */
#define PINORANGE_MEMORY(r, s) \
    { \
        uint16_t tabulation[PINORANGE_TABULATION_LENGTH]; \
        uint32_t words[PINORANGE_WORDS(r, s)]; \
        uint32_t scratch[PINORANGE_SCRATCH(r, s)]; \
        struct pinorange_counters counters; \
    }

/* What a struct pinorange_list over such memory is filled with, where it is declared. */
#define PINORANGE_LIST(memory) \
    { \
        (memory).tabulation, sizeof(memory).tabulation / sizeof(memory).tabulation[0], \
        (memory).words, sizeof(memory).words / sizeof(memory).words[0], \
        (memory).scratch, sizeof(memory).scratch / sizeof(memory).scratch[0], &(memory).counters \
    }

/* What a lookup tells. */
struct pinorange_found {
    uint32_t listed; /* 1 or 0 */
    uint32_t tier;   /* if it is listed; else it stays */
};

/* What a stash view tells: a stretch of the words, two for each stashed key. */
struct pinorange_stretch {
    uint32_t offset;
    uint32_t length;
};

/* Where a trail is written: `keys` and `length` are the caller's, `count` is told. */
struct pinorange_trail_keys {
    uint32_t *keys;
    size_t length; /* 2 * r always does */
    uint32_t count;
};

#ifdef PINORANGE_CHECKED

/* A piece of memory that a call is lent. */
struct pinorange_piece {
    const char *name;
    const void *memory;
    size_t bytes;
    size_t alignment;
};

static inline struct pinorange_piece pinorange_piece_of(const char *name, const void *memory, size_t bytes,
                                                        size_t alignment)
{
    struct pinorange_piece piece;
    piece.name = name;
    piece.memory = memory;
    piece.bytes = bytes;
    piece.alignment = alignment;
    return piece;
}

/* Addresses, since C compares pointers into one array alone. */
static inline int pinorange_pieces_overlap(const struct pinorange_piece *one, const struct pinorange_piece *other)
{
    uintptr_t start = (uintptr_t)one->memory, other_start = (uintptr_t)other->memory;
    if (one->bytes == 0 || other->bytes == 0)
        return 0;
    return start < other_start ? other_start - start < one->bytes : start - other_start < other->bytes;
}

/* One piece by itself, and with those before it. */
static inline void pinorange_check_piece(const struct pinorange_piece *pieces, size_t at)
{
    const struct pinorange_piece *piece = &pieces[at];
    size_t i;
    if (!piece->memory)
        PINORANGE_FAILED(piece->name, "is null");
    if ((uintptr_t)piece->memory % piece->alignment != 0)
        PINORANGE_FAILED(piece->name, "is not aligned");
    for (i = 0; i < at; i++)
        if (pinorange_pieces_overlap(piece, &pieces[i]))
            PINORANGE_FAILED(piece->name, "overlaps another piece");
}

/* All pieces of a list, and two that a call is handed besides; a piece without a name is none. */
static inline void pinorange_check_lent(const struct pinorange_list *list, struct pinorange_piece first,
                                        struct pinorange_piece second)
{
    struct pinorange_piece pieces[6];
    size_t i, count = 4u + (first.name != 0) + (second.name != 0);
    if (!list)
        PINORANGE_FAILED("list", "is null");
    pieces[0] = pinorange_piece_of("tabulation", list->tabulation, list->tabulation_length * sizeof *list->tabulation,
                                   sizeof *list->tabulation);
    pieces[1] = pinorange_piece_of("words", list->words, list->words_length * sizeof *list->words,
                                   sizeof *list->words);
    pieces[2] = pinorange_piece_of("scratch", list->scratch, list->scratch_length * sizeof *list->scratch,
                                   sizeof *list->scratch);
    pieces[3] = pinorange_piece_of("counters", list->counters, sizeof *list->counters, sizeof list->counters->done);
    pieces[4] = first;
    pieces[5] = second;
    for (i = 0; i < count; i++)
        pinorange_check_piece(pieces, i);
}

#define PINORANGE_CHECK_LENT(list, first, second) pinorange_check_lent(list, first, second)
#define PINORANGE_PIECE(name, memory, bytes) pinorange_piece_of(name, memory, bytes, sizeof(uint32_t))
#define PINORANGE_NO_PIECE pinorange_piece_of(0, 0, 0, 1)
#else
#define PINORANGE_CHECK_LENT(list, first, second) ((void)0)
#endif

/* pinorange_init. The counters go on: whoever wants them to begin at 0 clears them. */
static inline uint32_t pinorange_list_init(const struct pinorange_list *list, uint32_t r, uint32_t s, uint32_t station)
{
    PINORANGE_CHECK_LENT(list, PINORANGE_NO_PIECE, PINORANGE_NO_PIECE);
    return pinorange_init(list->words, list->words_length, r, s, station, list->counters);
}

/* pinorange_bulk_load: the whole list from `input_length` words, key and tier by turns, the keys ascending. */
static inline uint32_t pinorange_list_bulk_load(const struct pinorange_list *list, uint32_t r, uint32_t s,
                                                uint32_t station, const uint32_t *input, size_t input_length)
{
    PINORANGE_CHECK_LENT(list, PINORANGE_PIECE("input", input, input_length * sizeof *input), PINORANGE_NO_PIECE);
    return pinorange_bulk_load(list->tabulation, list->tabulation_length, list->words, list->words_length,
                               list->scratch, list->scratch_length, list->counters, r, s, station, input,
                               input_length);
}

/* pinorange_insert. */
static inline uint32_t pinorange_list_insert(const struct pinorange_list *list, uint32_t key, uint32_t tier)
{
    PINORANGE_CHECK_LENT(list, PINORANGE_NO_PIECE, PINORANGE_NO_PIECE);
    return pinorange_insert(list->tabulation, list->tabulation_length, list->words, list->words_length, list->scratch,
                            list->scratch_length, list->counters, key, tier);
}

/* pinorange_remove. */
static inline uint32_t pinorange_list_remove(const struct pinorange_list *list, uint32_t key)
{
    PINORANGE_CHECK_LENT(list, PINORANGE_NO_PIECE, PINORANGE_NO_PIECE);
    return pinorange_remove(list->tabulation, list->tabulation_length, list->words, list->words_length, list->scratch,
                            list->scratch_length, list->counters, key);
}

/* pinorange_check. */
static inline uint32_t pinorange_list_check(const struct pinorange_list *list)
{
    PINORANGE_CHECK_LENT(list, PINORANGE_NO_PIECE, PINORANGE_NO_PIECE);
    return pinorange_check(list->tabulation, list->tabulation_length, list->words, list->words_length, list->scratch,
                           list->scratch_length);
}

/* pinorange_lookup. Borrows no scratch: it may run beside other calls that only read the words. */
static inline uint32_t pinorange_list_lookup(const struct pinorange_list *list, uint32_t key,
                                             struct pinorange_found *found)
{
    PINORANGE_CHECK_LENT(list, PINORANGE_PIECE("found", found, sizeof *found), PINORANGE_NO_PIECE);
    return pinorange_lookup(list->tabulation, list->tabulation_length, list->words, list->words_length, key,
                            &found->listed, &found->tier);
}

/* pinorange_stash. */
static inline uint32_t pinorange_list_stash(const struct pinorange_list *list, struct pinorange_stretch *stretch)
{
    PINORANGE_CHECK_LENT(list, PINORANGE_PIECE("stretch", stretch, sizeof *stretch), PINORANGE_NO_PIECE);
    return pinorange_stash(list->words, list->words_length, &stretch->offset, &stretch->length);
}

/* pinorange_trail. */
static inline uint32_t pinorange_list_trail(const struct pinorange_list *list, uint32_t key,
                                            struct pinorange_trail_keys *trail)
{
    PINORANGE_CHECK_LENT(list, PINORANGE_PIECE("trail", trail, sizeof *trail),
                         PINORANGE_PIECE("keys", trail ? trail->keys : 0,
                                         trail ? trail->length * sizeof *trail->keys : 0));
    return pinorange_trail(list->tabulation, list->tabulation_length, list->words, list->words_length, list->scratch,
                           list->scratch_length, key, trail->keys, trail->length, &trail->count);
}

/* pinorange_salvage: the list becomes that of the survivors of `damaged`, the words of another list, which are only
 * read, and not of its own: these may hold anything before. */
static inline uint32_t pinorange_list_salvage(const struct pinorange_list *list, const uint32_t *damaged,
                                              size_t damaged_length, uint32_t *lost)
{
    PINORANGE_CHECK_LENT(list, PINORANGE_PIECE("damaged", damaged, damaged_length * sizeof *damaged),
                         PINORANGE_PIECE("lost", lost, sizeof *lost));
    return pinorange_salvage(list->tabulation, list->tabulation_length, damaged, damaged_length, list->words,
                             list->words_length, list->scratch, list->scratch_length, lost);
}

/* pinorange_open_sale, with PINORANGE_STEPS steps. */
static inline uint32_t pinorange_list_open_sale(const struct pinorange_list *list, uint32_t key, uint32_t base,
                                                const int32_t *steps, struct pinorange_sale *sale)
{
    PINORANGE_CHECK_LENT(list, PINORANGE_PIECE("steps", steps, PINORANGE_STEPS * sizeof *steps),
                         PINORANGE_PIECE("sale", sale, sizeof *sale));
    return pinorange_open_sale(list->tabulation, list->tabulation_length, list->words, list->words_length, key, base,
                               steps, PINORANGE_STEPS, sale);
}

#undef PINORANGE_CHECK_LENT
#undef PINORANGE_PIECE
#undef PINORANGE_NO_PIECE

#ifdef __cplusplus
}
#endif

#endif
