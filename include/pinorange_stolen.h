/* The stolen-card list of a pump head: a set of keys in lent words, beside the card list (libpinorange.a). A head that
 * has none need not include this.
 *
 * Cards that were reported stolen are never taken off, and have no tier, so that a plain table does: the words are its
 * slots, one word each, 1 to PINORANGE_MAX_SLOTS of them, and nothing else. An empty slot is 0. There is no heading, no
 * stash, no scratch and no counters. How many words there are is what pinorange.h calls r, and the station is not in
 * the words: it is given to each call, and must be the same each time. The tabulation may be that of the card list.
 *
 * Every call below is proved: it reads and writes nothing outside the memory that it is lent, for every content and
 * length, and returns. What each promises is stated in crates/pinorange/src/lib.rt.
 *
 * Where a key sits: its way starts at its slot in table 0, as pinorange_hashes gives it for this r and station, and
 * steps on by one slot, round the end. The image of a set is what its keys give when they are placed ascending, each in
 * the first empty slot on its way. So the smaller of two keys keeps a slot that both want, and the words are a function
 * of the set alone, for one tabulation, station and number of words: heads that were given the same reports, in
 * whatever order, have the same words, and a console may compare them word by word. (In a card list a set has one issue
 * of each first part; here it is any set of keys from 10 on.)
 *
 * Issues are keys of their own: 410017 and 410018 start at one slot, may both be reported, and each must be. 13 never
 * comes. Whoever makes a stolen card again reports the stolen issue alone, and the new one buys as before.
 *
 * At nozzle lift a head asks both lists, the stolen one first: docs/C.md ("Stolen cards") has it in C.
 *
 * How many slots: every set of up to as many keys as there are slots fits, whatever the keys (16 comes beyond that and
 * never before). But the fuller a table is, the longer are the ways. For n keys take 4n / 3 slots, rounded up, which
 * are then three quarters full: docs/FIGURES.md ("The stolen list") has how many slots a lookup looks at. The number of
 * words cannot be changed later: to have more, init other words and insert each word of the old ones that is not 0.
 * Where more keys come than there are slots, which of them are refused with 16 hangs on the order in which they come,
 * and heads that were given other orders differ.
 *
 * Another station or tabulation: under it the words are, in general, the image of no set, and an insert answers 4 and
 * changes nothing. With few keys they may happen to be one there, too, and all zeros always are; then the insert is
 * done, and the list belongs to that station from then on. A lookup under another station says yes for listed keys
 * alone, but may miss them. So keep the station beside the words, as the struct below does.
 *
 * Whether words are an image: an insert of key 0 tells, and never changes them. It is refused in any case: with 5 where
 * the words are the image of a set, since 4 is tried first, and with 4 where they are not (pinorange_stolen_list_check,
 * below). As with a check of a card list, 5 does not say that nobody changed them: a change that makes them the image
 * of another set passes, as another last digit of a key mostly does. A head that must notice each change compares its
 * words with those of another head.
 *
 * On 4, and after a reset: when an insert answers PINORANGE_NOT_CANONICAL, somebody else wrote the words, or the
 * station or the tabulation is another one. After a reset in the middle of an init or an insert the words may be half
 * written, and a key may be missing though they are an image. In these cases look nothing up: write the tabulation
 * afresh, init the words and insert all keys again from a record of your own, in any order. Where there is none, what
 * is left are the words from 10 on: insert these into other words, and compare with whoever knows the cards. A lookup
 * reads any words, and never answers 4: on damaged words it may miss a key, and it tells none that does not stand in
 * them.
 *
 * What the caller sees to is what pinorange.h says: no pointer is null, all are aligned, and no two lent pieces
 * overlap; the words lie apart from those of the card list, too. No call keeps state of its own. While an init or an
 * insert runs nobody else may read or write the words, an interrupt handler no more than another core. Lookups only
 * read them, and may run side by side. A head that must look up while an insert is under way has the words twice, as
 * pinorange.h says of two banks: it copies those in use to the other bank, inserts there, and swaps where that answers
 * 0. Between calls the words may be copied anywhere.
 *
 * In the plain calls there is nothing to exchange but station and key. Exchanged, a key above 255 is no station: 2. The
 * struct and its inline calls, for C99 and C++, keep the station with the memory; with PINORANGE_CHECKED defined they
 * look at all pieces first, as pinorange_list.h says. */
#ifndef PINORANGE_STOLEN_H
#define PINORANGE_STOLEN_H

#include "pinorange_list.h"

#ifdef __cplusplus
extern "C" {
#endif

/* Lays an empty list: the words become zeros, whatever they were. That is the image of the empty set at every station.
 * Refused (2): the number of words is not 1 to PINORANGE_MAX_SLOTS; the words stay. */
uint32_t pinorange_stolen_init(uint32_t *words, size_t words_length);

/* Puts a key into the set: the card is reported stolen.
 * Done (0): the words are the image of the set with the key, in every word.
 * Refused (1, 2, 4, 5, 6 or 16, tried in that order): the words stay.
 *   2: the number of words is not 1 to PINORANGE_MAX_SLOTS, or the station is above PINORANGE_MAX_STATION.
 *   4: the words are the image of no set under this tabulation and station.
 *   5: the key is below 10.
 *   6: the key is in the set. Another issue of it is not the same key.
 *   16: every slot is filled, and the key is not in the set.
 * It goes over all words each time, to try 4, and keeps two bytes for each of 1,024 slots on the stack meanwhile:
 * docs/FIGURES.md has how long that takes, and how much stack. */
uint32_t pinorange_stolen_insert(const uint16_t *tabulation, size_t tabulation_length, uint32_t *words,
                                 size_t words_length, uint32_t station, uint32_t key);

/* Whether a key was reported, this issue of it.
 *
 * Reads: the tabulation and the words, of any length and content. Writes: nothing but `*reported`.
 * Done (0): from the key's start on, slot by slot and at most one round: `*reported` is 1 where the key comes first,
 *   and 0 where an empty slot, a larger key or the end of the round does. On the image of a set, with the tabulation
 *   and at the station that it was made with, it is 1 exactly for the keys of the set.
 * Refused (1, 2 or 5, tried in that order, each as of an insert): `*reported` stays as it was. */
uint32_t pinorange_stolen_lookup(const uint16_t *tabulation, size_t tabulation_length, const uint32_t *words,
                                 size_t words_length, uint32_t station, uint32_t key, uint32_t *reported);

/* The reference to the version at each call (pinorange_hashes.h). */
#ifdef PINORANGE_BOUND
#define pinorange_stolen_init(...) (pinorange_bind(), pinorange_stolen_init(__VA_ARGS__))
#define pinorange_stolen_insert(...) (pinorange_bind(), pinorange_stolen_insert(__VA_ARGS__))
#define pinorange_stolen_lookup(...) (pinorange_bind(), pinorange_stolen_lookup(__VA_ARGS__))
#endif

/* A stolen-card list: where its memory is, how long each piece is, in entries or words, and its station. It only
 * points: whoever fills it keeps the memory. Fill it by PINORANGE_STOLEN_LIST, or by names. */
struct pinorange_stolen_list {
    const uint16_t *tabulation;
    size_t tabulation_length; /* PINORANGE_TABULATION_LENGTH */
    uint32_t *words;
    size_t words_length; /* the slots, 1 to PINORANGE_MAX_SLOTS */
    uint32_t station;    /* 0 to PINORANGE_MAX_STATION */
};

/* What such a struct is filled with, where it is declared, from two arrays and the station:
 *
 *     static uint32_t stolen_words[1024];
 *     static const struct pinorange_stolen_list stolen = PINORANGE_STOLEN_LIST(memory.tabulation, stolen_words, 17);
 */
#define PINORANGE_STOLEN_LIST(tabulation, words, station) \
    { \
        (tabulation), sizeof(tabulation) / sizeof(tabulation)[0], (words), sizeof(words) / sizeof(words)[0], (station) \
    }

#ifdef PINORANGE_CHECKED

/* All pieces of a list, and one that a call is handed besides; a piece without a name is none. */
static inline void pinorange_check_stolen(const struct pinorange_stolen_list *list, struct pinorange_piece told)
{
    struct pinorange_piece pieces[3];
    size_t i, count = 2u + (told.name != 0);
    if (!list)
        PINORANGE_FAILED("stolen list", "is null");
    pieces[0] = pinorange_piece_of("tabulation", list->tabulation, list->tabulation_length * sizeof *list->tabulation,
                                   sizeof *list->tabulation);
    pieces[1] = pinorange_piece_of("words", list->words, list->words_length * sizeof *list->words,
                                   sizeof *list->words);
    pieces[2] = told;
    for (i = 0; i < count; i++)
        pinorange_check_piece(pieces, i);
}

#define PINORANGE_CHECK_STOLEN(list, told) pinorange_check_stolen(list, told)
#define PINORANGE_TOLD(name, told) pinorange_piece_of(name, told, sizeof *(told), sizeof *(told))
#define PINORANGE_NOT_TOLD pinorange_piece_of(0, 0, 0, 1)
#else
#define PINORANGE_CHECK_STOLEN(list, told) ((void)0)
#endif

/* pinorange_stolen_init. It takes no station: one above PINORANGE_MAX_STATION is refused by the calls that follow. */
static inline uint32_t pinorange_stolen_list_init(const struct pinorange_stolen_list *list)
{
    PINORANGE_CHECK_STOLEN(list, PINORANGE_NOT_TOLD);
    return pinorange_stolen_init(list->words, list->words_length);
}

/* pinorange_stolen_insert. */
static inline uint32_t pinorange_stolen_list_insert(const struct pinorange_stolen_list *list, uint32_t key)
{
    PINORANGE_CHECK_STOLEN(list, PINORANGE_NOT_TOLD);
    return pinorange_stolen_insert(list->tabulation, list->tabulation_length, list->words, list->words_length,
                                   list->station, key);
}

/* Whether the words are the image of a set: 0, or 1, 2 or 4, tried in that order. An insert of key 0, which is refused
 * in any case, and changes nothing; but as for any insert nobody else may read the words meanwhile. */
static inline uint32_t pinorange_stolen_list_check(const struct pinorange_stolen_list *list)
{
    uint32_t answer = pinorange_stolen_list_insert(list, 0);
    return answer == PINORANGE_BLANK_KEY ? PINORANGE_DONE : answer;
}

/* pinorange_stolen_lookup. It may run beside other lookups. */
static inline uint32_t pinorange_stolen_list_lookup(const struct pinorange_stolen_list *list, uint32_t key,
                                                    uint32_t *reported)
{
    PINORANGE_CHECK_STOLEN(list, PINORANGE_TOLD("reported", reported));
    return pinorange_stolen_lookup(list->tabulation, list->tabulation_length, list->words, list->words_length,
                                   list->station, key, reported);
}

#undef PINORANGE_CHECK_STOLEN
#undef PINORANGE_TOLD
#undef PINORANGE_NOT_TOLD

#ifdef __cplusplus
}
#endif

#endif
