/* The card list of a pump head: a dictionary in lent words whose content is a function of the set alone, of the keys
 * with their tiers (libpinorange.a).
 *
 * Every call below is proved: it reads and writes nothing outside the memory that it is lent, for every content and
 * length, and returns. What each call promises is stated in crates/pinorange/src/lib.rt; docs/SPECIFICATION.md has the
 * table of numbers, docs/GLOSSARY.md the words of the trade: key is its card, slot its pocket, table its rack, stash
 * its drawer, tabulation its spread book, scratch its work sheet, counters its meter, words its list.
 *
 * The tier of a key is a number from 0 to PINORANGE_MAX_TIER: the price tier of a card. It is given when the key is
 * inserted and stands beside it in the words. It has no part in where a key sits: two sets of the same keys with other
 * tiers differ in the tier words alone.
 *
 * The last decimal digit of a key is its issue: a card that is made again has the same first part,
 * PINORANGE_FIRST_PART(key), and another digit. A set has at most one issue of each first part, and keys below 10,
 * which have none, are blank. Issues of one first part have the same two slots. Every call means the exact key.
 *
 * Cards that were reported stolen have a list of their own, with its calls in pinorange_stolen.h.
 *
 * The station number, 0 to PINORANGE_MAX_STATION, is given when a dictionary is laid (init, bulk load) and stands in
 * its words (word 4). It has a part in where every key sits, so that a fleet which crowds the slots at one station is
 * spread otherwise at the next. Every other call takes it from the words. Two dictionaries of one set, with one
 * tabulation, r, s and station, have the same words; those of two stations never do.
 *
 * Words and scratch are alike in type and stand side by side in these calls. Exchanged, an insert takes the scratch for
 * the words and answers 2, and clears the words, which it takes for scratch: the list is gone. pinorange_list.h has the
 * same calls over a struct of the lent memory, where nothing can be exchanged, with checks for debug builds. Use that
 * where you can.
 *
 * What the caller sees to: no pointer is null, neither that of a piece of length 0 nor that of an out-parameter which
 * is not wanted; pointers are aligned; and no two lent pieces of memory overlap. Counters, out-parameters, steps, the
 * input of a bulk load, the target of a salvage and the record of a sale are lent pieces, too: none may stand in the
 * words, in the scratch, or in another. One tabulation goes with a dictionary; under another its words are, in general,
 * the image of no set (4). No call keeps state of its own. The promises hold when a call returns. Let nothing else read
 * or write the same words or scratch meanwhile: while a call runs nobody else, no interrupt handler and no other core,
 * may write any memory that it is lent, nor read what it writes (the words of init, bulk load, insert and remove, the
 * target of salvage; scratch, counters, out-parameters). So there is no lookup during an insert, but in a second bank
 * (below). Calls that only read the words (lookup, check, trail, stash, open_sale, salvage) may run side by side, each
 * with its own scratch.
 * "The set" is the set whose canonical image the words are, under the lent tabulation: keys, one issue of each first
 * part, each with one tier.
 *
 * Two banks: a head that must look up while an insert or a remove is under way has the words twice. It copies the words
 * in use to the other bank, makes the change there, and, where that answers 0, swaps which bank is in use: one store,
 * which an interrupt handler finds done or not done. Another core reads it with acquire, after a store with release,
 * and the next change waits until each lookup that began in the bank which it will write has ended. Tabulation, scratch
 * and counters are for both banks. A bulk load goes into the other bank in the same way and needs no copy before it,
 * since what the words were has no say. Two banks help at a reset, too, if both and the mark of the one in use are in
 * memory that a reset leaves: the bank in use is never half written. tests/c/two_banks.c has it in C, tried with
 * interrupts and resets.
 *
 * On 4, and after a reset: when a call answers PINORANGE_NOT_CANONICAL, or PINORANGE_WRONG_SHAPE for words that were a
 * dictionary, somebody else wrote the words, or the tabulation is another one. After a reset in the middle of a bulk
 * load, an insert or a remove the words may be half written, and the scratch may hold keys. In all these cases look
 * nothing up. Clear the scratch, write the tabulation afresh (pinorange_house, or your own from its record), and lay
 * all keys again from a record of your own: in one call from an ascending record (pinorange_bulk_load), or by
 * pinorange_init and an insert of each key. The words are then those of any head with these keys, tabulation, sizes and
 * station. The library keeps no copy, and half-written words may, by chance, pass a check. Where there is no record, or
 * to see what is left, pinorange_salvage takes the keys that still stand where they may out of words whose check
 * answers 4, into a second area. What it gives is a list, and not a promise that each key in it was listed: whoever has
 * a record compares, or lays that.
 *
 * Dump and restore: between calls the words may be copied anywhere, and are a dictionary wherever they are copied to,
 * with the same tabulation; the scratch need not be kept. Before words that were kept elsewhere are relied on, compare
 * words 0, 1 and 4 with the r, s and station that you expect, and call pinorange_check, which finds most damage and not
 * all: keep a sum with them, and the first number of the version that wrote them. A dump names all keys with their
 * tiers, and nothing else that ever was.
 *
 * Which r and s: for n keys take r = 4n / 5 and s = r / 16, both rounded up, and s at least 8. In the sizes of
 * docs/FIGURES.md ("How many cards fit") fewer than one list of random keys in a hundred then refuses one. The
 * largest size, r = 1,024 and s = 64, is that of n = 1,280; with 1,500 keys about half of such lists refuse one.
 *
 * Over-full lists: where not all keys fit, which are refused with 8 hangs on the order in which they come, so that two
 * heads which are given the same keys in different orders differ, and a console that compares them finds them unlike.
 * How many are listed does not: keys, one issue of each, that are offered one by one to an empty list, those that are
 * refused with 8 skipped, are listed equally many in every order, and no choice among them lists more (proved). A bulk
 * load makes no choice: it answers 8, and nothing is laid. So size for the keys that you have. If 8 can come, give all
 * heads the same calls in the same order, from an empty list in ascending order of the keys; or let one head decide,
 * and give the others the keys that it accepted, which a bulk load then takes: a set that fits once fits in every
 * order, and makes the same words. Keep that set as the record for a reset, and not all that was sent. Whoever offers
 * refused keys again after a remove does so on all heads, in one order.
 *
 * Which processor: the kit makes x86-64 code by the System V convention (Linux and others), position-independent, with
 * SSE2 and nothing above it. The stack is aligned to 16 bytes at a call, as the convention has it, and the 128 bytes
 * below the stack pointer (its red zone) are used, so that an interrupt must not run on the same stack without stepping
 * over them. An interrupt handler that calls the library saves the xmm registers. libpinorange.a needs one function
 * from elsewhere, memset of the C library, no operating system, no heap and no start-up. docs/FIGURES.md has how much
 * stack and time a call takes, as measured; docs/DECISIONS.md (10.1) says what another processor would take. */
#ifndef PINORANGE_H
#define PINORANGE_H

#include "pinorange_hashes.h"

#ifdef __cplusplus
extern "C" {
#endif

/* The other numbers that a call answers. A call tries those that it can give in the order 1, 2, 3, 4, 5, 9, 14, 13, 10,
 * 6, 16, 7, 11, 12, 8, 15; only the opening of a sale tries 4 behind 7. Of a call on words, PINORANGE_WRONG_SHAPE (2)
 * says: there are fewer than 5 words, word 0 (r) is not 1 to 1,024, word 1 (s) is above 64, word 4 (the station) is
 * above 255, or there are not PINORANGE_WORDS(r, s). Init and bulk load, which are given r, s and station, say what it
 * is there, salvage what it is of its target, and the calls of pinorange_stolen.h what it is of their words. */
#define PINORANGE_SHORT_SCRATCH 3u /* the scratch is shorter than PINORANGE_SCRATCH(r, s) */
#define PINORANGE_NOT_CANONICAL 4u /* under the lent tabulation the words are the canonical image of no set; of a sale:
                                    * the tier found is above 7 */
#define PINORANGE_WRONG_TIER 9u    /* insert, bulk load: a tier is above PINORANGE_MAX_TIER */
#define PINORANGE_NOT_RISING 14u   /* bulk load: the keys do not rise, or the input has an odd number of words */
#define PINORANGE_OTHER_ISSUE 13u  /* insert of a key of which the set has another issue, which stays; bulk load: the
                                    * input has two issues of one first part */
#define PINORANGE_OTHER_TIER 10u   /* insert of a key that is in the set with another tier, which it keeps */
#define PINORANGE_KEY_PRESENT 6u   /* insert of a key that is in the set with this tier, or in the set of stolen ones */
#define PINORANGE_TABLE_FULL 16u   /* insert into a stolen-card list (pinorange_stolen.h): every slot is filled */
#define PINORANGE_KEY_ABSENT 7u    /* remove or trail of a key that is not in the set, sale of one that is not found */
#define PINORANGE_SHORT_TRAIL 11u  /* the trail has more keys than `trail_length` */
#define PINORANGE_WRONG_PRICE 12u  /* sale: base or a step outside its range, not eight steps, or a price below 1 */
#define PINORANGE_STASH_FULL 8u    /* the new set cannot be placed: its stash would have more than s keys */
#define PINORANGE_NONE_COUNTS 15u  /* salvage: some slot or place holds a number other than 0, yet no key counts */

#define PINORANGE_MAX_PLACES 64u  /* the most places of a stash, s */
#define PINORANGE_MAX_TIER 7u     /* the largest tier */
#define PINORANGE_STEPS 8u        /* the steps of a price list: one for each tier, 0 to PINORANGE_MAX_TIER */
#define PINORANGE_MAX_BASE 99999u /* the largest base price, in tenths of a cent; the smallest is 1 */
#define PINORANGE_MAX_STEP 500    /* the largest step, up or down, in tenths of a cent */

/* Sizes in 32-bit words, for r slots in each table and s stash places: the dictionary, and the scratch that insert,
 * remove, check, trail, bulk load and salvage borrow. */
#define PINORANGE_WORDS(r, s) (5u + 6u * (r) + 2u * (s))
#define PINORANGE_SCRATCH(r, s) (12u * (r) + 8u * (s))

/* The layout of the words:
 *
 *     words[0]  r, the slots of each table
 *     words[1]  s, the places of the stash
 *     words[2]  how many keys there are, stashed ones included, each counted once
 *     words[3]  how many of them are in the stash
 *     words[4]  the station
 *     words[PINORANGE_SLOT(r, table, slot)]   a slot, table 0 or 1, slot 0 to r - 1: key, next number, tier
 *     words[PINORANGE_PLACE(r, place)]        a place of the stash, 0 to s - 1: key, tier
 *
 * An empty slot or place is zeros. The filled places come first, ascending. The next number of a key is the next larger
 * key that is seated in its component (slots that keys join); the largest has the smallest, a lone key itself.
 *
 * To list all keys of a canonical image: every filled slot of table 0; every filled slot of table 1, but for a key that
 * stands in its slot of table 0, too (pinorange_hashes tells which that is): the smallest key of a component without a
 * cycle sits in both its slots; and every filled place. docs/C.md ("All cards of a list") has the loop.
 *
 * Words are numbers in the processor's own byte order. Heads with one byte order may compare the bytes of their lists;
 * a list that is sent elsewhere, or written to a file, is sent in a fixed order, best the low byte first, as the
 * console's book.bin has it, and compared number by number. */
#define PINORANGE_SLOT(r, table, slot) (5u + 3u * ((table) * (r) + (slot)))
#define PINORANGE_PLACE(r, place) (5u + 6u * (r) + 2u * (place))

/* Counts of calls. The caller clears them, when and if it likes: no call does, pinorange_init neither, which moves them
 * on by one as bulk load, insert and remove do. No call reads them for anything else. A count at 4,294,967,295 stays
 * there. */
struct pinorange_counters {
    uint32_t done;    /* accepted */
    uint32_t refused; /* refused */
};

/* Lays an empty dictionary: the words become r, s, 0, 0, the station and zeros, whatever they were.
 * Refused (2): r is not 1 to 1,024, s is above 64, the station is above 255, or there are not PINORANGE_WORDS(r, s)
 * words; the words stay.
 * The counters move on by one, done or refused. */
uint32_t pinorange_init(uint32_t *words, size_t words_length, uint32_t r, uint32_t s, uint32_t station,
                        struct pinorange_counters *counters);

/* Lays a whole list in one call: that of the keys in `input`, whatever the words were. The input alternates key and
 * tier: `input[0]` is a key, `input[1]` its tier, and so on, the keys strictly ascending, as head office holds them.
 * `input_length` counts words, two for each key; with 0 the list is the empty one that init lays.
 *
 * Reads: the tabulation and the input, of any length and content. Writes: nothing but words, scratch and counters. The
 * input is never written, and may stand in read-only memory; it may not overlap what is written. Take care not to
 * exchange words and scratch, here and below: pinorange_list.h.
 * Done (0): the words are the canonical image of the input's set, in every word: exactly those that pinorange_init and
 *   an insert of each key with its tier, in any order, leave.
 * Refused (1, 2, 3, 5, 9, 14, 13 or 8, tried in that order): the words stay. All is laid, or nothing. Each of 5, 9, 14
 *   and 13 is tried over the whole input before the next.
 *   2: as for init, of r, s, the station and the number of words. What the words hold has no say: 4 never comes.
 *   3: the scratch is shorter than PINORANGE_SCRATCH(r, s), for the r and s that are given.
 *   5, 9: a key is below 10, a tier above PINORANGE_MAX_TIER. A last word that has no partner is a key.
 *   14: the number of words is odd, or a key is not larger than the one before it: the same key twice is 14, too.
 *   13: two keys have one first part.
 *   8: exactly when there is no way at all to give each key one of its two slots or one of the s stash places, no slot
 *     two keys. So it is for more than 2r + s keys, however many.
 * Scratch and counters as for insert. */
uint32_t pinorange_bulk_load(const uint16_t *tabulation, size_t tabulation_length, uint32_t *words,
                             size_t words_length, uint32_t *scratch, size_t scratch_length,
                             struct pinorange_counters *counters, uint32_t r, uint32_t s, uint32_t station,
                             const uint32_t *input, size_t input_length);

/* Puts a key with its tier into the set.
 * Done (0): the words are the canonical image of the set with the key at this tier, in every word.
 * Refused (1, 2, 3, 4, 5, 9, 13, 10, 6 or 8, tried in that order): the words stay. 8 exactly when there is no way at
 * all to give each key of the new set one of its two slots or one of the s stash places, no slot two keys.
 * An insert never takes the place of another issue: 13, whatever the tiers, and never where 10 or 6 would apply. To
 * list a card that was made again, remove the issue that is listed and insert the new one, with whatever tier; that
 * insert is never refused with 8.
 * An insert never changes the tier of a key that is in the set: with the tier that it has it is refused with 6, with
 * another with 10. To change a tier, remove the key and insert it with the new one; the same keys fit again.
 * The scratch is zero over its full length afterwards, refused or not; its old content has no effect. The counters move
 * on by one. */
uint32_t pinorange_insert(const uint16_t *tabulation, size_t tabulation_length, uint32_t *words, size_t words_length,
                          uint32_t *scratch, size_t scratch_length, struct pinorange_counters *counters, uint32_t key,
                          uint32_t tier);

/* Takes a key out of the set, this issue and whatever its tier. Done (0): the words are the canonical image of the set
 * without the key, in every word.
 * Refused (1 to 5 or 7, tried in that order): the words stay. Scratch and counters as for insert. */
uint32_t pinorange_remove(const uint16_t *tabulation, size_t tabulation_length, uint32_t *words, size_t words_length,
                          uint32_t *scratch, size_t scratch_length, struct pinorange_counters *counters, uint32_t key);

/* Whether the words are the canonical image of a set: 0, or 1 to 4, tried in that order. The words are only read.
 * Scratch as for insert.
 *
 * 0 does not say that nobody changed the words: it says that they are the image of some set, and every look-up answers
 * by that set. A change that makes them the image of another set is not found: another tier (0 to 7) beside a key that
 * stands once, another key in a place of the stash that belongs there, too. Nor is a change of the tabulation in an
 * entry that no key of the set uses. docs/C.md ("What a check finds") has how many single bits that are. A head that
 * must notice each change compares its words with those of another head that has the same keys, as the station's
 * console does, or with a sum over words and tabulation that it takes after each accepted call and keeps elsewhere. */
uint32_t pinorange_check(const uint16_t *tabulation, size_t tabulation_length, const uint32_t *words,
                         size_t words_length, uint32_t *scratch, size_t scratch_length);

/* Whether a key is in the dictionary, this issue of it, and its tier.
 *
 * Reads: the tabulation and the words, of any length and content. Writes: nothing but `*listed` and `*tier`.
 * Done (0): if the key stands in one of its two slots or in the stash, `*listed` is 1 and `*tier` the tier word there;
 *   else `*listed` is 0 and `*tier` stays as it was. On a canonical image, with the tabulation that it was made with,
 *   `*listed` is 1 exactly for the keys of the set, and `*tier` the key's tier. On other words of the right shape a key
 *   may stand more than once, and the first counts: its slot in table 0, its slot in table 1, then the stash places in
 *   order; and the tier word may be any number, above PINORANGE_MAX_TIER, too. pinorange_check tells whether words are
 *   such.
 * Refused (1, 2 or 5, tried in that order): `*listed` and `*tier` stay as they were. */
uint32_t pinorange_lookup(const uint16_t *tabulation, size_t tabulation_length, const uint32_t *words,
                          size_t words_length, uint32_t key, uint32_t *listed, uint32_t *tier);

/* Where the filled stretch of the stash stands in the words: `words[*offset]` to `words[*offset + *length - 1]`, two
 * words for each stashed key, the key and its tier; ascending by key in a canonical image.
 *
 * Done (0): offset and length of the stretch in words, inside the words: the length is twice the number of stashed
 *   keys. With an empty stash the length is 0, and the offset all the same that of place 0, PINORANGE_PLACE(r, 0);
 *   where s is 0, too, that is the length of the words, so that `words[*offset]` is not there.
 * Refused (2, or 4 when word 3 counts more stashed keys than there are places): `*offset` and `*length` are 0. */
uint32_t pinorange_stash(const uint32_t *words, size_t words_length, uint32_t *offset, uint32_t *length);

/* The trail of a key: why it sits where it sits.
 *
 * It starts with the key. Each next key is the one in the last one's other slot: `trail[i]` has two slots, sits in one
 * of them, and `trail[i + 1]` keeps it out of the other. It ends with the root, which sits by the rule alone. In a
 * component (slots and keys that hang together) without a cycle the root is the smallest key, which sits in both its
 * slots; otherwise it is the smallest on the one cycle that the seated keys form, and sits in table 0. No key comes
 * twice. So the trail of a root is the root alone. A stashed key sits in no slot, and its trail has no key at all.
 *
 * Reads: the tabulation and the words, of any length and content. Writes: nothing but the scratch, `trail` and
 * `*count`. Scratch as for insert; no counters.
 * Done (0): `*count` is how many keys the trail has. They stand in `trail[0]` to `trail[*count - 1]`, and zeros behind
 * them, up to `trail[trail_length - 1]`.
 * Refused (1, 2, 3, 4, 5, 7 or 11, tried in that order): `*count` and `trail` stay as they were.
 * How long `trail` must be: at least as long as the trail. None has more than 2r keys, so that 2r words always do, and
 * 2 * PINORANGE_MAX_SLOTS for any dictionary: with these 11 is never answered. */
uint32_t pinorange_trail(const uint16_t *tabulation, size_t tabulation_length, const uint32_t *words,
                         size_t words_length, uint32_t *scratch, size_t scratch_length, uint32_t key,
                         uint32_t *trail, size_t trail_length, uint32_t *count);

/* Salvages a list: takes out of damaged words the keys that still stand where they may, and writes the list of these
 * to a second area, the target. For words of the right shape whose check answers 4: those of a head that got wet, say.
 *
 * The slots of table 0, those of table 1 and all s places of the stash are gone over, in this order. The key of a slot
 * counts if it is 10 or more, its tier word is at most PINORANGE_MAX_TIER, and the slot is one of its own two; that of
 * a place of the stash, if the first two hold. Of several issues or copies of a card the first that counts stands, with
 * its tier: these are the survivors. Nothing else of the words has a say: the counts (words 2 and 3) and the next
 * numbers may be anything.
 *
 * Reads: the tabulation and the words, of any length and content. Writes: nothing but the target, the scratch and
 * `*lost`. The words are never written, and may stand in read-only memory; no other piece may overlap them, the target
 * neither. No counters.
 * Done (0): the target is the canonical image of the survivors, in every word, with the r, s and station of the words,
 *   whatever it held before: a list as any other, on which all calls may follow. `*lost` is how many slots and places
 *   hold a number other than 0 in the place of a key that does not count, at most 2r + s. A copy or another issue that
 *   counts and does not stand is not among them.
 * Refused (1, 2, 2, 3 or 15, tried in that order): the target and `*lost` stay as they were. Scratch as for insert.
 *   2: the words have no right shape; then, the target is not as long as the words.
 *   3: the scratch is shorter than PINORANGE_SCRATCH(r, s), for the r and s of the words.
 *   15: some slot or place holds such a number, yet no key counts. There is nothing to salvage: lay the list from a
 *     record, or an empty one. Where none holds any, the call is done, and the target is the empty list.
 *   Neither 4 nor 8 ever comes: survivors always fit, since each stood in a slot of its own or in a place (proved).
 *
 * What is saved (proved): the words of an untampered list give themselves and 0 lost, and so do those of a salvaged
 * one. Where k words were changed, none of them word 0, 1 or 4, at most k are told as lost, at most 2k of the old keys
 * do not stand in the target with their tiers, at most k first parts are gone altogether, and at most k keys with their
 * tiers are new. A key survives with its tier if a slot or place where it stands was left as it was, and nothing else
 * of its first part was written, be it in another issue, copy or tier.
 * What is not: neither 0 lost nor 0 of a check of the target says that all is as it was. A changed word may be a key
 * that counts, as any number from 10 on does in a place of the stash beside a tier from 0 to 7, and another such tier
 * counts, too. So compare the target with a record, or with another head that has the same keys, before it is relied
 * on.
 * Before the call compare words 0, 1 and 4 with the r, s and station that the list was laid with, and where they differ
 * write these into a copy of the words, and salvage that. Another r or s in words of this length is a 2, or has the
 * tables end elsewhere; and at another station, as under another tabulation, hardly a key sits in a slot of its own. */
uint32_t pinorange_salvage(const uint16_t *tabulation, size_t tabulation_length, const uint32_t *words,
                           size_t words_length, uint32_t *target, size_t target_length, uint32_t *scratch,
                           size_t scratch_length, uint32_t *lost);

/* The record of a sale: what a head keeps from nozzle lift to hang-up. It is the caller's own memory, a plain struct,
 * to be kept, copied and thrown away like any other: the library holds no sale, and no word of a dictionary shows that
 * one is open. */
struct pinorange_sale {
    uint32_t key;   /* the card */
    uint32_t tier;  /* the tier at which it was listed at nozzle lift, 0 to PINORANGE_MAX_TIER */
    uint32_t price; /* the price of a litre in this sale, in tenths of a cent: at least 1 */
};

/* Opens a sale: what a head does at nozzle lift, when it has read the card.
 *
 * `base` is the base price, 1 to PINORANGE_MAX_BASE tenths of a cent; `steps[t]` is what tier t adds to it,
 * -PINORANGE_MAX_STEP to PINORANGE_MAX_STEP, for the PINORANGE_STEPS tiers. All eight must be in their range, those of
 * other tiers, too. The price of a litre is `base + steps[tier]`, tier being the one that pinorange_lookup tells: on a
 * canonical image that of the set.
 * Between nozzle lift and hang-up: show the price of the record and count litres by it, keep the record, and call what
 * you like. Keys may be inserted and removed meanwhile, this one, too, and prices may change: neither changes the
 * record, and opening or closing changes no word. So the head's list stays equal to that of any other head with the
 * same set, whoever is filling up. There may be any number of open sales, of one key, too: each has its own record.
 *
 * Reads: the tabulation, the words and the steps, of any length and content. Writes: nothing but `*sale`. No scratch,
 * no counters.
 * Done (0): `*sale` holds the key, its tier and the price.
 * Refused (1, 2, 5, 7, 4 or 12, tried in that order): `*sale` stays as it was; it need not have been written before. 4
 *   only where the tier word that lookup finds is above PINORANGE_MAX_TIER: words that are no canonical image in
 *   another way are not found out here (pinorange_check does that).
 * PINORANGE_WRONG_PRICE (12): `base` or one of the steps is outside its range, `steps_length` is not PINORANGE_STEPS,
 *   or the price for this key's tier would be below 1. */
uint32_t pinorange_open_sale(const uint16_t *tabulation, size_t tabulation_length, const uint32_t *words,
                             size_t words_length, uint32_t key, uint32_t base, const int32_t *steps,
                             size_t steps_length, struct pinorange_sale *sale);

/* Closes a sale: what a head does at hang-up. Gives the price of the record, whatever happened since it was opened,
 * though the card may be gone from the list.
 * Never refused; it reads nothing but `*sale` and writes nothing, so that it may be asked as often as you like. */
uint32_t pinorange_close_sale(const struct pinorange_sale *sale);

/* Writes the house tabulation into a lent one of PINORANGE_TABULATION_LENGTH entries. Refused (1): another length, and
 * it stays. */
uint32_t pinorange_house(uint16_t *tabulation, size_t tabulation_length);

/* The reference to the version at each call (pinorange_hashes.h). */
#ifdef PINORANGE_BOUND
#define pinorange_init(...) (pinorange_bind(), pinorange_init(__VA_ARGS__))
#define pinorange_bulk_load(...) (pinorange_bind(), pinorange_bulk_load(__VA_ARGS__))
#define pinorange_insert(...) (pinorange_bind(), pinorange_insert(__VA_ARGS__))
#define pinorange_remove(...) (pinorange_bind(), pinorange_remove(__VA_ARGS__))
#define pinorange_check(...) (pinorange_bind(), pinorange_check(__VA_ARGS__))
#define pinorange_lookup(...) (pinorange_bind(), pinorange_lookup(__VA_ARGS__))
#define pinorange_stash(...) (pinorange_bind(), pinorange_stash(__VA_ARGS__))
#define pinorange_trail(...) (pinorange_bind(), pinorange_trail(__VA_ARGS__))
#define pinorange_salvage(...) (pinorange_bind(), pinorange_salvage(__VA_ARGS__))
#define pinorange_open_sale(...) (pinorange_bind(), pinorange_open_sale(__VA_ARGS__))
#define pinorange_close_sale(...) (pinorange_bind(), pinorange_close_sale(__VA_ARGS__))
#define pinorange_house(...) (pinorange_bind(), pinorange_house(__VA_ARGS__))
#endif

#ifdef __cplusplus
}
#endif

#endif
