/* The hashes of a key, for whoever links the hashing alone (libtabulation.a), without the dictionary. libpinorange.a
 * has this call, too: link one of the two.
 *
 * The function below is proved: it reads nothing outside the `length` entries it is lent, writes nothing but the two
 * out-parameters, and returns for every input. The promise is stated in crates/tabulation/src/lib.rt, the words of the
 * trade in docs/GLOSSARY.md: key is its card, slot its pocket, table its rack, tabulation its spread book. */
#ifndef PINORANGE_HASHES_H
#define PINORANGE_HASHES_H

#include <stddef.h>
#include <stdint.h>

#ifdef __cplusplus
extern "C" {
#endif

/* The version of the library and of the layout of the words: the text, and its three numbers for #if. Words are read by
 * libraries with the same first number alone: lay a list afresh when it changes, and do not mix heads whose first
 * numbers differ. CHANGELOG.md says what each version changes. */
#define PINORANGE_VERSION "4.5.0"
#define PINORANGE_VERSION_MAJOR 4
#define PINORANGE_VERSION_MINOR 5
#define PINORANGE_VERSION_PATCH 0

/* What was compiled with a header of another first number does not link: each call brings a reference to a symbol with
 * that number in its name, which the library has (pinorange_version_4, a function that answers 4). It takes no
 * instruction, and four bytes of constants in the whole program. For it each call is a macro of its own name, too;
 * (pinorange_hashes)(..) in brackets, and a pointer to a call, are the bare function, without the reference. A file
 * that defines functions of these names itself, to stand in for the library in a test, defines PINORANGE_UNBOUND before
 * it includes a header: then there are no such macros. Other compilers than gcc and clang have no reference. */
#if defined(__GNUC__) && defined(__ELF__) && defined(__x86_64__) && !defined(PINORANGE_UNBOUND)
#define PINORANGE_BOUND
extern __inline__ __attribute__((__always_inline__, __gnu_inline__)) void pinorange_bind(void)
{
    /* The reference stands in a constant, of which the linker keeps one. The empty relocation at the call ties it to
     * the code, so that it is dropped with it and not before; by itself newer lld would let it pass. */
    __asm__ volatile(".ifndef pinorange_bound_%c0\n\t"
                     ".pushsection .rodata.pinorange_bound_%c0,\"aG\",@progbits,pinorange_bound_%c0,comdat\n\t"
                     ".weak pinorange_bound_%c0\n"
                     "pinorange_bound_%c0:\n\t"
                     ".globl pinorange_version_%c0\n\t"
                     ".reloc ., R_X86_64_PLT32, pinorange_version_%c0\n\t"
                     ".long 0\n\t"
                     ".popsection\n\t"
                     ".endif\n\t"
                     ".reloc ., BFD_RELOC_NONE, pinorange_bound_%c0" : : "i"(PINORANGE_VERSION_MAJOR));
}
#endif

/* The numbers that a call answers. */
#define PINORANGE_DONE 0u             /* accepted */
#define PINORANGE_WRONG_TABULATION 1u /* the tabulation is not 2,560 entries long */
#define PINORANGE_WRONG_SHAPE 2u      /* here: r is not 1 to 1,024, or the station is above 255 */
#define PINORANGE_BLANK_KEY 5u        /* the key is below 10: it has no first part */

#define PINORANGE_TABULATION_LENGTH 2560u /* entries of a tabulation: 1,280 for table 0, then 1,280 for table 1 */
#define PINORANGE_MAX_SLOTS 1024u         /* the largest r */
#define PINORANGE_MAX_STATION 255u        /* the largest station number */

/* The first part of a key: all but its last decimal digit, which is its issue. The hashes come from it alone. */
#define PINORANGE_FIRST_PART(key) ((key) / 10u)

/* The two slots in which a key may sit, one in each table of r slots, at a station: 0 to PINORANGE_MAX_STATION, the
 * number that the dictionary was laid with (its word 4). At another station the same keys are spread otherwise. Two
 * issues of one first part have the same two slots.
 *
 * Reads: the `length` entries of `tabulation` (any length, any content).
 * Done (0): `*table0` and `*table1` are the key's hashes, both below r: in table k the sum, over the bytes b0 (lowest)
 *   to b3 of the key's first part, of entry 1280 k + 256 i + bi, and of entry 1280 k + 1024 + ((b0 + station) modulo
 *   256); all of it modulo r.
 * Refused (1, 2 or 5, tried in that order): `*table0` and `*table1` stay as they were.
 * The tabulation is never written. No pointer may be null (a length of 0 needs one, too), all are aligned, and `table0`
 * and `table1` lie apart from each other and from the tabulation.
 *
 * Which tabulation: the one that the heads have. Unless the station has its own, that is the house tabulation: entry i,
 * for i from 0 to 2,559, is (25,173 * i * i + 13,849) modulo 65,521. The product takes more than 32 bits: work it out
 * in uint64_t. docs/TILL.md has it in C, and says where 1,000 test vectors are. */
uint32_t pinorange_hashes(const uint16_t *tabulation, size_t length, uint32_t r, uint32_t station, uint32_t key,
                          uint32_t *table0, uint32_t *table1);

#ifdef PINORANGE_BOUND
#define pinorange_hashes(...) (pinorange_bind(), pinorange_hashes(__VA_ARGS__))
#endif

#ifdef __cplusplus
}
#endif

#endif
