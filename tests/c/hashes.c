/* Links the hashing alone, as the till maker does, and checks the test board of the specification with all issues of
 * its keys, every lowest byte of a first part at every station, every refusal and what a refusal leaves. Exits with 0
 * when all of it holds. */
#include "pinorange_hashes.h"

#include <stdio.h>
#include <string.h>

static uint16_t tabulation[PINORANGE_TABULATION_LENGTH + 1];
static int failures;

/* One call: its answer, and what the out-parameters hold afterwards. 77 and 88 stand there before. */
static void expect(const char *what, size_t length, uint32_t r, uint32_t station, uint32_t key, uint32_t answer,
                   uint32_t h0, uint32_t h1)
{
    uint32_t table0 = 77, table1 = 88;
    uint32_t n = pinorange_hashes(tabulation, length, r, station, key, &table0, &table1);
    if (n != answer || table0 != h0 || table1 != h1) {
        printf("%s, station %u, key %u: answer %u with %u, %u; expected %u with %u, %u\n", what, (unsigned)station,
               (unsigned)key, (unsigned)n, (unsigned)table0, (unsigned)table1, (unsigned)answer, (unsigned)h0,
               (unsigned)h1);
        failures++;
    }
}

/* The hashes of all ten issues of a first part, which are the same. */
static void expect_issues(const char *what, uint32_t r, uint32_t station, uint32_t first_part, uint32_t h0, uint32_t h1)
{
    for (uint32_t issue = 0; issue < 10; issue++) {
        expect(what, PINORANGE_TABULATION_LENGTH, r, station, 10 * first_part + issue, PINORANGE_DONE, h0, h1);
        if (PINORANGE_FIRST_PART(10 * first_part + issue) != first_part) {
            printf("issue %u of %u has another first part\n", (unsigned)issue, (unsigned)first_part);
            failures++;
        }
    }
}

int main(void)
{
    const size_t length = PINORANGE_TABULATION_LENGTH;

    /* the test board: entry v is v, entry 1,280 + v is v / 16, for v from 0 to 255; all others 0, so that the station
     * has no part */
    for (uint32_t v = 0; v < 256; v++) {
        tabulation[v] = (uint16_t)v;
        tabulation[1280 + v] = (uint16_t)(v / 16);
    }
    for (uint32_t part = 1; part < 256; part++) {
        expect_issues("test board", 4, 0, part, part % 4, part / 16 % 4);
        expect_issues("test board", 4, 256 - part, part, part % 4, part / 16 % 4);
    }
    /* the largest first part, 429,496,729, has the lowest byte 153, and six issues */
    for (uint32_t issue = 0; issue < 6; issue++) {
        uint32_t key = 4294967290u + issue;
        expect("largest first part", length, 4, 0, key, PINORANGE_DONE, 1, 1);
        expect("largest first part", length, 1024, PINORANGE_MAX_STATION, key, PINORANGE_DONE, 153, 9);
    }
    expect_issues("one slot", 1, 0, 20, 0, 0);

    /* the same numbers in the stretches for stations, and zeros elsewhere: the sum of lowest byte and station takes the
     * first part's place, and wraps at 256 */
    memset(tabulation, 0, sizeof tabulation);
    for (uint32_t v = 0; v < 256; v++) {
        tabulation[1024 + v] = (uint16_t)v;
        tabulation[1280 + 1024 + v] = (uint16_t)(v / 16);
    }
    for (uint32_t station = 0; station <= PINORANGE_MAX_STATION; station++)
        for (uint32_t byte = 0, sum = station; byte < 256; byte++, sum = sum == 255 ? 0 : sum + 1)
            expect_issues("lowest byte", 1024, station, 0x10FFEE00u + byte, sum, sum / 16);

    /* refusals, each with causes for those that are tried behind it */
    expect("no tabulation", 0, 4, 0, 10, PINORANGE_WRONG_TABULATION, 77, 88);
    expect("short tabulation", length - 1, 4, 0, 10, PINORANGE_WRONG_TABULATION, 77, 88);
    expect("long tabulation", length + 1, 4, 0, 10, PINORANGE_WRONG_TABULATION, 77, 88);
    expect("tabulation without stations", 2048, 4, 0, 10, PINORANGE_WRONG_TABULATION, 77, 88);
    expect("r = 0", length, 0, 0, 10, PINORANGE_WRONG_SHAPE, 77, 88);
    expect("r = 1,025", length, 1025, 0, 10, PINORANGE_WRONG_SHAPE, 77, 88);
    expect("no station", length, 4, PINORANGE_MAX_STATION + 1, 10, PINORANGE_WRONG_SHAPE, 77, 88);
    expect("no station", length, 4, 65536, 10, PINORANGE_WRONG_SHAPE, 77, 88);
    expect("no station", length, 4, 4294967295u, 10, PINORANGE_WRONG_SHAPE, 77, 88);
    for (uint32_t key = 0; key < 10; key++) {
        expect("no first part", length, 4, PINORANGE_MAX_STATION, key, PINORANGE_BLANK_KEY, 77, 88);
        expect("1 before 2", length - 1, 0, 256, key, PINORANGE_WRONG_TABULATION, 77, 88);
        expect("2 before 5, r", length, 0, 0, key, PINORANGE_WRONG_SHAPE, 77, 88);
        expect("2 before 5, station", length, 4, 256, key, PINORANGE_WRONG_SHAPE, 77, 88);
    }

    printf("hashes.c: %d failures\n", failures);
    return failures != 0;
}
