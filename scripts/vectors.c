/* The two slots of 1,000 keys under the house tabulation, as the library gives them: a line r,station,key,first,second
 * each, for whoever tries a hash of his own (docs/TILL.md). First keys at the edges of sizes, stations and bytes, then
 * any; the same at each run. scripts/vectors compiles it. */
#include <stdio.h>
#include "pinorange.h"

enum { VECTORS = 1000 };

static uint16_t tabulation[PINORANGE_TABULATION_LENGTH];
static const uint32_t edge_r[] = {PINORANGE_MAX_SLOTS, 1, 2, 1000};
static const uint32_t edge_stations[] = {17, 0, PINORANGE_MAX_STATION};
/* A first part's bytes change at 256 and its powers, and a key has one digit more. */
static const uint32_t edge_keys[] = {410017, 999001, 4294967295u, 10, 19, 2559, 2560, 655359, 655360, 167772159,
                                     167772160};

#define COUNT(array) ((uint32_t)(sizeof(array) / sizeof(array)[0]))
#define EDGES (COUNT(edge_r) * COUNT(edge_stations) * COUNT(edge_keys))

/* A plain generator, so that the file is the same everywhere; its high bits are the better ones. */
static uint32_t random_below(uint32_t bound)
{
    static uint64_t state = 1;
    state = state * 6364136223846793005u + 1442695040888963407u;
    return (uint32_t)((state >> 32) % bound);
}

static uint32_t show(uint32_t r, uint32_t station, uint32_t key)
{
    uint32_t first, second;
    uint32_t answer = pinorange_hashes(tabulation, PINORANGE_TABULATION_LENGTH, r, station, key, &first, &second);
    if (answer == PINORANGE_DONE)
        printf("%u,%u,%u,%u,%u\n", (unsigned)r, (unsigned)station, (unsigned)key, (unsigned)first, (unsigned)second);
    return answer;
}

static uint32_t show_edge(uint32_t i)
{
    uint32_t size = i / (COUNT(edge_keys) * COUNT(edge_stations));
    uint32_t station = i / COUNT(edge_keys) % COUNT(edge_stations);
    return show(edge_r[size], edge_stations[station], edge_keys[i % COUNT(edge_keys)]);
}

/* Half of them in tables of the largest size, where most of a sum is seen. */
static uint32_t show_any(void)
{
    uint32_t station = random_below(PINORANGE_MAX_STATION + 1);
    uint32_t key = 10 + random_below(UINT32_MAX - 9);
    uint32_t r = random_below(2) ? PINORANGE_MAX_SLOTS : 1 + random_below(PINORANGE_MAX_SLOTS);
    return show(r, station, key);
}

int main(void)
{
    if (pinorange_house(tabulation, PINORANGE_TABULATION_LENGTH) != PINORANGE_DONE)
        return 1;
    printf("r,station,key,first,second\n");
    for (uint32_t i = 0; i < VECTORS; i++)
        if ((i < EDGES ? show_edge(i) : show_any()) != PINORANGE_DONE)
            return 1;
    return 0;
}
