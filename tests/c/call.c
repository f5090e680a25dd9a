/* One call, of the hashes, which both libraries have: what tests/headers compiles with headers of several versions and
 * links. Exits with 0 when the call is refused as it should be. */
#include "pinorange_hashes.h"

static const uint16_t book[1] = {0};

uint32_t ask(uint32_t key);
uint32_t ask(uint32_t key)
{
    uint32_t first, second;
    return pinorange_hashes(book, 1, 1, 0, key, &first, &second);
}

int main(void)
{
    return ask(10) != PINORANGE_WRONG_TABULATION;
}
