/* A checked call without a list and without a hook of its own, on a card list or, with an argument, on a stolen-card
 * list: it must end in abort(), not in the library. */
#define PINORANGE_CHECKED
#include "pinorange_stolen.h"

int main(int count, char **arguments)
{
    (void)arguments;
    if (count > 1)
        return pinorange_stolen_list_check(0) == PINORANGE_DONE;
    return pinorange_list_check(0) == PINORANGE_DONE;
}
