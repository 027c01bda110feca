#include "random.h"

uint64_t random_bits(uint64_t *state)
{
    *state ^= *state << 13;
    *state ^= *state >> 7;
    *state ^= *state << 17;
    return *state;
}

size_t random_below(uint64_t *state, size_t count)
{
    return (size_t)(random_bits(state) % count);
}

int random_between(uint64_t *state, int least, int most)
{
    return least + (int)random_below(state, (size_t)(most - least + 1));
}

bool random_chance(uint64_t *state, unsigned percent)
{
    return random_bits(state) % 100 < percent;
}
