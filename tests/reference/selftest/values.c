#include "values.h"

int64_t without_sign(int64_t value)
{
    return value < 0 ? -value : value;
}

int32_t either_sign(struct random *r, int32_t size)
{
    return chance(r, 50) ? -size : size;
}

int32_t any_size(struct random *r)
{
    uint32_t over = 10;
    if (chance(r, 10))
        return MOST_VALUE - (int32_t)below(r, 3);
    while (over <= MOST_VALUE && chance(r, 90))
        over *= 10;
    return (int32_t)below(r, over);
}
