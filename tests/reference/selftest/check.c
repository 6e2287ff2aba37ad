#include "check.h"

#include <stdio.h>

unsigned tried, wrong;
bool in_histories;

bool check(bool good, const char *what, const char *where)
{
    tried++;
    if (!good) {
        wrong++;
        if (wrong <= SHOWN)
            printf("WRONG: %s: %s\n", what, where);
    }
    return good;
}
