/* The checks of all subjects: how many were made, and how many were wrong. */
#ifndef CHECK_H
#define CHECK_H

#include <stdbool.h>

enum { SHOWN = 20 }; /* so many wrong checks are printed */

extern unsigned tried, wrong;
extern bool in_histories; /* the directed cases come first, the rounds second */

/* Counts a check, and says what was wrong and where. Returns `good`. */
bool check(bool good, const char *what, const char *where);

#endif
