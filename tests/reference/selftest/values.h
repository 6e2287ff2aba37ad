/* What division and money share: the values' bound and size, and random values. */
#ifndef VALUES_H
#define VALUES_H

#include "../../differential/texts.h"

/* The bound once more, so that that of rec.h is tried too. */
enum { MOST_VALUE = 999999999 };

/* The size of a value. */
int64_t without_sign(int64_t value);

/* The size, or minus it. */
int32_t either_sign(struct random *r, int32_t size);

/* Of 1 to 9 digits, most of them long, or near the bound. */
int32_t any_size(struct random *r);

#endif
