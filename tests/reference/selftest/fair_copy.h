/* U1's clean print against a second one. */
#ifndef FAIR_COPY_H
#define FAIR_COPY_H

#include <stddef.h>
#include <stdint.h>

/* Both accounts of reading, then both of the clean print. Returns the linker's number. */
uint32_t compare_accounts(const uint8_t *text, size_t length);

#endif
