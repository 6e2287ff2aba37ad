/* The reader against a second one. */
#ifndef READER_H
#define READER_H

#include <stddef.h>
#include <stdint.h>

/* Number and table of both readers. Returns the number. */
uint32_t compare_readers(const uint8_t *text, size_t length);

#endif
