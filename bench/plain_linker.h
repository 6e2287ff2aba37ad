/* A linker in plain C with the answers of rec_link, to measure against. */
#ifndef PLAIN_LINKER_H
#define PLAIN_LINKER_H

#include <stddef.h>
#include <stdint.h>

int32_t plain_link(const uint8_t *text, size_t length, int32_t *cells, size_t room, size_t *used);

#endif
