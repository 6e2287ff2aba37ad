/* A fair copy in plain C with the answers of rec_fair_copy, to measure against. */
#ifndef PLAIN_COPY_H
#define PLAIN_COPY_H

#include <stddef.h>
#include <stdint.h>

int32_t plain_fair_copy(const uint8_t *text, size_t length, uint8_t *paper, size_t room, size_t *written);

#endif
